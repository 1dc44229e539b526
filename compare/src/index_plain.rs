//! An index of label uses in plain Rust, written from document 02's P1 and P6: made afresh, and
//! with one use added after the other. The emit call beside it is the judge's or the second
//! implementation's.

use crate::answer::Answer;
use crate::index_input::{IndexedInput, IndexedOutcome, MakeInput, MakeOutcome};
use crate::line_input::{LineInput, LineOutcome};
use crate::model::{is_label, is_pending, owner_and_name};
use crate::model_line::{self, filled};
use crate::model_list::{Faults, List, LIMIT};
use crate::records::{bodies, kind, u32_at, write, Record};
use std::collections::{BTreeMap, HashSet};

const LABELS: u32 = 6;
const INDEX: u32 = 7;

/// "the owner (0xFFFFFFFF for all)"
const FOR_ALL: u32 = 0xffff_ffff;

/// A name, whether it is unknown, and its label's owner or its own source: "sorted by bytes";
/// "equal names sort known first, then by it".
type Key<'a> = (&'a [u8], bool, u32);

/// What each pending uses; none for a constant.
fn keys<'a>(labels: &[u8], pending: &'a [u8]) -> Vec<Option<Key<'a>>> {
    let known: HashSet<(u32, &[u8])> = bodies(labels)
        .map(|(_, kind, body)| match kind {
            kind::OWNED_LABEL => (u32_at(body, 4), &body[8..]),
            _ => (FOR_ALL, &body[4..]),
        })
        .collect();

    bodies(pending)
        .map(|(_, _, body)| {
            let (source, name) = (u32_at(body, 24), &body[32..]);
            let owner = [source, FOR_ALL]
                .into_iter()
                .find(|owner| known.contains(&(*owner, name)));

            (body[15] == 1).then_some(match owner {
                Some(owner) => (name, false, owner),
                None => (name, true, source),
            })
        })
        .collect()
}

/// "Its record, kind 39: known flag (1 byte), count (2), list numbers (2 each)", owner or source
/// (4), name.
fn record((name, unknown, owner): Key, numbers: &[u16]) -> Record {
    let mut body = vec![!unknown as u8];
    body.extend((numbers.len() as u16).to_le_bytes());
    body.extend(numbers.iter().flat_map(|number| number.to_le_bytes()));
    body.extend(owner.to_le_bytes());
    body.extend(name);

    Record {
        kind: kind::USE,
        body,
    }
}

/// The index, made afresh. For lists to which refusal 1 is not due.
pub fn afresh(labels: &[u8], pending: &[u8]) -> Vec<u8> {
    let mut uses: BTreeMap<Key, Vec<u16>> = BTreeMap::new();

    for (number, key) in keys(labels, pending).into_iter().enumerate() {
        if let Some(key) = key {
            uses.entry(key).or_default().push(number as u16);
        }
    }

    write(
        &uses
            .iter()
            .map(|(key, numbers)| record(*key, numbers))
            .collect::<Vec<_>>(),
    )
}

/// The same, each use put in where it sorts.
pub fn one_by_one(labels: &[u8], pending: &[u8]) -> Vec<u8> {
    let mut uses: Vec<(Key, Vec<u16>)> = vec![];

    for (number, key) in keys(labels, pending).into_iter().enumerate() {
        let Some(key) = key else { continue };

        match uses.binary_search_by_key(&key, |(key, _)| *key) {
            Ok(place) => uses[place].1.push(number as u16),
            Err(place) => uses.insert(place, (key, vec![number as u16])),
        }
    }

    write(
        &uses
            .iter()
            .map(|(key, numbers)| record(*key, numbers))
            .collect::<Vec<_>>(),
    )
}

/// The sides of a comparison: an emit call without index, and the index.
pub struct Side {
    pub line: fn(&IndexedInput) -> LineOutcome,
    pub index: fn(&[u8], &[u8]) -> Vec<u8>,
}

fn pendings(line: &LineInput) -> &[u8] {
    &line.pending[..line.counts[1] as usize]
}

impl Side {
    /// Refusals 1 and 2: "in refusal 2 the least a goes first".
    fn refusal_of_lists(&self, input: &IndexedInput) -> Option<Answer> {
        let refusal = |number, a, b| Answer {
            number,
            source: 0,
            index: 0,
            a,
            b,
            last: input.line.position,
        };
        let of_line = model_line::refusal_of_lists(&input.line);
        if of_line.is_some_and(|answer| answer.number == 1) {
            return of_line;
        }

        let mut faults = Faults::new();
        let labels = List::of_kinds(&input.labels, LABELS, is_label, &mut faults);
        let index = filled(&input.index, input.fill, INDEX, &mut faults);

        // "One handed in that is not the earlier list's by these labels gets refusal 1 (b 0)."
        if faults.least().is_none() && index != (self.index)(&input.labels, pendings(&input.line)) {
            faults.add(INDEX, 0);
        }
        if let Some((a, b)) = faults.least() {
            return Some(refusal(1, a, b));
        }

        of_line.or(labels
            .least_repeat(owner_and_name)
            .map(|place| refusal(2, LABELS, place)))
    }

    pub fn do_indexed(&self, input: &IndexedInput) -> IndexedOutcome {
        if let Some(refusal) = self.refusal_of_lists(input) {
            return input.refused(refusal);
        }
        let line = (self.line)(input);
        if line.answer.number != 0 {
            return input.refused(line.answer);
        }

        let made = (self.index)(&input.labels, &line.pending[..line.counts[1] as usize]);
        let mut index = input.index.clone();

        // "17, the index buffer is too short, looked at straight after 12"
        let Some(room) = index.get_mut(..made.len()) else {
            return input.refused(Answer {
                number: 17,
                source: u32_at(&input.line.mnemonic, 4),
                index: u32_at(&input.line.mnemonic, 8),
                a: 0,
                b: 0,
                last: line.answer.last,
            });
        };
        room.copy_from_slice(&made);

        IndexedOutcome {
            line,
            index,
            fill: made.len() as u32,
        }
    }

    pub fn make_index(&self, input: &MakeInput) -> MakeOutcome {
        let mut index = input.index.clone();
        let answer = self.make_into(&input.pending, input.fill, &input.labels, &mut index);

        MakeOutcome { answer, index }
    }

    pub fn make_into(&self, pending: &[u8], fill: u32, labels: &[u8], index: &mut [u8]) -> Answer {
        let mut faults = Faults::new();
        let refusal = |number, a, b| Answer {
            number,
            source: 0,
            index: 0,
            a,
            b,
            last: 0,
        };

        let pending = filled(pending, fill, 0, &mut faults);
        List::of(pending, 0, 36, |body| is_pending(body, 16), &mut faults);
        let known = List::of_kinds(labels, 1, is_label, &mut faults);
        if index.len() > LIMIT {
            faults.add(2, LIMIT);
        }
        if let Some((a, b)) = faults.least() {
            return refusal(1, a, b);
        }
        if let Some(place) = known.least_repeat(owner_and_name) {
            return refusal(2, 1, place);
        }

        let made = (self.index)(labels, pending);
        match index.get_mut(..made.len()) {
            None => refusal(17, 0, 0),
            Some(room) => {
                room.copy_from_slice(&made);
                Answer::accepted(made.len() as u32)
            }
        }
    }
}
