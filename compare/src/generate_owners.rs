//! Owners for the labels of a well-formed build (document 02, P6). Labels come to share names, and
//! what named one of them still does, by its source.

use crate::generate_build::BuildLists;
use crate::generate_full_build::{numbered, patch_first_words};
use crate::random::Random;
use crate::records::{entry, Label, Pending, Record, Reference};

/// A source, often one of few, so that sources and owners meet, and often an end of the range.
pub fn source(random: &mut Random) -> u32 {
    match random.below(8) {
        0 => random.u32(),
        _ => random.pick(&[0, 1, 2, 3, 0xffff_fffe, 0xffff_ffff]),
    }
}

/// An owner: any source but 0xFFFFFFFF.
pub fn owner(random: &mut Random) -> u32 {
    source(random).min(0xffff_fffe)
}

/// The labels as they were, and as they are with owners, in one order.
struct Owned {
    before: Vec<Label>,
    after: Vec<Label>,
}

/// Puts owners in. At times none, and at times some sources are then drawn anew, so that a name
/// resolves to another label or to none.
pub fn put_owners(random: &mut Random, lists: &mut BuildLists) {
    if random.one_in(10) {
        return;
    }
    let before: Vec<Label> = lists
        .labels
        .iter()
        .map(|record| Label::read(record.kind, &record.body))
        .collect();
    let owned = Owned {
        after: owned_labels(random, &before),
        before,
    };
    let stirred = random.one_in(5);
    let mut refer = |reference: &mut Reference| {
        if reference.form == 1 {
            owned.refer(random, reference);
            if stirred && random.one_in(4) {
                reference.source = source(random);
            }
        }
    };

    for record in &mut lists.entry {
        let mut reference = Reference::read(&record.body);
        refer(&mut reference);
        *record = entry(&reference);
    }
    for record in &mut lists.pending {
        let mut pending = Pending::read(&record.body);
        refer(&mut pending.reference);
        *record = pending.record();
    }
    lists.labels = records(&owned.after);
}

fn records(labels: &[Label]) -> Vec<Record> {
    labels.iter().map(Label::record).collect()
}

/// Labels at the same addresses, half of them with the name of one before: with another owner, or
/// with none.
fn owned_labels(random: &mut Random, before: &[Label]) -> Vec<Label> {
    let mut after: Vec<Label> = vec![];

    for label in before {
        let owner = match random.one_in(3) {
            true => None,
            false => Some(owner(random)),
        };
        let shared = match random.one_in(2) {
            true => after.get(random.below(after.len())),
            false => None,
        };
        let name = shared
            .map(|shared| &shared.name)
            .filter(|name| has(&after, owner, name).is_none())
            .unwrap_or(&label.name);

        after.push(Label {
            address: label.address,
            owner,
            name: name.clone(),
        });
    }

    after
}

fn has<'a>(labels: &'a [Label], owner: Option<u32>, name: &[u8]) -> Option<&'a Label> {
    labels
        .iter()
        .find(|label| label.owner == owner && label.name == name)
}

impl Owned {
    /// What named a label names it still. A name that was unknown stays so, at times as one that
    /// only other owners have.
    fn refer(&self, random: &mut Random, reference: &mut Reference) {
        let known = self
            .before
            .iter()
            .position(|label| label.name == reference.name);
        let some = random.below(self.after.len());
        let label = match known {
            Some(number) => &self.after[number],
            None if self.after.is_empty() => return,
            None => &self.after[some],
        };
        let all = has(&self.after, None, &label.name).is_some();

        match (known, label.owner) {
            (Some(_), Some(owner)) => reference.source = owner,
            (None, _) if all || random.one_in(2) => return,
            _ => reference.source = self.no_owner(random, &label.name),
        }
        reference.name = label.name.clone();
    }

    /// A source that owns no label of this name.
    fn no_owner(&self, random: &mut Random, name: &[u8]) -> u32 {
        loop {
            let source = source(random);

            if has(&self.after, Some(source), name).is_none() {
                return source;
            }
        }
    }
}

/// A label list of 65,536 bytes: names of the longest length, each in four owners, or names of
/// one byte, each in many.
pub fn full_labels(random: &mut Random, mut lists: BuildLists) -> BuildLists {
    // Records of 76 bytes and one of 24, or of 13 and one of 16.
    let (count, shared, length, last) = match random.one_in(2) {
        true => (862, 4, 64, 12),
        false => (5040, 80, 1, 4),
    };
    let mut labels: Vec<Label> = (0..count)
        .map(|number| Label {
            address: random.u32(),
            owner: Some(number % shared),
            name: match length {
                1 => vec![b'!' + (number / shared) as u8],
                _ => numbered((number / shared) as usize, length),
            },
        })
        .collect();
    let used = labels[random.below(labels.len())].clone();
    let other = Label {
        address: random.u32(),
        owner: Some(shared),
        name: vec![b'~'; last],
    };

    labels.insert(random.below(labels.len()), other);
    lists.labels = records(&labels);
    patch_first_words(random, &mut lists, used.owner.unwrap(), &used.name);

    lists
}
