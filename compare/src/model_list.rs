//! Record lists as refusal 1 sees them: which records of one buffer break the layout, and where.

use std::collections::HashSet;
use std::hash::Hash;
use std::ops::RangeInclusive;

/// "A lent buffer is at most 65,536 bytes."
pub const LIMIT: usize = 65_536;

/// Every place where refusal 1 is due, as its a and b.
pub struct Faults(Vec<(u32, u32)>);

impl Faults {
    pub fn new() -> Faults {
        Faults(vec![])
    }

    pub fn add(&mut self, buffer: u32, place: usize) {
        self.0.push((buffer, place as u32));
    }

    /// "the least a, then the least b"
    pub fn least(&self) -> Option<(u32, u32)> {
        self.0.iter().min().copied()
    }
}

/// The records of a list, as far as one can be told from the next.
pub struct List<'a> {
    buffer: u32,
    /// Each with its place and kind.
    pub records: Vec<(usize, u16, &'a [u8])>,
}

impl<'a> List<'a> {
    /// Cuts `bytes` into records and adds a fault for each of another kind and for each whose
    /// body fails `test`. A record that runs past the end is a fault and the last one.
    pub fn of(
        bytes: &'a [u8],
        buffer: u32,
        kind: u16,
        test: impl Fn(&[u8]) -> bool,
        faults: &mut Faults,
    ) -> List<'a> {
        List::of_kinds(bytes, buffer, |met, body| met == kind && test(body), faults)
    }

    pub fn of_kinds(
        bytes: &'a [u8],
        buffer: u32,
        test: impl Fn(u16, &[u8]) -> bool,
        faults: &mut Faults,
    ) -> List<'a> {
        let mut list = List {
            buffer,
            records: vec![],
        };

        // "the limit, such a buffer's records being unread"
        if bytes.len() > LIMIT {
            faults.add(buffer, LIMIT);
            return list;
        }

        let mut rest = bytes;

        while !rest.is_empty() {
            let place = bytes.len() - rest.len();

            let Some((head, behind)) = rest.split_first_chunk::<4>() else {
                faults.add(buffer, place);
                break;
            };
            let length = head[0] as usize | (head[1] as usize) << 8;
            let met = head[2] as u16 | (head[3] as u16) << 8;

            let Some((body, next)) = behind.split_at_checked(length) else {
                faults.add(buffer, place);
                break;
            };

            if !test(met, body) {
                faults.add(buffer, place);
            }

            list.records.push((place, met, body));
            rest = next;
        }

        list
    }

    /// A record too many is a fault at its own place.
    pub fn at_most(&self, count: usize, faults: &mut Faults) {
        if let Some((place, ..)) = self.records.get(count) {
            faults.add(self.buffer, *place);
        }
    }

    /// The place of the first record whose name an earlier one has.
    pub fn least_repeat<N: Eq + Hash>(&self, name: impl Fn(u16, &[u8]) -> N) -> Option<u32> {
        let mut seen = HashSet::new();

        self.records
            .iter()
            .find(|(_, kind, body)| !seen.insert(name(*kind, body)))
            .map(|(place, ..)| *place as u32)
    }
}

/// "Names and texts use bytes 0x20 to 0x7E."
pub fn is_name(bytes: &[u8], lengths: RangeInclusive<usize>) -> bool {
    lengths.contains(&bytes.len()) && bytes.iter().all(|byte| (0x20..=0x7e).contains(byte))
}
