//! Damage that any record list can take.

use crate::random::Random;
use crate::records::{write, Record};

/// Damage to a list's bytes: one changed, some cut off, some added, a length that runs past.
pub fn any_bytes(random: &mut Random, list: &mut Vec<u8>) {
    if list.is_empty() {
        list.extend(random.bytes(1));
        return;
    }

    let place = random.below(list.len());

    match random.below(5) {
        0 | 1 => list[place] = random.u8(),
        2 => list[place] ^= 1 << random.below(8),
        3 => list.truncate(place),
        _ => {
            let count = random.within(1, 6);
            let extra = match random.one_in(2) {
                true => vec![0; count],
                false => random.bytes(count),
            };
            list.extend(extra);
        }
    }
}

/// Another kind in some record's head.
pub fn swap_kind(random: &mut Random, list: &mut [Record]) {
    if list.is_empty() {
        return;
    }
    let record = &mut list[random.below(list.len())];

    record.kind = match random.below(3) {
        0 => random.within(30, 42) as u16,
        1 => record.kind ^ 0x100,
        _ => random.pick(&[0, 3, 5, 8, 9, 15, 16, 16, 17]),
    };
}

/// A name, from `place` of some record's body on, of 0 or of the longest length and one more
/// bytes, or with a byte at or past the ends of 0x20 to 0x7E.
pub fn replace_name(random: &mut Random, list: &mut [Record], place: usize) {
    if list.is_empty() {
        return;
    }
    let body = &mut list[random.below(list.len())].body;
    if body.len() < place {
        return;
    }

    match random.below(3) {
        0 => body.truncate(place),
        1 => body.resize(place + random.pick(&[16, 17, 64, 65, 66]), b'x'),
        _ if body.len() > place => {
            let at = random.within(place, body.len() - 1);
            body[at] = random.pick(&[0, 0x0a, 0x1f, 0x20, 0x7e, 0x7f, 0x80, 0xff]);
        }
        _ => {}
    }
}

/// Makes a list of 65,535 to 65,538 or many more bytes, with records as far as they go.
pub fn grow(random: &mut Random, list: &mut Vec<u8>, filler: &Record) {
    let goal = random.pick(&[65_535, 65_536, 65_537, 65_537, 65_538, 70_000, 131_072]);
    let filler = write(std::slice::from_ref(filler));

    while list.len() + filler.len() <= goal {
        list.extend(&filler);
    }
    list.resize(goal.max(list.len()), 0);
}
