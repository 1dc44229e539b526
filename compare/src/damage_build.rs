//! Damaged build inputs: well-formed lists with one to three faults put in. Some damage leaves
//! the lists well formed; the model says which.

use crate::build_input::BuildInput;
use crate::damage::{any_bytes, grow, replace_name, swap_kind};
use crate::generate_build::BuildLists;
use crate::random::Random;
use crate::records::{addressed, entry, kind, Record, Reference};

pub fn damaged(random: &mut Random, mut lists: BuildLists) -> BuildInput {
    for _ in 0..random.below(4) {
        damage_records(random, &mut lists);
    }

    let mut input = lists.write();
    let most = random.pick(&[0, 0, 1, 1, 2]);

    for _ in 0..most {
        let list = match random.below(4) {
            0 => &mut input.labels,
            1 => &mut input.entry,
            2 => &mut input.regions,
            _ => &mut input.pending,
        };

        any_bytes(random, list);
    }

    if random.one_in(20) {
        let (list, filler) = match random.below(4) {
            0 => (&mut input.labels, addressed(kind::LABEL, 1, b"filler")),
            1 => (&mut input.entry, entry(&Reference::constant(4))),
            2 => (&mut input.regions, addressed(kind::REGION, 1, &[9; 500])),
            _ => (
                &mut input.pending,
                lists.pending.first().cloned().unwrap_or(filler_pending()),
            ),
        };

        grow(random, list, &filler);
    }

    input
}

fn filler_pending() -> Record {
    Record {
        kind: kind::PENDING,
        body: vec![0; 32],
    }
}

fn damage_records(random: &mut Random, lists: &mut BuildLists) {
    match random.below(14) {
        0 => {
            let list = any_list(random, lists);
            swap_kind(random, list);
        }
        1 => wrong_list(random, lists),
        2 => {
            // A name of 0 or 65 bytes, or one with a byte outside 0x20 to 0x7E.
            let (list, name) = match random.below(3) {
                0 => (&mut lists.labels, 4),
                1 => (&mut lists.entry, 17),
                _ => (&mut lists.pending, 32),
            };
            replace_name(random, list, name);
        }
        3 => {
            let count = lists.regions.len() as u16;
            let number = random.pick(&[count, count + 1, 16, 255, 256, 65535]);
            field(random, &mut lists.pending, 0, &number.to_le_bytes());
        }
        4 => {
            let patch = random.pick(&[5, 6, 128, 255]);
            field(random, &mut lists.pending, 14, &[patch]);
        }
        5 => {
            let form = random.pick(&[0, 1, 2, 255]);
            match random.one_in(3) {
                true => field(random, &mut lists.entry, 0, &[form]),
                false => field(random, &mut lists.pending, 15, &[form]),
            }
        }
        6 => form_zero(random, lists),
        7 | 8 => repeat_labels(random, lists),
        9 => {
            // A second entry, at times a third.
            for _ in 0..random.within(1, 2) {
                let again = lists.entry.first().cloned();
                lists
                    .entry
                    .push(again.unwrap_or_else(|| entry(&Reference::constant(8))));
            }
        }
        10 => {
            let address = random.u32();
            let bytes = random.below(6);
            while lists.regions.len() < random.pick(&[16, 17, 17, 18]) {
                lists
                    .regions
                    .push(addressed(kind::REGION, address, &[7; 5][..bytes.min(5)]));
            }
        }
        11 => lists.regions.clear(),
        12 => {
            // A body cut short or drawn out.
            let list = any_list(random, lists);
            if !list.is_empty() {
                let record = random.below(list.len());
                let length = match random.one_in(2) {
                    true => random.below(list[record].body.len() + 1),
                    false => list[record].body.len() + random.within(1, 40),
                };
                list[record].body.resize(length, 0);
            }
        }
        _ => {
            // A record taken out: fewer regions make pendings without a region.
            let list = any_list(random, lists);
            if !list.is_empty() {
                list.remove(random.below(list.len()));
            }
        }
    }
}

fn any_list<'a>(random: &mut Random, lists: &'a mut BuildLists) -> &'a mut Vec<Record> {
    match random.below(4) {
        0 => &mut lists.labels,
        1 => &mut lists.entry,
        2 => &mut lists.regions,
        _ => &mut lists.pending,
    }
}

/// A record, whole, in a list that is not its own.
fn wrong_list(random: &mut Random, lists: &mut BuildLists) {
    let from = any_list(random, lists);
    if from.is_empty() {
        return;
    }
    let record = from[random.below(from.len())].clone();
    let to = any_list(random, lists);

    to.insert(random.below(to.len() + 1), record);
}

/// Other bytes at `place` of some record's body.
fn field(random: &mut Random, list: &mut [Record], place: usize, bytes: &[u8]) {
    if list.is_empty() {
        return;
    }
    let body = &mut list[random.below(list.len())].body;

    if body.len() >= place + bytes.len() {
        body[place..place + bytes.len()].copy_from_slice(bytes);
    }
}

/// A constant with a name, or with a location that is not zero.
fn form_zero(random: &mut Random, lists: &mut BuildLists) {
    let (list, form) = match random.one_in(3) {
        true => (&mut lists.entry, 0),
        false => (&mut lists.pending, 15),
    };
    if list.is_empty() {
        return;
    }
    let record = random.below(list.len());
    let body = &mut list[record].body;
    if body.len() < form + 17 {
        return;
    }

    body.truncate(form + 17);
    body[form] = 0;
    body[form + 9..].fill(0);

    match random.one_in(2) {
        true => body.push(b'n'),
        false => {
            let place = form + 9 + random.below(8);
            body[place] = random.pick(&[1, 128, 255]);
        }
    }
}

/// Two or three labels of one name, at any places, and at times of another name as well.
fn repeat_labels(random: &mut Random, lists: &mut BuildLists) {
    if lists.labels.is_empty() {
        return;
    }

    for _ in 0..random.within(1, 2) {
        let mut again = lists.labels[random.below(lists.labels.len())].clone();
        if again.body.len() >= 4 && random.one_in(2) {
            again.body[..4].copy_from_slice(&random.u32().to_le_bytes());
        }
        lists
            .labels
            .insert(random.below(lists.labels.len() + 1), again);
    }
}
