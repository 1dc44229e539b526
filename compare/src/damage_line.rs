//! Damaged emit calls: well-formed ones with one to three faults put in. Some damage leaves the
//! call well formed; the model says which.

use crate::damage::{any_bytes, grow, replace_name, swap_kind};
use crate::descriptors::made_up;
use crate::generate_line::Line;
use crate::line_input::LineInput;
use crate::random::Random;
use crate::records::{kind, Record};
use crate::tokens::{of_kind, COMMA};

pub fn damaged(random: &mut Random, mut line: Line) -> LineInput {
    for _ in 0..random.below(3) {
        damage_records(random, &mut line);
    }

    let mut input = line.write();

    for _ in 0..random.pick(&[0, 0, 1, 2]) {
        match random.below(6) {
            0 => any_bytes(random, &mut input.tokens),
            1 => any_bytes(random, &mut input.mnemonic),
            2 => any_bytes(random, &mut input.descriptors),
            // Cut, so that the fill count may pass the end; or changed in the filled part.
            3 => any_bytes(random, &mut input.data),
            4 => any_bytes(random, &mut input.pending),
            _ => any_bytes(random, &mut input.breakpoints),
        }
    }

    for _ in 0..random.pick(&[0, 0, 0, 1, 2]) {
        count(random, &mut input);
    }

    if random.one_in(20) {
        oversize(random, &line, &mut input);
    }

    input
}

/// A fill count that ends inside a record, at the buffer's end, just past it or far away.
fn count(random: &mut Random, input: &mut LineInput) {
    let part = random.below(3);
    let length = [
        input.data.len(),
        input.pending.len(),
        input.breakpoints.len(),
    ][part] as u32;
    let inside = random.below(length as usize + 1) as u32;

    input.counts[part] = random.pick(&[
        inside,
        inside,
        0,
        length,
        length + 1,
        length + 4,
        65_537,
        u32::MAX,
    ]);
}

fn oversize(random: &mut Random, line: &Line, input: &mut LineInput) {
    let comma = of_kind(random, COMMA);
    let or = |list: &[Record], other: &Record| list.first().unwrap_or(other).clone();

    match random.below(6) {
        0 => grow(random, &mut input.tokens, &comma),
        1 => grow(random, &mut input.mnemonic, &or(&line.mnemonic, &comma)),
        2 => grow(
            random,
            &mut input.descriptors,
            &or(&line.descriptors, &comma),
        ),
        3 => grow(random, &mut input.data, &comma),
        4 => grow(random, &mut input.pending, &or(&line.pending, &comma)),
        _ => grow(
            random,
            &mut input.breakpoints,
            &or(&line.breakpoints, &comma),
        ),
    }

    // The records that were added are part of the list only where the count takes them in.
    if random.one_in(3) {
        input.counts[1] = input.pending.len() as u32;
        input.counts[2] = input.breakpoints.len() as u32;
    }
    if random.one_in(3) {
        input.counts[0] = input.data.len() as u32;
    }
}

fn any_list<'a>(random: &mut Random, line: &'a mut Line) -> &'a mut Vec<Record> {
    match random.below(5) {
        0 => &mut line.tokens,
        1 => &mut line.mnemonic,
        2 => &mut line.descriptors,
        3 => &mut line.pending,
        _ => &mut line.breakpoints,
    }
}

fn damage_records(random: &mut Random, line: &mut Line) {
    match random.below(13) {
        0 => {
            let list = any_list(random, line);
            swap_kind(random, list);
        }
        1 => {
            // A record, whole, in another list.
            let from = any_list(random, line);
            if !from.is_empty() {
                let record = from[random.below(from.len())].clone();
                let to = any_list(random, line);
                to.insert(random.below(to.len() + 1), record);
            }
        }
        2 => {
            let (list, name) = match random.below(4) {
                0 => (&mut line.tokens, 8),
                1 => (&mut line.mnemonic, 8),
                2 => (&mut line.descriptors, 8),
                _ => (&mut line.pending, 32),
            };
            replace_name(random, list, name);
        }
        3 | 4 => descriptor_field(random, line),
        5 => {
            // Two or three descriptors of one name.
            for _ in 0..random.within(1, 2) {
                let count = line.descriptors.len();
                if count > 0 {
                    let mut again = line.descriptors[random.below(count)].clone();
                    if random.one_in(2) {
                        let name = again.body.split_off(8.min(again.body.len()));
                        again.body = made_up(random).body[..8].to_vec();
                        again.body.extend(name);
                    }
                    line.descriptors.insert(random.below(count + 1), again);
                }
            }
        }
        6 => {
            let again = line.mnemonic.first().cloned();
            match random.one_in(2) {
                true => line.mnemonic.extend(again),
                false => line.mnemonic.clear(),
            }
        }
        7 => line.region = random.pick(&[16, 17, 255, 256, 32768, 65534, 65535]),
        8 => {
            let (place, byte) = random.pick(&[(0, 16), (1, 1), (14, 5), (15, 2), (15, 0), (24, 1)]);
            byte_at(random, &mut line.pending, place, byte);
        }
        9 => {
            // A register over 31, or a payload where none belongs.
            let byte = random.pick(&[31, 32, 255]);
            byte_at(random, &mut line.tokens, 8, byte);
        }
        10 => {
            // A breakpoint without a pc, with six, or with part of one.
            let length = random.pick(&[0, 4, 8, 9, 12, 27, 28, 29, 32]);
            if let Some(record) = line.breakpoints.last_mut() {
                record.body.resize(length, 0);
            }
        }
        _ => {
            // A body cut short or drawn out.
            let list = any_list(random, line);
            if !list.is_empty() {
                let record = random.below(list.len());
                let length = list[record].body.len();
                let length = match random.below(3) {
                    0 => random.below(length + 1),
                    1 => length + random.within(1, 4),
                    _ => length + 4 * random.within(1, 20),
                };
                list[record].body.resize(length, b'n');
            }
        }
    }
}

fn byte_at(random: &mut Random, list: &mut [Record], place: usize, byte: u8) {
    if list.is_empty() {
        return;
    }
    let record = random.below(list.len());

    if let Some(old) = list[record].body.get_mut(place) {
        *old = byte;
    }
}

/// One of a descriptor's eight fields at or past the end of what it may be.
fn descriptor_field(random: &mut Random, line: &mut Line) {
    if line.descriptors.is_empty() || random.one_in(3) {
        line.descriptors.push(made_up(random));
    }

    // The alternative of an Immediate, of which the class alone has an end.
    if random.one_in(4) {
        let mut body = vec![0, 0, 7, 0, 0, random.pick(&[0, 1, 1, 2])];
        body.extend([random.pick(&[0, 5, 6]), random.pick(&[0, 255])]);
        body.extend(b"Alternative");
        line.descriptors.push(Record {
            kind: kind::DESCRIPTOR,
            body,
        });
        return;
    }

    let field = random.below(8);
    let byte = match field {
        0 | 6 => random.pick(&[0, 5, 6, 255]),
        2 => random.pick(&[20, 21, 7, 15, 255]),
        _ => random.pick(&[0, 1, 2, 3, 255]),
    };

    byte_at(random, &mut line.descriptors, field, byte);
}
