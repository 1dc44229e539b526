//! Generated dry runs: words of the eighteen instructions and close to them, in regions that
//! overlap, wrap and end in part words; damaged lists too.

use crate::damage::{any_bytes, grow, swap_kind};
use crate::dry_run_input::{RunInput, REGISTER_BYTES};
use crate::random::Random;
use crate::records::{addressed, kind, write, Record};

const EDGES: [u32; 10] = [
    0,
    1,
    2,
    0x7fff,
    0x8000,
    0xffff,
    0x7fff_ffff,
    0x8000_0000,
    0x8000_0001,
    0xffff_ffff,
];

const BASES: [u32; 6] = [
    0x0040_0000,
    0x0040_0000,
    0,
    0xffff_fff0,
    0x0fff_fff0,
    0x7fff_fffc,
];

pub fn generated(seed: u64, index: u64) -> RunInput {
    let mut random = Random::of(seed, index);
    let base = random.pick(&BASES);
    let mut records = regions(&mut random, base);
    let damaged = random.one_in(5);

    if damaged {
        match random.below(4) {
            0 => swap_kind(&mut random, &mut records),
            1 => records.clear(),
            2 => records.resize(
                random.within(15, 18),
                addressed(kind::REGION, base, &[0; 4]),
            ),
            _ => {}
        }
    }
    let mut list = write(&records);
    if damaged && random.one_in(2) {
        any_bytes(&mut random, &mut list);
    }
    if random.one_in(500) {
        let filler = addressed(kind::REGION, base, &[0; 500]);
        grow(&mut random, &mut list, &filler);
    }

    let length = REGISTER_BYTES + random.pick(&[0, 0, 0, 1, 5]);
    let mut registers = random.bytes(length);
    for number in 0..32 {
        if random.one_in(2) {
            let value = random.pick(&EDGES).to_le_bytes();
            registers[4 * number..4 * number + 4].copy_from_slice(&value);
        }
    }

    RunInput {
        regions: list,
        registers,
        pc: match random.below(20) {
            0 => random.u32(),
            1 => base.wrapping_add(random.below(16) as u32),
            _ => base.wrapping_add(4 * random.below(3) as u32),
        },
        allowance: match random.below(10) {
            0 => random.below(3) as u32,
            1 => random.below(5_000) as u32,
            _ => random.below(200) as u32,
        },
    }
}

fn regions(random: &mut Random, base: u32) -> Vec<Record> {
    let count = random.pick(&[1, 1, 1, 1, 2, 2, 3, 16]);

    (0..count)
        .map(|number| {
            let words = random.within(1, 24);
            let mut data: Vec<u8> = (0..words)
                .flat_map(|_| some_word(random, base).to_le_bytes())
                .collect();
            let extra = random.pick(&[0, 0, 0, 1, 2, 3]);
            data.extend(random.bytes(extra));
            let away = match (number, random.below(4)) {
                (0, _) => 0,
                (_, 0) => random.below(16) as u32,
                _ => 4 * random.below(30) as u32,
            };

            addressed(kind::REGION, base.wrapping_add(away), &data)
        })
        .collect()
}

/// A word of one of the eighteen, now and then with one bit changed, or any word.
fn some_word(random: &mut Random, base: u32) -> u32 {
    let word = match random.below(24) {
        0 => 0,
        1..=2 => 2 << 26 | (base >> 2).wrapping_add(random.below(24) as u32) & 0x03ff_ffff,
        3..=6 => {
            let distance = random.within(0, 16) as u32;
            let half = distance.wrapping_sub(8) & 0xffff;
            random.pick(&[4, 5]) << 26 | fields(random) & 0x03ff_0000 | half
        }
        7..=13 => {
            let half = match random.one_in(2) {
                true => random.pick(&EDGES) & 0xffff,
                false => random.u32() & 0xffff,
            };
            let opcode = random.pick(&[8, 9, 13, 14, 15]);
            let lui = if opcode == 15 {
                0x001f_0000
            } else {
                0x03ff_0000
            };
            opcode << 26 | fields(random) & lui | half
        }
        14..=15 => fields(random) & 0x001f_f800 | (random.u32() & 31) << 6 | 3,
        _ => {
            let function = random.pick(&[32, 33, 34, 35, 38, 39, 42, 43]);
            fields(random) & 0x03ff_f800 | function
        }
    };

    match random.below(60) {
        0 => word ^ 1 << random.below(32),
        1 => random.u32(),
        _ => word,
    }
}

/// Register numbers in all three fields, few of them, so that results are used.
fn fields(random: &mut Random) -> u32 {
    let mut register = || match random.one_in(4) {
        true => random.below(32) as u32,
        false => random.pick(&[0, 2, 3, 4, 5, 31]),
    };

    register() << 21 | register() << 16 | register() << 11
}
