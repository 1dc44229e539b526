//! Generated pages: regions that wrap, meet and end in part words, labels of both kinds at, beside
//! and inside their words, with names that differ late; damaged lists and short buffers too.

use crate::damage::{any_bytes, grow, replace_name, swap_kind};
use crate::generate_owners::owner;
use crate::names::name;
use crate::page_input::PageInput;
use crate::page_plain::{LIMIT, LINE};
use crate::random::Random;
use crate::records::{addressed, kind, write, Label, Record};

const BASES: [u32; 6] = [
    0x0040_0000,
    0x0040_0000,
    0,
    0xffff_fff0,
    0x7fff_fffd,
    0xffff_ffff,
];

pub fn generated(seed: u64, index: u64) -> PageInput {
    let mut random = Random::of(seed, index);
    let base = random.pick(&BASES);
    let mut regions = regions(&mut random, base);
    let mut labels = labels(&mut random, base);
    let lines: usize = regions
        .iter()
        .map(|region| 1 + (region.body.len() - 4).div_ceil(4))
        .sum();

    let damaged = random.below(10);
    match damaged {
        0 => swap_kind(&mut random, &mut labels),
        1 => replace_name(&mut random, &mut labels, 4),
        2 => swap_kind(&mut random, &mut regions),
        3 => regions.resize(random.within(0, 18), addressed(kind::REGION, base, &[0; 4])),
        _ => {}
    }
    let (mut label_list, mut region_list) = (write(&labels), write(&regions));
    if damaged < 4 && random.one_in(2) {
        any_bytes(&mut random, &mut label_list);
    }
    if damaged < 4 && random.one_in(2) {
        any_bytes(&mut random, &mut region_list);
    }
    if random.one_in(500) {
        let filler = addressed(kind::LABEL, base, b"filler");
        grow(&mut random, &mut label_list, &filler);
    }
    if random.one_in(500) {
        let filler = addressed(kind::REGION, base, &[0; 500]);
        grow(&mut random, &mut region_list, &filler);
    }

    let exact = lines * LINE;
    let size = match random.below(40) {
        0 => random.below(exact + 1),
        1 => random.below(80),
        2 if random.one_in(20) => random.pick(&[LIMIT - 1, LIMIT, LIMIT + 1, LIMIT + 2]),
        3..=8 => exact - 1,
        9..=20 => exact,
        _ => exact + random.below(100),
    };

    PageInput {
        labels: label_list,
        regions: region_list,
        page: random.bytes(size),
    }
}

fn regions(random: &mut Random, base: u32) -> Vec<Record> {
    let count = random.pick(&[1, 1, 1, 1, 2, 2, 3, 16]);

    (0..count)
        .map(|number| {
            let length = match random.below(8) {
                0 => random.below(5),
                1 => random.below(400),
                _ => random.below(60),
            };
            let data = random.bytes(length);
            let away = match (number, random.below(4)) {
                (0, _) => 0,
                (_, 0) => random.below(16) as u32,
                _ => 4 * random.below(30) as u32,
            };

            addressed(kind::REGION, base.wrapping_add(away), &data)
        })
        .collect()
}

/// Many at few addresses, most of them words' addresses.
fn labels(random: &mut Random, base: u32) -> Vec<Record> {
    let count = match random.below(6) {
        0 => 0,
        1 => random.below(60),
        _ => random.below(12),
    };
    let stem = name(random);

    (0..count)
        .map(|_| {
            let address = match random.below(8) {
                0 => base.wrapping_add(random.below(60) as u32),
                1 => random.u32(),
                _ => base.wrapping_add(4 * random.below(6) as u32),
            };
            let label = Label {
                address,
                owner: match random.one_in(2) {
                    true => Some(owner(random)),
                    false => None,
                },
                name: one_of(random, &stem),
            };

            label.record()
        })
        .collect()
}

/// A name of its own, or the stem's first 17 to 22 bytes or so with another end.
fn one_of(random: &mut Random, stem: &[u8]) -> Vec<u8> {
    if random.one_in(3) {
        return name(random);
    }

    let mut name: Vec<u8> = stem.iter().copied().cycle().take(64).collect();
    name.truncate(random.within(17, 21));
    let more = random.below(3);
    name.extend((0..more).map(|_| random.pick(b" !aAz~")));

    name
}
