//! Names and locations for generated records.

use crate::random::Random;

/// A name of 1 to 64 bytes from 0x20 to 0x7E: mostly short words, at times of the longest
/// length, at times of any allowed bytes.
pub fn name(random: &mut Random) -> Vec<u8> {
    let length = match random.below(12) {
        0 => 1,
        1 => 64,
        2 => 63,
        3 => random.within(1, 64),
        _ => random.within(1, 8),
    };
    let any = random.one_in(4);

    (0..length)
        .map(|_| match any {
            true => random.within(0x20, 0x7e) as u8,
            false => random.pick(b"abcLOOP_019"),
        })
        .collect()
}

/// A number as a name, of at least so many digits.
pub fn digits(number: usize, length: usize) -> Vec<u8> {
    format!("{number:0length$}").into_bytes()
}

/// A number as a name such as a loft may give.
pub fn spoken(number: usize) -> Vec<u8> {
    let what = ["pen_lift", "seam_walk", "corner_dwell", "loop"][number % 4];

    format!("{what}_{}", number / 4).into_bytes()
}

/// A name that differs from `from` in one small way: an easy one to confuse with it.
pub fn near_name(random: &mut Random, from: &[u8]) -> Vec<u8> {
    let mut name = from.to_vec();
    let last = name.len() - 1;

    match random.below(5) {
        0 if last > 0 => name.truncate(last),
        1 if last < 63 => name.push(b'a'),
        2 => name[0] ^= u8::from(name[0].is_ascii_alphabetic()) << 5,
        3 => {
            name[last] = if name[last] == 0x7e {
                0x20
            } else {
                name[last] + 1
            }
        }
        _ => name.reverse(),
    }

    name
}

/// A name that none of `known` has.
pub fn unknown_name(random: &mut Random, known: &[Vec<u8>]) -> Vec<u8> {
    loop {
        let candidate = match known.is_empty() || random.one_in(2) {
            true => name(random),
            false => {
                let from = random.below(known.len());
                near_name(random, &known[from])
            }
        };

        if !known.contains(&candidate) {
            return candidate;
        }
    }
}

/// One of a location's two numbers.
pub fn place(random: &mut Random) -> u32 {
    match random.below(8) {
        0 => 0,
        1 => u32::MAX,
        2 => random.u32(),
        _ => random.below(5000) as u32,
    }
}
