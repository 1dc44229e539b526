//! Well-formed emit calls with a point that a manual or a Release 6 job changes, or one that is
//! easily taken for it.

use crate::descriptors::record;
use crate::generate_line::{descriptors, line_of, named, Line};
use crate::operands::of_encoding;
use crate::random::Random;
use crate::tokens::INTEGER;

const FUNC: u8 = 1;

/// Shift amounts and condition codes about the ends of their ranges, and such as come into range
/// where less than 64 bits is looked at.
const NUMBERS: [u64; 26] = [
    0,
    1,
    6,
    7,
    8,
    9,
    30,
    31,
    32,
    33,
    63,
    64,
    255,
    256,
    257,
    256 + 7,
    256 + 31,
    0x1_0000_0000,
    0x1_0000_0001,
    0x1_0000_001f,
    0x8000_0000_0000_0000,
    0x8000_0000_0000_0007,
    u64::MAX,
    u64::MAX - 6,
    u64::MAX - 30,
    u64::MAX - 31,
];

pub fn pointed(random: &mut Random) -> Line {
    let mut descriptors = descriptors(random);
    let (fields, name) = point(random);
    let operands = match fields {
        Some([_, _, encoding, _, flag, ..]) => of_encoding(encoding, flag),
        None => "rr",
    };

    // Now and then another descriptor of the name stands there, and goes before `abs`.
    let keeps = fields.is_none() && random.one_in(4);
    descriptors.retain(|record| keeps || record.body[8..] != *name);
    if let Some(fields) = fields {
        let place = random.below(descriptors.len() + 1);
        descriptors.insert(place, record(fields, name));
    }
    let mnemonic = named(random, name.to_vec());
    let mut line = line_of(random, descriptors, mnemonic, operands);

    for token in &mut line.tokens {
        if token.kind == INTEGER && random.below(4) > 0 {
            token.body[8..].copy_from_slice(&random.pick(&NUMBERS).to_le_bytes());
        }
    }

    line
}

/// A descriptor's fields and name; no fields for a pseudo-instruction.
fn point(random: &mut Random) -> (Option<[u8; 8]>, &'static [u8]) {
    let [any_class, any_key] = [random.below(6) as u8, random.u8()];
    let any_plain = random.below(15) as u8;
    let flag = random.below(2) as u8;
    let mut fields = match random.below(8) {
        0 => return (None, b"abs"),
        1 => [4, any_key, random.within(15, 16) as u8, 2, 0, 0, 0, 0],
        2 => [any_class, any_key, 5, 0, 0, 0, 0, 0],
        3 => [any_class, any_key, 17, random.below(3) as u8, flag, 0, 0, 0],
        4 => [any_class, any_key, 18, random.below(3) as u8, 0, 0, 0, 0],
        5 => [any_class, any_key, 20, 0, flag, 0, 0, 0],
        6 => [FUNC, random.pick(&[24, 26, any_key]), 4, 0, 0, 0, 0, 0],
        // Encodings without a size or a flag; Source most often, and Immediate for refusal 9.
        _ => [
            random.pick(&[FUNC, FUNC, FUNC, any_class]),
            random.pick(&[8, 72, 136, 200, 9, 18, 82, any_key]),
            random.pick(&[2, 2, 2, 7, any_plain]),
            0,
            0,
            0,
            0,
            0,
        ],
    };

    // Func 18, under each of these encodings too.
    if random.one_in(6) {
        [fields[0], fields[1]] = [FUNC, random.pick(&[18, 82, 146, 210])];
    }
    // An alternative Func 18 does not count.
    if fields[2] == 7 && random.one_in(2) {
        fields[5..].copy_from_slice(&[1, FUNC, random.pick(&[18, 33])]);
    }

    (Some(fields), b"point.x")
}
