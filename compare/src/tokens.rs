//! Generated tokens: single ones, and the groups that operand readers look for.

use crate::names::{name, place};
use crate::random::Random;
use crate::records::Record;

pub const COMMENT: u16 = 0;
pub const REGISTER: u16 = 3;
pub const FP_REGISTER: u16 = 4;
pub const INTEGER: u16 = 5;
pub const FLOAT: u16 = 6;
pub const SYMBOL: u16 = 8;
pub const PLUS: u16 = 9;
pub const MINUS: u16 = 10;
pub const COMMA: u16 = 11;
pub const NEW_LINE: u16 = 13;
pub const LEFT_BRACE: u16 = 14;
pub const RIGHT_BRACE: u16 = 15;

fn token(random: &mut Random, kind: u16, payload: &[u8]) -> Record {
    let mut body = [place(random), place(random)]
        .map(u32::to_le_bytes)
        .concat();
    body.extend(payload);

    Record { kind, body }
}

/// A token of this kind with some payload.
pub fn of_kind(random: &mut Random, kind: u16) -> Record {
    let payload = match kind {
        0 | 1 | 2 | 7 => {
            let mut text = name(random);
            if random.one_in(4) {
                text.clear();
            }
            text
        }
        REGISTER | FP_REGISTER => vec![random.below(32) as u8],
        INTEGER => number(random).to_le_bytes().to_vec(),
        // NaN patterns too.
        FLOAT => random
            .pick(&[0, u64::MAX, 0x7ff0_0000_0000_0001, 1.5f64.to_bits()])
            .to_le_bytes()
            .to_vec(),
        SYMBOL => name(random),
        _ => vec![],
    };

    token(random, kind, &payload)
}

/// Constants about the ends of the ranges that answers depend on.
pub fn number(random: &mut Random) -> u64 {
    let near: i64 = random.pick(&[
        0,
        0,
        31,
        32,
        7,
        63,
        255,
        256,
        -8000,
        0x7fff,
        0x8000,
        -0x8000,
        -0x7fff,
        0xffff,
        0x10000,
        0x7fff_ffff,
        0x8000_0000,
        0xffff_0000,
        0xffff_8000,
        0xffff_ffff,
        0x1_0000_0000,
        0x1_0000_8000,
        -0x8000_0000,
        -0x1_0000_0000,
        i64::MIN,
        i64::MAX,
    ]);

    match random.below(10) {
        0 => random.u64(),
        1 => random.u32() as u64,
        2 => (random.u32() & 0xffff_0000) as u64,
        3 => random.u32() as u64 & 0xffff,
        4 => (random.u32() as i32) as u64,
        5 => near.wrapping_add(random.below(5) as i64 - 2).wrapping_neg() as u64,
        _ => near.wrapping_add(random.below(5) as i64 - 2) as u64,
    }
}

/// What operand reading passes over.
pub fn passed(random: &mut Random, tokens: &mut Vec<Record>) {
    while random.one_in(3) {
        let kind = random.pick(&[COMMENT, COMMA, COMMA]);
        tokens.push(of_kind(random, kind));
    }
}

/// A number with or without a sign; at times a sign that is followed by nothing it takes.
pub fn constant(random: &mut Random, tokens: &mut Vec<Record>) {
    if random.one_in(3) {
        let sign = random.pick(&[PLUS, MINUS, MINUS]);
        tokens.push(of_kind(random, sign));
        if random.one_in(4) {
            passed(random, tokens);
        }
        if random.one_in(12) {
            return;
        }
    }

    tokens.push(of_kind(random, INTEGER));
}

/// A number, or a symbol with or without a plus and a constant.
pub fn label(random: &mut Random, tokens: &mut Vec<Record>) {
    if random.one_in(4) {
        return constant(random, tokens);
    }

    tokens.push(of_kind(random, SYMBOL));

    if random.one_in(3) {
        if random.one_in(4) {
            passed(random, tokens);
        }
        let sign = random.pick(&[PLUS, PLUS, PLUS, PLUS, MINUS]);
        tokens.push(of_kind(random, sign));
        if random.one_in(4) {
            passed(random, tokens);
        }
        match random.below(12) {
            0 => tokens.push(of_kind(random, REGISTER)),
            1 => {}
            _ => constant(random, tokens),
        }
    }
}

/// A label, or one with a register in braces behind it; at times no label before them, or a
/// wrong token, whose error braces make no matter.
pub fn address(random: &mut Random, tokens: &mut Vec<Record>) {
    match random.below(16) {
        0 => {}
        1 => {
            let kind = random.below(16) as u16;
            tokens.push(of_kind(random, kind));
        }
        2 => {
            let sign = random.pick(&[PLUS, MINUS]);
            tokens.push(of_kind(random, sign));
        }
        3..=8 => constant(random, tokens),
        _ => label(random, tokens),
    }
    passed(random, tokens);

    if random.one_in(4) {
        return;
    }

    for kind in [LEFT_BRACE, REGISTER, RIGHT_BRACE] {
        match random.below(24) {
            0 | 1 => {
                let kind = random.below(16) as u16;
                tokens.push(of_kind(random, kind));
            }
            2 => {}
            _ => tokens.push(of_kind(random, kind)),
        }
        if random.one_in(6) {
            passed(random, tokens);
        }
    }
}

/// Tokens in no order, as many as eight.
pub fn mixed(random: &mut Random, tokens: &mut Vec<Record>) {
    for _ in 0..random.below(9) {
        let kind = match random.one_in(2) {
            true => random.pick(&[
                REGISTER,
                INTEGER,
                SYMBOL,
                PLUS,
                MINUS,
                COMMA,
                NEW_LINE,
                FP_REGISTER,
            ]),
            false => random.below(16) as u16,
        };
        tokens.push(of_kind(random, kind));
    }
}
