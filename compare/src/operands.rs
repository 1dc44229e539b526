//! Which operands each encoding and pseudo-instruction reads, and tokens for them.

use crate::random::Random;
use crate::records::Record;
use crate::tokens::{
    address, constant, label, mixed, of_kind, passed, COMMA, FP_REGISTER, INTEGER, NEW_LINE,
    REGISTER,
};

/// One letter an operand: r register, f float register, v register or number, c constant, k
/// condition code, l label, a address, o a value that may be absent.
pub const ENCODINGS: [&str; 21] = [
    "rrv", "rrr", "r", "r", "rro", "rrc", "rl", "rrc", "rc", "l", "rvl", "rl", "", "ra", "fa",
    "fff", "ff", "ffk", "kff", "", "kl",
];

pub const PSEUDO: [(&str, &str); 29] = [
    ("nop", ""),
    ("abs", "rr"),
    ("blt", "rvl"),
    ("bgt", "rvl"),
    ("ble", "rvl"),
    ("bge", "rvl"),
    ("bltu", "rvl"),
    ("bgtu", "rvl"),
    ("bleu", "rvl"),
    ("bgeu", "rvl"),
    ("sge", "rrv"),
    ("sgt", "rrv"),
    ("sle", "rrv"),
    ("sgeu", "rrv"),
    ("sgtu", "rrv"),
    ("sleu", "rrv"),
    ("beqz", "rl"),
    ("bnez", "rl"),
    ("seq", "rrv"),
    ("sne", "rrv"),
    ("neg", "rr"),
    ("negu", "rr"),
    ("not", "rr"),
    ("li", "rc"),
    ("la", "rl"),
    ("move", "rr"),
    ("b", "l"),
    ("subi", "rrc"),
    ("subiu", "rrc"),
];

/// The letters of an encoding; FPCrossMove (19) has its flag decide which register comes first.
pub fn of_encoding(encoding: u8, flag: u8) -> &'static str {
    match (encoding, flag) {
        (19, 1) => "fr",
        (19, _) => "rf",
        _ => ENCODINGS[encoding as usize],
    }
}

/// A line's tokens behind the mnemonic, right for these operands or nearly so.
pub fn tokens(random: &mut Random, operands: &str) -> Vec<Record> {
    let mut tokens = vec![];

    if random.one_in(12) {
        mixed(random, &mut tokens);
        return tokens;
    }

    let wrong = match random.one_in(8) {
        true => random.below(operands.len() + 1),
        false => usize::MAX,
    };

    for (number, letter) in operands.chars().enumerate() {
        match random.below(8) {
            0 => passed(random, &mut tokens),
            1 => {}
            _ if number > 0 => tokens.push(of_kind(random, COMMA)),
            _ => {}
        }

        if number == wrong {
            let kind = match random.one_in(4) {
                true => NEW_LINE,
                false => random.below(16) as u16,
            };
            tokens.push(of_kind(random, kind));
            continue;
        }

        match letter {
            'r' => tokens.push(of_kind(random, REGISTER)),
            'f' => tokens.push(of_kind(random, FP_REGISTER)),
            'k' => tokens.push(of_kind(random, INTEGER)),
            'c' => constant(random, &mut tokens),
            'l' => label(random, &mut tokens),
            'a' => address(random, &mut tokens),
            'o' if random.one_in(3) => {}
            _ if random.one_in(2) => tokens.push(of_kind(random, REGISTER)),
            _ => constant(random, &mut tokens),
        }
    }

    if random.one_in(16) {
        tokens.truncate(random.below(tokens.len() + 1));
    }

    behind(random, &mut tokens);

    tokens
}

/// What stands behind a line: nothing, the next line, or something that reading may look at.
fn behind(random: &mut Random, tokens: &mut Vec<Record>) {
    match random.below(6) {
        0 => {}
        1 => mixed(random, tokens),
        2 => passed(random, tokens),
        _ => {
            passed(random, tokens);
            tokens.push(of_kind(random, NEW_LINE));
            if random.one_in(4) {
                mixed(random, tokens);
            }
        }
    }
}
