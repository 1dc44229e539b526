//! Generated texts: pieces that are nearly all good, others that are not, and bytes at random.

use crate::random::Random;
use crate::text_input::TextInput;
use crate::text_lexer;

const LIMIT: usize = 65536;

const GOOD: [&str; 40] = [
    "add",
    "addiu",
    "li",
    "lw",
    "loop",
    "_x1",
    ".s",
    ".word",
    ".",
    ".5",
    "%a",
    "%1",
    "$t0",
    "$ra",
    "$zero",
    "$31",
    "$f0",
    "$f31",
    "0",
    "1",
    "4294967295",
    "18446744073709551615",
    "0x0",
    "0xFf",
    "0xffffffffffffffff",
    "007",
    "0X1",
    "+",
    "-",
    ",",
    ":",
    "(",
    ")",
    "\"\"",
    "\"a b\"",
    "# c",
    "#",
    "\r",
    "\t",
    " ",
];

const BAD: [&str; 22] = [
    "$",
    "$f32",
    "$32",
    "$01",
    "$T0",
    "$t10",
    "%",
    "0x",
    "0xg",
    "18446744073709551616",
    "0x10000000000000000",
    "\"",
    "\"a",
    ";",
    "@",
    "~",
    "\u{7f}",
    "\0",
    "#\t",
    "#\r",
    "\"\t\"",
    "$f01",
];

pub fn generated(seed: u64, index: u64) -> TextInput {
    let random = &mut Random::of(seed, index);
    let text = text(random);
    let source = random.u32();
    let room = room(random, &text, source);

    TextInput {
        text,
        source,
        tokens: random.bytes(room),
    }
}

fn text(random: &mut Random) -> Vec<u8> {
    if random.one_in(8) {
        let length = random.within(0, 40);
        return random.bytes(length);
    }

    let count = match random.one_in(100) {
        true => random.within(2000, 9000),
        false => random.within(0, 40),
    };
    let faults = random.pick(&[0, 0, 60, 400]);
    let mut text = vec![];

    for _ in 0..count {
        if faults > 0 && random.one_in(faults) {
            text.extend(random.pick(&BAD).as_bytes());
        } else {
            piece(random, &mut text);
        }
        // Without a separator pieces run into each other.
        if !random.one_in(6) {
            text.extend(random.pick(&[&b" "[..], b"\n", b",", b"\t"]));
        }
    }

    // The limit itself, and one byte more.
    if random.one_in(2000) {
        text.resize(LIMIT + random.below(2), b' ');
    }

    text
}

/// A good piece, or a text of about the greatest length.
fn piece(random: &mut Random, text: &mut Vec<u8>) {
    if !random.one_in(20) {
        text.extend(random.pick(&GOOD).as_bytes());
        return;
    }

    let mark = random.pick(&["", ".", "%", "#", "\""]);
    let length = random.pick(&[1, 63, 64, 65, 66]);
    let close = match mark {
        "\"" => "\"",
        "#" => "\n",
        _ => "",
    };
    text.extend(mark.as_bytes());
    text.extend(std::iter::repeat(b'n').take(length));
    text.extend(close.as_bytes());
}

/// A buffer that is long enough, just long enough, too short by little, or of any length. Of a text
/// that is refused it is measured by the tokens before the fault.
fn room(random: &mut Random, text: &[u8], source: u32) -> usize {
    let fill = |text: &[u8]| text_lexer::read_into(text, source, &mut vec![0; LIMIT]);
    let whole = fill(text);
    let needed = match whole.number {
        0 => whole.last,
        _ => fill(&text[..(whole.index as usize).min(text.len())]).last,
    } as usize;

    match random.below(6) {
        0 => needed,
        1 => needed.saturating_sub(random.within(1, 13)),
        2 => random.below(needed + 1),
        3 if random.one_in(50) => LIMIT + 1,
        _ => needed + random.below(40),
    }
    .min(LIMIT + 1)
}
