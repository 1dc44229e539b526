//! A plain lexer of document 02's P7, written from its rules: the judge of `read_text`.

use crate::answer::Answer;
use crate::text_input::{TextInput, TextOutcome};

const LIMIT: usize = 65536;
const LONGEST: usize = 64;

const GENERAL: [&[u8]; 32] = [
    b"zero", b"at", b"v0", b"v1", b"a0", b"a1", b"a2", b"a3", b"t0", b"t1", b"t2", b"t3", b"t4",
    b"t5", b"t6", b"t7", b"s0", b"s1", b"s2", b"s3", b"s4", b"s5", b"s6", b"s7", b"t8", b"t9",
    b"k0", b"k1", b"gp", b"sp", b"fp", b"ra",
];

/// The numbers of the refusals that a token may have.
#[derive(Clone, Copy)]
enum Fault {
    Byte = 21,
    Token = 22,
    Room = 23,
}

/// A token's kind, its payload and how many bytes of the text it takes.
struct Token<'a> {
    kind: u16,
    payload: Payload<'a>,
    size: usize,
}

enum Payload<'a> {
    Nothing,
    Slot(u8),
    Number(u64),
    Text(&'a [u8]),
}

pub fn read_text(input: &TextInput) -> TextOutcome {
    let mut tokens = input.tokens.clone();
    let answer = read_into(&input.text, input.source, &mut tokens);

    TextOutcome { answer, tokens }
}

/// Reads into a list of its own first, so that a refusal leaves the lent bytes.
pub fn read_into(text: &[u8], source: u32, tokens: &mut [u8]) -> Answer {
    for (buffer, length) in [(0, text.len()), (1, tokens.len())] {
        if length > LIMIT {
            return refused(1, 0, 0, buffer, LIMIT as u32);
        }
    }

    let mut list = Vec::with_capacity(tokens.len());
    let mut at = 0;

    while at < text.len() {
        if matches!(text[at], b' ' | b'\t' | b'\r') {
            at += 1;
            continue;
        }

        let place = at as u32;
        match token(text, at).and_then(|token| put(&mut list, source, place, token, tokens.len())) {
            Ok(size) => at += size,
            Err(fault) => return refused(fault as u32, source, place, 0, 0),
        }
    }

    tokens[..list.len()].copy_from_slice(&list);

    Answer::accepted(list.len() as u32)
}

fn refused(number: u32, source: u32, index: u32, a: u32, b: u32) -> Answer {
    Answer {
        number,
        source,
        index,
        a,
        b,
        last: 0,
    }
}

/// Writes the token's record where there is room, and gives back the token's size.
fn put(
    list: &mut Vec<u8>,
    source: u32,
    at: u32,
    token: Token,
    room: usize,
) -> Result<usize, Fault> {
    let number;
    let slot;
    let payload: &[u8] = match token.payload {
        Payload::Nothing => &[],
        Payload::Slot(byte) => {
            slot = [byte];
            &slot
        }
        Payload::Number(value) => {
            number = value.to_le_bytes();
            &number
        }
        Payload::Text(text) => text,
    };

    if list.len() + 12 + payload.len() > room {
        return Err(Fault::Room);
    }

    list.extend(&(8 + payload.len() as u16).to_le_bytes());
    list.extend(&token.kind.to_le_bytes());
    list.extend(&source.to_le_bytes());
    list.extend(&at.to_le_bytes());
    list.extend(payload);

    Ok(token.size)
}

/// The token that begins there, which is no blank.
fn token(text: &[u8], at: usize) -> Result<Token<'_>, Fault> {
    let rest = &text[at + 1..];

    match text[at] {
        b'\n' => Ok(alone(13)),
        b'+' => Ok(alone(9)),
        b'-' => Ok(alone(10)),
        b',' => Ok(alone(11)),
        b':' => Ok(alone(12)),
        b'(' => Ok(alone(14)),
        b')' => Ok(alone(15)),
        b'#' => {
            let comment = leading(rest, |byte| byte != b'\n');
            text_token(0, comment, comment.len() + 1)
        }
        b'"' => {
            let string = leading(rest, |byte| byte != b'"' && byte != b'\n');
            match rest.get(string.len()) {
                Some(b'"') => text_token(7, string, string.len() + 2),
                _ => Err(Fault::Byte),
            }
        }
        b'.' => {
            let name = leading(rest, is_word);
            text_token(1, name, name.len() + 1)
        }
        b'%' => match leading(rest, is_word) {
            [] => Err(Fault::Token),
            name => text_token(2, name, name.len() + 1),
        },
        b'$' => register(leading(rest, is_word)),
        b'0'..=b'9' => number(text, at),
        b'A'..=b'Z' | b'a'..=b'z' | b'_' => {
            let name = leading(&text[at..], is_word);
            text_token(8, name, name.len())
        }
        _ => Err(Fault::Byte),
    }
}

fn alone(kind: u16) -> Token<'static> {
    Token {
        kind,
        payload: Payload::Nothing,
        size: 1,
    }
}

fn is_word(byte: u8) -> bool {
    byte.is_ascii_alphanumeric() || byte == b'_'
}

/// The longest start whose bytes all pass.
fn leading(text: &[u8], passes: impl Fn(u8) -> bool) -> &[u8] {
    let end = text.iter().position(|&byte| !passes(byte));

    &text[..end.unwrap_or(text.len())]
}

fn text_token(kind: u16, text: &[u8], size: usize) -> Result<Token<'_>, Fault> {
    if text.iter().any(|byte| !(0x20..=0x7e).contains(byte)) {
        return Err(Fault::Byte);
    }
    if text.len() > LONGEST {
        return Err(Fault::Token);
    }

    Ok(Token {
        kind,
        payload: Payload::Text(text),
        size,
    })
}

fn register(name: &[u8]) -> Result<Token<'_>, Fault> {
    let general = GENERAL.iter().position(|general| *general == name);
    let (kind, slot) = match general.or_else(|| below_32(name)) {
        Some(slot) => (3, slot),
        None => match name.split_first() {
            Some((b'f', digits)) => (4, below_32(digits).ok_or(Fault::Token)?),
            _ => return Err(Fault::Token),
        },
    };

    Ok(Token {
        kind,
        payload: Payload::Slot(slot as u8),
        size: name.len() + 1,
    })
}

/// A number 0 to 31 without leading zeros.
fn below_32(digits: &[u8]) -> Option<usize> {
    match digits {
        [ones @ b'0'..=b'9'] => Some((ones - b'0') as usize),
        [tens @ b'1'..=b'3', ones @ b'0'..=b'9'] => {
            Some((10 * (tens - b'0') + (ones - b'0')) as usize).filter(|number| *number < 32)
        }
        _ => None,
    }
}

fn number(text: &[u8], at: usize) -> Result<Token<'_>, Fault> {
    let (prefix, base) = match text[at..].starts_with(b"0x") {
        true => (2, 16),
        false => (0, 10),
    };
    let digits = leading(&text[at + prefix..], |byte| (byte as char).is_digit(base));

    if digits.is_empty() {
        return Err(Fault::Token);
    }

    let value = digits.iter().try_fold(0u64, |value, &byte| {
        let digit = (byte as char).to_digit(base).unwrap();
        value.checked_mul(base as u64)?.checked_add(digit as u64)
    });

    Ok(Token {
        kind: 5,
        payload: Payload::Number(value.ok_or(Fault::Token)?),
        size: prefix + digits.len(),
    })
}
