//! Macros written out in plain Rust, from document 02's P8: the macros' names in a `HashMap`, tokens in vectors.

use crate::answer::Answer;
use crate::macro_input::{MacroInput, MacroOutcome};
use crate::records::{u16_at, u32_at};
use std::collections::HashMap;

const LIMIT: usize = 65536;
const MACRO: u16 = 40;

mod kind {
    pub const COMMENT: u16 = 0;
    pub const PARAMETER: u16 = 2;
    pub const SYMBOL: u16 = 8;
    pub const COMMA: u16 = 11;
    pub const COLON: u16 = 12;
    pub const NEW_LINE: u16 = 13;
}

#[derive(Clone, Copy)]
struct Token<'a> {
    kind: u16,
    record: &'a [u8],
}

impl<'a> Token<'a> {
    fn payload(&self) -> &'a [u8] {
        &self.record[12..]
    }

    fn refusal(&self, number: u32) -> Answer {
        Answer {
            source: u32_at(self.record, 4),
            index: u32_at(self.record, 8),
            ..refusal(number, 0, 0)
        }
    }
}

struct Macro<'a> {
    name: &'a [u8],
    parameters: Vec<&'a [u8]>,
    body: Vec<Token<'a>>,
}

fn refusal(number: u32, a: u32, b: usize) -> Answer {
    Answer {
        number,
        a,
        b: b as u32,
        ..Answer::accepted(0)
    }
}

fn is_text(bytes: &[u8], least: usize) -> bool {
    (least..=64).contains(&bytes.len()) && bytes.iter().all(|byte| (0x20..=0x7e).contains(byte))
}

/// The record at a place with its kind and body; none where it is cut.
fn record_at(list: &[u8], place: usize) -> Option<(u16, &[u8])> {
    if place + 4 > list.len() {
        return None;
    }
    let end = place + 4 + u16_at(list, place) as usize;
    let record = list.get(place..end)?;

    Some((u16_at(list, place + 2), record))
}

fn token_of(kind: u16, record: &[u8]) -> Option<Token<'_>> {
    let payload = record.get(12..)?;
    let fits = match kind {
        0..=2 | 7 => is_text(payload, 0),
        3 | 4 => payload.len() == 1 && payload[0] < 32,
        5 | 6 => payload.len() == 8,
        8 => is_text(payload, 1),
        9..=15 => payload.is_empty(),
        _ => false,
    };

    fits.then_some(Token { kind, record })
}

/// The tokens of a list, or the place of the first record that is none.
fn tokens_of(list: &[u8]) -> Result<Vec<Token<'_>>, usize> {
    if list.len() > LIMIT {
        return Err(LIMIT);
    }

    let mut tokens = vec![];
    let mut place = 0;
    while place < list.len() {
        let token = record_at(list, place)
            .and_then(|(kind, record)| token_of(kind, record))
            .ok_or(place)?;
        place += token.record.len();
        tokens.push(token);
    }

    Ok(tokens)
}

/// A name behind its length byte, and what follows.
fn name_of(bytes: &[u8]) -> Option<(&[u8], &[u8])> {
    let (&size, rest) = bytes.split_first()?;
    let name = rest.get(..size as usize)?;

    is_text(name, 1).then_some((name, &rest[size as usize..]))
}

fn macro_of(record: &[u8]) -> Option<Macro<'_>> {
    let (name, rest) = name_of(&record[4..])?;
    let (&count, mut rest) = rest.split_first()?;
    if count > 8 {
        return None;
    }

    let mut parameters = vec![];
    for _ in 0..count {
        let (parameter, behind) = name_of(rest)?;
        if parameters.contains(&parameter) {
            return None;
        }
        parameters.push(parameter);
        rest = behind;
    }

    let body = tokens_of(rest).ok()?;
    let known = |token: &Token| {
        token.kind != kind::PARAMETER || parameters.iter().any(|name| *name == token.payload())
    };
    if !body.iter().all(known) {
        return None;
    }

    Some(Macro {
        name,
        parameters,
        body,
    })
}

fn macros_of(list: &[u8]) -> Result<(Vec<Macro<'_>>, Vec<usize>), usize> {
    if list.len() > LIMIT {
        return Err(LIMIT);
    }

    let (mut macros, mut places) = (vec![], vec![]);
    let mut place = 0;
    while place < list.len() {
        let (kind, record) = record_at(list, place).ok_or(place)?;
        if kind != MACRO {
            return Err(place);
        }
        macros.push(macro_of(record).ok_or(place)?);
        places.push(place);
        place += record.len();
    }

    Ok((macros, places))
}

struct Writer<'a> {
    macros: &'a [Macro<'a>],
    index: &'a HashMap<&'a [u8], usize>,
    room: usize,
    written: Vec<u8>,
}

impl<'a> Writer<'a> {
    fn put(&mut self, tokens: &[Token]) -> Result<(), Answer> {
        for token in tokens {
            if self.written.len() + token.record.len() > self.room {
                return Err(token.refusal(26));
            }
            self.written.extend(token.record);
        }

        Ok(())
    }

    /// Tokens that may call the first `limit` macros, on a level from 1 on.
    fn write(&mut self, tokens: &[Token<'a>], limit: usize, level: usize) -> Result<(), Answer> {
        let mut lines = tokens;
        loop {
            let end = lines.iter().position(|token| token.kind == kind::NEW_LINE);
            self.line(&lines[..end.unwrap_or(lines.len())], limit, level)?;
            match end {
                Some(end) => self.put(&lines[end..=end])?,
                None => return Ok(()),
            }
            lines = &lines[end.unwrap() + 1..];
        }
    }

    fn line(&mut self, line: &[Token<'a>], limit: usize, level: usize) -> Result<(), Answer> {
        let mut head = 0;
        loop {
            let kinds = (
                line.get(head).map(|t| t.kind),
                line.get(head + 1).map(|t| t.kind),
            );
            head += match kinds {
                (Some(kind::COMMENT), _) => 1,
                (Some(kind::SYMBOL), Some(kind::COLON)) => 2,
                _ => break,
            };
        }

        self.put(&line[..head])?;
        let line = &line[head..];
        let called = line
            .first()
            .filter(|token| token.kind == kind::SYMBOL)
            .and_then(|token| self.index.get(token.payload()))
            .filter(|number| **number < limit);
        let Some(&number) = called else {
            return self.put(line);
        };

        let called = &self.macros[number];
        let given: Vec<Token> = line[1..]
            .iter()
            .filter(|token| token.kind != kind::COMMA && token.kind != kind::COMMENT)
            .copied()
            .collect();
        if given.len() != called.parameters.len() {
            return Err(line[0].refusal(24));
        }
        if level > 8 {
            return Err(line[0].refusal(25));
        }

        let put_in = |token: &Token<'a>| match token.kind {
            kind::PARAMETER => {
                let is_it = |name: &&[u8]| *name == token.payload();
                given[called.parameters.iter().position(is_it).unwrap()]
            }
            _ => *token,
        };
        let body: Vec<Token> = called.body.iter().map(put_in).collect();

        self.write(&body, number, level + 1)
    }
}

fn written(tokens: &[u8], macros: &[u8], room: usize) -> Result<Vec<u8>, Answer> {
    let tokens = tokens_of(tokens).map_err(|place| refusal(1, 0, place))?;
    let (macros, places) = macros_of(macros).map_err(|place| refusal(1, 1, place))?;
    if room > LIMIT {
        return Err(refusal(1, 2, LIMIT));
    }

    let mut index = HashMap::new();
    for (number, one) in macros.iter().enumerate() {
        if index.insert(one.name, number).is_some() {
            return Err(refusal(2, 1, places[number]));
        }
    }

    let mut writer = Writer {
        macros: &macros,
        index: &index,
        room,
        written: vec![],
    };
    writer.write(&tokens, macros.len(), 1)?;

    Ok(writer.written)
}

/// The answer; the buffer is written where nothing is refused.
pub fn write_into(tokens: &[u8], macros: &[u8], out: &mut [u8]) -> Answer {
    match written(tokens, macros, out.len()) {
        Ok(records) => {
            out[..records.len()].copy_from_slice(&records);
            Answer::accepted(records.len() as u32)
        }
        Err(answer) => answer,
    }
}

pub fn write_out(input: &MacroInput) -> MacroOutcome {
    let mut out = input.out.clone();
    let answer = write_into(&input.tokens, &input.macros, &mut out);

    MacroOutcome { answer, out }
}
