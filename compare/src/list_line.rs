//! Which emit calls the list of calls has.

use crate::answer::Answer;
use crate::descriptors::table;
use crate::job::Job;
use crate::judge_line;
use crate::line_input::{LineInput, LineOutcome};
use crate::list::{by_length, fault, fits, is_long, line_call, Call, Chosen, Class};
use crate::operands::PSEUDO;
use crate::records::{bodies, Pending};
use crate::run_line::generated;
use crate::tokens::{
    COMMA, COMMENT, FP_REGISTER, INTEGER, LEFT_BRACE, MINUS, NEW_LINE, PLUS, REGISTER, SYMBOL,
};

pub fn buffers(input: &LineInput) -> [&Vec<u8>; 6] {
    [
        &input.tokens,
        &input.mnemonic,
        &input.descriptors,
        &input.data,
        &input.pending,
        &input.breakpoints,
    ]
}

/// The call of this index, where `replay` has room for it.
pub fn listed(seed: u64, index: u64) -> Option<(LineInput, Call)> {
    let (_, input, _) = generated(seed, index, Job::Commit);
    if !fits(&buffers(&input)) {
        return None;
    }

    let input = cut(input, index);
    let expected = judge_line::expected(&input);
    let bytes = line_call(&input, &expected);
    let answer = expected.answer;
    let classes = match is_long(&bytes) {
        true => by_length(&buffers(&input), &answer),
        false => classes(&input, &expected),
    };

    Some((
        input,
        Call {
            answer,
            bytes,
            classes,
        },
    ))
}

/// The call with less room behind what its lent buffers hold, where that leaves the answer as it
/// is; one call in eight keeps its room.
fn cut(mut input: LineInput, index: u64) -> LineInput {
    if index % 8 == 0 {
        return input;
    }
    let expected = judge_line::expected(&input);

    for part in 0..3 {
        let mut shorter = input.clone();
        let buffer = match part {
            0 => &mut shorter.data,
            1 => &mut shorter.pending,
            _ => &mut shorter.breakpoints,
        };

        if buffer.len() > 60_000 {
            continue;
        }
        buffer.truncate(expected.counts[part] as usize + index as usize / 8 % 4);
        if judge_line::expected(&shorter).answer == expected.answer {
            input = shorter;
        }
    }

    input
}

fn classes(input: &LineInput, expected: &LineOutcome) -> Vec<Class> {
    let answer = &expected.answer;
    let (number, a, b) = (answer.number, answer.a, answer.b);

    if number <= 2 && number > 0 {
        return vec![fault(answer, &buffers(input))];
    }

    let mut classes = by_name(input, expected);
    classes.extend(by_tokens(input, answer));

    match number {
        9 => classes.push(("range: 9".to_string(), 12)),
        5..=8 => classes.push((format!("met: {number}, kind {a}"), 8)),
        11 => classes.push((format!("top: words {}, {}", top(input), b % 4), 1)),
        12 => {
            let room = buffers(input)[3 + a as usize].len() - input.counts[a as usize] as usize;
            classes.push((format!("room: part {a}, {room} bytes"), 1));
        }
        _ => {}
    }
    if number == 0 && top(input) < 8 {
        classes.push((format!("top: accepted, words {}", top(input)), 2));
    }

    classes
}

/// How many words lie between the data's end and the last address, counted up to 16.
fn top(input: &LineInput) -> u32 {
    let end = input.address.wrapping_add(input.counts[0]);

    (0u32.wrapping_sub(end) / 4).min(16)
}

/// By what the mnemonic names, and the words and labels that were added for it.
fn by_name(input: &LineInput, expected: &LineOutcome) -> Vec<Class> {
    let number = expected.answer.number;
    let (name, encoding) = named(input);
    let [data, pending, _] = input.counts.map(|count| count as usize);
    let [data_end, pending_end, _] = expected.counts.map(|count| count as usize);

    let words = (data_end - data) / 4;
    let labels: Vec<(u8, u8)> = bodies(&expected.pending[pending..pending_end])
        .map(|(_, _, body)| Pending::read(body))
        .map(|pending| (pending.patch, pending.reference.form))
        .collect();
    let made = match number {
        0 => format!("name: {name}, accepted"),
        3..=9 => format!("name: {name}, refused while reading"),
        _ => "name: refused".to_string(),
    };

    vec![
        (made, 2),
        (
            format!("encoding: {encoding}, answer {number}"),
            if number < 10 { 2 } else { 1 },
        ),
        (format!("words: {encoding}, {words}, labels {labels:?}"), 3),
    ]
}

/// What the mnemonic names, by name and by encoding: a descriptor of the Rust's table, a made-up
/// one, a pseudo-instruction, or nothing.
fn named(input: &LineInput) -> (String, String) {
    let (_, _, mnemonic) = bodies(&input.mnemonic).next().unwrap();
    let lowered = mnemonic[8..].to_ascii_lowercase();
    let text = String::from_utf8_lossy(&lowered).to_string();
    let descriptor = bodies(&input.descriptors).find(|(_, _, body)| body[8..] == lowered[..]);

    if let Some((_, _, body)) = descriptor {
        let encoding = format!("{:02} flag {} other {}", body[2], body[4], body[5]);

        return match table().iter().any(|record| record.body == body) {
            true => (format!("table {text}"), encoding),
            false => (
                format!("class {} of encoding {}", body[0], body[2]),
                encoding,
            ),
        };
    }

    match PSEUDO.iter().any(|(name, _)| *name == text) {
        true => (format!("pseudo {text}"), format!("pseudo {text}")),
        false => ("none".to_string(), "none".to_string()),
    }
}

/// By what the operand readers meet, up to one token behind the position where they end, and by
/// where they start.
fn by_tokens(input: &LineInput, answer: &Answer) -> Vec<Class> {
    let kinds: Vec<u16> = bodies(&input.tokens).map(|(_, kind, _)| kind).collect();
    let start = (input.position as usize).min(kinds.len());
    let end = (answer.last as usize).clamp(start, kinds.len());
    let read = &kinds[start..kinds.len().min(end + 1)];

    let unnamed = [REGISTER, FP_REGISTER, COMMA, COMMENT];
    let path: Vec<u16> = read
        .iter()
        .copied()
        .filter(|kind| !unnamed.contains(kind))
        .take(4)
        .collect();
    let past = (input.position as usize - start).min(3);
    let behind = kinds.get(end);
    let (number, outcome) = (answer.number, outcome(answer));

    let mut classes = vec![
        (format!("start: {past} past, answer {number}"), 4),
        (format!("path: {path:?}, {outcome}"), 1),
        (format!("behind: {behind:?}, answer {number}"), 2),
    ];
    classes.extend(readings(read).map(|reading| (format!("read: {reading}, {outcome}"), 8)));

    classes
}

fn outcome(answer: &Answer) -> &'static str {
    match answer.number {
        0 => "accepted",
        _ => "refused",
    }
}

const READINGS: [&str; 11] = [
    "comma",
    "comment",
    "new line",
    "sign and constant",
    "failed sign",
    "symbol plus constant",
    "symbol plus something else",
    "brace behind a constant",
    "brace behind a symbol",
    "brace behind something else",
    "no token",
];

/// Which of these ways are among the tokens.
fn readings(read: &[u16]) -> impl Iterator<Item = &'static str> {
    let kept: Vec<u16> = read
        .iter()
        .copied()
        .filter(|kind| ![COMMA, COMMENT].contains(kind))
        .collect();
    let has = |kind| read.contains(&kind);
    let any = |test: fn(&[u16]) -> bool| (0..kept.len()).any(|place| test(&kept[place..]));

    let found = [
        has(COMMA),
        has(COMMENT),
        has(NEW_LINE),
        any(|rest| matches!(rest, [PLUS | MINUS, INTEGER, ..])),
        any(|rest| matches!(rest, [PLUS | MINUS, other, ..] if *other != INTEGER)),
        any(|rest| matches!(rest, [SYMBOL, PLUS, INTEGER, ..])),
        any(|rest| matches!(rest, [SYMBOL, PLUS, other, ..] if *other != INTEGER)),
        any(|rest| matches!(rest, [INTEGER, LEFT_BRACE, ..])),
        any(|rest| matches!(rest, [SYMBOL, LEFT_BRACE, ..])),
        any(|rest| matches!(rest, [other, LEFT_BRACE, ..] if ![INTEGER, SYMBOL].contains(other))),
        read.is_empty(),
    ];

    READINGS
        .into_iter()
        .zip(found)
        .filter_map(|(reading, found)| found.then_some(reading))
}

/// What the kept calls cover.
pub fn covered(chosen: &Chosen) -> String {
    let counts = |of: &str| {
        let accepted = chosen.count(&format!("encoding: {of}"), ", answer 0");
        format!(
            "{accepted}/{}",
            chosen.count(&format!("encoding: {of}"), "") - accepted
        )
    };
    let encodings: Vec<String> = (0..21)
        .map(|number| counts(&format!("{number:02} ")))
        .collect();
    let pseudo: Vec<String> = PSEUDO
        .iter()
        .map(|(name, _)| format!("{name} {}", counts(&format!("pseudo {name},"))))
        .collect();
    let names = |end: &str, least: usize| {
        table()
            .iter()
            .map(|record| String::from_utf8_lossy(&record.body[8..]))
            .filter(|name| chosen.count(&format!("name: table {name},"), end) >= least)
            .count()
    };

    format!(
        "encodings in order, accepted/refused: {}\npseudo-instructions: {}\n\
         reading: {}\n\
         descriptors of the table: {}, accepted twice {}, refused while reading {}\n",
        encodings.join(" "),
        pseudo.join(", "),
        covered_readings(chosen).join(", "),
        table().len(),
        names(" accepted", 2),
        names(" reading", 1)
    )
}

fn covered_readings(chosen: &Chosen) -> Vec<String> {
    READINGS
        .iter()
        .map(|reading| {
            let start = format!("read: {reading}, ");
            let [accepted, refused] = ["accepted", "refused"].map(|end| chosen.count(&start, end));
            format!("{reading} {accepted}/{refused}")
        })
        .collect()
}
