//! The judge of a job. "equality is with the Rust except for what is listed here": where a call
//! has none of the points that document 02's P5 and P9 list, the Rust judges it. On the rest the
//! second implementation does, and is itself held to the Rust's answer with those points put in.
//! Likewise a build with labels of owners (P6): there the second implementation is held to the
//! Rust's answer on names that need no owners.

use crate::answer::{Answer, NO_ENTRY};
use crate::assembler::assembler_util::{
    get_constant, get_fp_register, get_register, get_token, maybe_get_value,
};
use crate::assembler::cursor::LexerCursor;
use crate::assembler::lexer::{Token, TokenKind};
use crate::build_input::{BuildInput, BuildOutcome};
use crate::job::Job;
use crate::judge_build;
use crate::judge_line::{self, token};
use crate::line_input::{LineInput, LineOutcome};
use crate::options::Options;
use crate::owners;
use crate::records::{bodies, u32_at, write, Pending, Record};
use std::collections::HashMap;

/// Who judges a call.
#[derive(Clone, Copy, PartialEq)]
pub enum Judge {
    /// Refusals 1 and 2, which the Rust does not have.
    Model,
    Rust,
    /// The second implementation, and the Rust's answer with the listed points put in or on other
    /// names.
    Second,
}

/// How many calls each judged.
#[derive(Default)]
pub struct Judged([u64; 3]);

impl Judged {
    pub fn count(&mut self, judge: Judge) {
        self.0[judge as usize] += 1;
    }

    pub fn text(&self, options: &Options) -> String {
        let [model, rust, second] = self.0;
        let calls = match (options.job, options.owners) {
            (Job::Commit, false) => return String::new(),
            (Job::Commit, true) => "labels with owners",
            (Job::Manual, false) => "manual jobs",
            (Job::Manual, true) => "manual jobs, labels with owners",
            (Job::Release6, _) => "Release 6 jobs",
        };

        format!(
            "{calls}, judged by document 01's refusals 1 and 2 {model}, by the Rust {rust}, \
             by the second implementation {second}\n"
        )
    }
}

/// A point of a line that a job changes.
#[derive(Clone, Copy)]
enum Point {
    /// A refusal, once the operands are read.
    Refused(u32),
    /// Bits of the line's first word: those of the mask become these.
    FirstWord { mask: u32, bits: u32 },
}

/// Refusals 1 and 2 come from the model of document 01.
fn of_model(answer: &Answer) -> bool {
    [1, 2].contains(&answer.number)
}

const SHAM: u8 = 5;
const FUNC: u8 = 1;
const WORD: u8 = 2;

pub fn line(job: Job, input: &LineInput) -> (LineOutcome, Judge) {
    let rust = judge_line::expected(input);
    if of_model(&rust.answer) {
        return (rust, Judge::Model);
    }
    let points = points(job, input);

    match points.is_empty() {
        true => (rust, Judge::Rust),
        false => (put_in(&points, input, rust), Judge::Second),
    }
}

/// The listed points of a line, refusals first and in their order. The operands are read by the
/// Rust's own readers; where one is not there the Rust refuses the line in every job.
fn points(job: Job, input: &LineInput) -> Vec<Point> {
    let (_, _, mnemonic) = bodies(&input.mnemonic).next().unwrap();
    let name = mnemonic[8..].to_ascii_lowercase();
    let descriptor = bodies(&input.descriptors)
        .map(|(_, _, body)| body)
        .find(|body| body[8..] == name);
    let tokens: Vec<Token> = bodies(&input.tokens)
        .map(|(_, kind, body)| token(kind, body))
        .collect();
    let mut cursor = LexerCursor::new(&tokens);
    cursor.set_position(input.position as usize);

    match (job, descriptor) {
        (Job::Commit, _) => vec![],
        (_, None) if name == *b"abs" => sra(&mut cursor).into_iter().collect(),
        (_, None) => vec![],
        (_, Some(fields)) => described(job == Job::Release6, fields, &mut cursor),
    }
}

/// sra $at,source,31: rd 1, shift amount 31 and function 3, where the Rust writes an immediate.
fn sra(cursor: &mut LexerCursor) -> Option<Point> {
    get_register(cursor).ok()?;
    get_register(cursor).ok()?;

    Some(Point::FirstWord {
        mask: 0xffff,
        bits: 1 << 11 | 31 << 6 | 3,
    })
}

fn described(release_6: bool, fields: &[u8], cursor: &mut LexerCursor) -> Vec<Point> {
    let [class, key, encoding, size] = [fields[0], fields[1] % 64, fields[2], fields[3]];
    let mut points = vec![];

    if encoding == SHAM && amount(cursor).is_some_and(|amount| !(0..32).contains(&amount)) {
        points.push(Point::Refused(19));
    } else if code(encoding, cursor).is_some_and(|code| !(0..8).contains(&code)) {
        points.push(Point::Refused(20));
    }
    if release_6 && (third_input(encoding, cursor) || (class, key) == (FUNC, 18)) {
        points.push(Point::Refused(27));
    }
    if release_6 && (class, key, encoding) == (FUNC, 8, 2) {
        points.push(Point::FirstWord { mask: 63, bits: 9 });
    }
    if (15..=18).contains(&encoding) && size == WORD {
        points.push(Point::FirstWord {
            mask: 31 << 21,
            bits: 20 << 21,
        });
    }

    points
}

/// The third operand of a Sham line.
fn amount(cursor: &mut LexerCursor) -> Option<u64> {
    get_register(cursor).ok()?;
    get_register(cursor).ok()?;

    get_constant(cursor).ok()
}

/// The condition code of FPMove, FPCond or FPBranch, of which the Rust's `get_cc` keeps 8 bits.
fn code(encoding: u8, cursor: &mut LexerCursor) -> Option<u64> {
    match encoding {
        17 => {
            get_fp_register(cursor).ok()?;
            get_fp_register(cursor).ok()?;
        }
        18 | 20 => {}
        _ => return None,
    }

    match get_token(cursor).ok()?.kind {
        TokenKind::IntegerLiteral(code) => Some(code),
        _ => None,
    }
}

/// Whether an Inputs line has a third operand.
fn third_input(encoding: u8, cursor: &mut LexerCursor) -> bool {
    encoding == 4
        && get_register(cursor).is_ok()
        && get_register(cursor).is_ok()
        && maybe_get_value(cursor).is_some()
}

/// The Rust's outcome with a line's points put in: "after the line's last operand is read,
/// before 9", with the location and position of refusal 9.
fn put_in(points: &[Point], input: &LineInput, mut rust: LineOutcome) -> LineOutcome {
    if (1..9).contains(&rust.answer.number) {
        return rust;
    }

    for point in points {
        match point {
            Point::Refused(number) => {
                return input.refused(Answer {
                    number: *number,
                    source: u32_at(&input.mnemonic, 4),
                    index: u32_at(&input.mnemonic, 8),
                    a: 0,
                    b: 0,
                    last: rust.answer.last,
                })
            }
            Point::FirstWord { mask, bits } if rust.answer.number == 0 => {
                let place = input.counts[0] as usize;
                let word = u32_at(&rust.data, place) & !mask | bits;

                rust.data[place..place + 4].copy_from_slice(&word.to_le_bytes());
            }
            Point::FirstWord { .. } => {}
        }
    }

    rust
}

pub fn build(job: Job, input: &BuildInput) -> (BuildOutcome, Judge) {
    let rust = judge_build::expected(input);
    if of_model(&rust.answer) {
        return (rust, Judge::Model);
    }

    let renamed = owners::renamed(input);

    match first_outside(&renamed).filter(|_| job != Job::Commit) {
        None if owners::has(input) => (rust, Judge::Second),
        None => (rust, Judge::Rust),
        Some((before, refusal)) => {
            // The Rust judges the patches before it, then that branch is refused.
            let pending = write(&before);
            let rust = judge_build::judge(&BuildInput { pending, ..renamed });

            match rust.answer.number {
                0 => (input.refused(refusal), Judge::Second),
                _ => (rust, Judge::Second),
            }
        }
    }
}

/// The first branch, in patch order, whose distance lies outside -32,768 to 32,767: the patches
/// before it, and its refusal. All labels are for all.
fn first_outside(input: &BuildInput) -> Option<(Vec<Record>, Answer)> {
    let labels: HashMap<&[u8], u32> = bodies(&input.labels)
        .map(|(_, _, body)| (&body[4..], u32_at(body, 0)))
        .collect();
    let regions: Vec<(u32, usize)> = bodies(&input.regions)
        .map(|(_, _, body)| (u32_at(body, 0), body.len() - 4))
        .collect();
    let mut patches: Vec<Pending> = bodies(&input.pending)
        .map(|(_, _, body)| Pending::read(body))
        .collect();
    patches.sort_by_key(|patch| patch.region);

    // A patch past its region's data gets refusal 14, and one of an unknown name 15, as ever.
    let refusal = |patch: &Pending| {
        let (start, length) = regions[patch.region as usize];
        let address = match patch.reference.form {
            0 => 0,
            _ => *labels.get(&patch.reference.name[..])?,
        };
        let to = address.wrapping_add(patch.reference.value as u32);
        let pc = start.wrapping_add(patch.offset);
        let distance = (to / 4) as i64 - (pc.wrapping_add(4) / 4) as i64;
        let outside = distance as i16 as i64 != distance;
        let inside = patch.offset as usize + 4 <= length;

        (patch.patch == 0 && inside && outside).then_some(Answer {
            number: 16,
            source: patch.source,
            index: patch.index,
            a: to,
            b: pc,
            last: NO_ENTRY,
        })
    };
    let (count, refusal) = patches
        .iter()
        .enumerate()
        .find_map(|(count, patch)| Some((count, refusal(patch)?)))?;

    Some((
        patches[..count].iter().map(Pending::record).collect(),
        refusal,
    ))
}
