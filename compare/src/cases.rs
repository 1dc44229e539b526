//! The stored cases of crates/cases (vectors/stored), answered anew: what has to be printed for a
//! case is held to the judge's answer, printed here.

use crate::answer::{hex, Answer};
use crate::build_input::{BuildInput, BuildOutcome};
use crate::job::Job;
use crate::judge_job;
use crate::line_input::{LineInput, LineOutcome};
use crate::patching_input::{Fixed, Line, Patching, Said, Turn};
use crate::patching_plain;
use crate::records::{bodies, u32_at};
use std::fs::read;

/// The jobs that `emit_line` knows, by their bytes.
const JOBS: [Job; 3] = [Job::Commit, Job::Manual, Job::Release6];

/// A stored case: the byte of its program, the program's input and what is to be printed.
struct Stored {
    program: u8,
    input: Vec<u8>,
    shown: String,
}

/// Compares the stored cases of four programs, from the repository's root; false where one differs.
pub fn run() -> bool {
    let stored = match stored() {
        Ok(stored) => stored,
        Err(fault) => {
            println!("crates/cases: {fault}");
            return false;
        }
    };
    let line = |case: &[u8]| line_text(case);
    let build = |case: &[u8]| build_text(Job::Commit, case);
    let manual = |case: &[u8]| build_text(Job::Manual, case);

    // All are looked at, whatever the first says. The bytes are those of crates/cases/src/main.rt.
    [
        agreed("emit_line", 0, &stored, &line),
        agreed("finish", 1, &stored, &build),
        agreed("finish_manual", 2, &stored, &manual),
        agreed("patch_steps", 9, &stored, &script_text),
    ]
    .iter()
    .all(|agreed| *agreed)
}

/// Whether what is to be printed for each case of a program is what `printed` gives for it.
fn agreed(name: &str, program: u8, stored: &[Stored], printed: &dyn Fn(&[u8]) -> String) -> bool {
    let mut count = 0;

    for (number, case) in stored.iter().enumerate() {
        if case.program != program {
            continue;
        }
        let text = printed(&case.input);

        if case.shown != text {
            println!("{name}: case {number} differs; the judge has\n{text}");
            return false;
        }
        count += 1;
    }
    println!("{name}: {count} cases, 0 differ");

    count > 0
}

/// The cases of the stored files. What is to be printed for one ends where the next one's number
/// stands in a line.
fn stored() -> Result<Vec<Stored>, String> {
    let [stdin, stdout] = ["stdin", "stdout"].map(|file| read(format!("crates/cases/{file}")));
    let stdin = stdin.map_err(|fault| fault.to_string())?;
    let stdout = stdout.map_err(|fault| fault.to_string())?;
    let stdout = String::from_utf8(stdout).map_err(|fault| fault.to_string())?;
    let mut rest = &stdin[..];
    let mut shown = &stdout[..];
    let mut cases = vec![];

    while !rest.is_empty() {
        let number = cases.len();
        let case = taken_list(&mut rest);
        let Some((program, input)) = case.split_first() else {
            return Err(format!("case {number} is empty"));
        };
        // what follows begins with a newline, as it does where the next number follows
        let Some(lines) = shown.strip_prefix(&format!("case {number}")) else {
            return Err(format!("nothing is printed for case {number}"));
        };
        let end = lines.find(&format!("\ncase {}\n", number + 1));
        let (text, behind) = lines.split_at(end.unwrap_or(lines.len() - 1) + 1);

        cases.push(Stored {
            program: *program,
            input: input.to_vec(),
            shown: text[1..].to_string(),
        });
        shown = behind;
    }

    Ok(cases)
}

/// The list that stands next, after its 4-byte count. "A missing count is 0, and a list cut short
/// ends there."
fn taken_list(rest: &mut &[u8]) -> Vec<u8> {
    let count = taken_number(rest, 4) as usize;

    taken(rest, count).to_vec()
}

fn taken<'a>(rest: &mut &'a [u8], count: usize) -> &'a [u8] {
    let (first, behind) = rest.split_at(count.min(rest.len()));
    *rest = behind;

    first
}

/// The number that stands next; 0 where a byte of it is missing.
fn taken_number(rest: &mut &[u8], size: usize) -> u32 {
    let bytes = taken(rest, size);

    match bytes.len() == size {
        true => bytes
            .iter()
            .rev()
            .fold(0, |sum, byte| sum << 8 | *byte as u32),
        false => 0,
    }
}

fn line_text(case: &[u8]) -> String {
    let mut rest = case;
    let input = LineInput {
        tokens: taken_list(&mut rest),
        mnemonic: taken_list(&mut rest),
        descriptors: taken_list(&mut rest),
        data: taken_list(&mut rest),
        pending: taken_list(&mut rest),
        breakpoints: taken_list(&mut rest),
        counts: [(); 3].map(|()| taken_number(&mut rest, 4)),
        position: taken_number(&mut rest, 4),
        region: taken_number(&mut rest, 2) as u16,
        address: taken_number(&mut rest, 4),
    };
    let Some(job) = JOBS.get(taken_number(&mut rest, 1) as usize) else {
        return "no such job\n".to_string();
    };

    printed_line(&judge_job::line(*job, &input).0)
}

fn printed_line(outcome: &LineOutcome) -> String {
    let [data, pending, breakpoints] = outcome.counts;
    let forms = ["none", "addiu", "ori", "lui", "both"];
    let loaded = match outcome.answer.number {
        0 => format!("loaded {}\n", forms[outcome.answer.a as usize]),
        _ => String::new(),
    };

    refused(&outcome.answer)
        + &format!("position {}\n", outcome.answer.last)
        + &format!("fills {data} {pending} {breakpoints}\n{loaded}")
        + &format!("data {}\n", hex(&outcome.data))
        + &format!("pending {}\n", hex(&outcome.pending))
        + &format!("breakpoints {}\n", hex(&outcome.breakpoints))
}

/// The line of a refusal; nothing of an accepted call.
fn refused(answer: &Answer) -> String {
    let Answer {
        number,
        source,
        index,
        a,
        b,
        ..
    } = *answer;

    match number {
        0 => String::new(),
        // "a: -8000, b: 32767"; every other a is unsigned.
        9 => format!("refused 9 {source} {index} {} {b}\n", a as i32),
        _ => format!("refused {number} {source} {index} {a} {b}\n"),
    }
}

/// What link/patching.c prints of a script, by the plain implementation.
fn script_text(case: &[u8]) -> String {
    let mut rest = case;
    let [labels, entry, descriptors] = [(); 3].map(|()| taken_list(&mut rest));
    let [regions, pending, breakpoints] = [(); 3].map(|()| {
        let mut list = taken_list(&mut rest);
        list.truncate(65_537);
        list
    });
    let fills = [(); 3].map(|()| taken_number(&mut rest, 4));
    let Some(job) = JOBS.get(taken_number(&mut rest, 1) as usize) else {
        return "no such job\n".to_string();
    };
    let fixed = Fixed {
        job: *job,
        labels,
        entry,
    };
    let mut now = Patching {
        regions,
        pending,
        breakpoints,
        kept: vec![0; 7_280],
        fills,
        patches: 0,
        state: 0,
    };
    let mut text = String::new();

    for _ in 0..4_096 {
        let next = match rest.first() {
            Some(0) => Turn::Step,
            Some(1) => {
                rest = &rest[1..];
                Turn::Line(taken_line(&mut rest, *job, &descriptors))
            }
            _ => break,
        };
        if let Turn::Step = next {
            rest = &rest[1..];
        }
        let outcome = patching_plain::turn(&fixed, &now, &next);
        text += &said_text(&next, outcome.said);
        now = outcome.after;
    }

    text + &printed_patching(&now)
}

fn taken_line(rest: &mut &[u8], job: Job, descriptors: &[u8]) -> Line {
    Line {
        job,
        tokens: taken_list(rest),
        mnemonic: taken_list(rest),
        descriptors: descriptors.to_vec(),
        position: taken_number(rest, 4),
        region: taken_number(rest, 2) as u16,
    }
}

fn said_text(turn: &Turn, said: Said) -> String {
    match (turn, said) {
        (_, Said::Patched(count)) => format!("patched {count}\n"),
        (_, Said::Ended(entry)) => format!("ended {entry:08x}\n"),
        (Turn::Step, Said::Answered(answer)) => refused(&answer),
        (Turn::Line(_), Said::Answered(answer)) => {
            let first = match answer.number {
                0 => "accepted\n".to_string(),
                _ => refused(&answer),
            };
            first + &format!("position {}\n", answer.last)
        }
    }
}

fn printed_patching(now: &Patching) -> String {
    let [regions, pending, breakpoints] = now.fills;
    let state = match now.state {
        0 => "running",
        1 => "ended",
        _ => "refused",
    };

    format!("state {state}\nfills {regions} {pending} {breakpoints}\n")
        + &format!("patches {}\n", now.patches)
        + &format!("regions {}\n", hex(&now.regions))
        + &format!("pending {}\n", hex(&now.pending))
        + &format!("breakpoints {}\n", hex(&now.breakpoints))
}

fn build_text(job: Job, case: &[u8]) -> String {
    let mut rest = case;
    let input = BuildInput {
        labels: taken_list(&mut rest),
        entry: taken_list(&mut rest),
        regions: taken_list(&mut rest),
        pending: taken_list(&mut rest),
    };
    let (outcome, _) = judge_job::build(job, &input);

    match outcome.answer.number {
        0 => printed_image(&outcome),
        _ => refused(&outcome.answer),
    }
}

fn printed_image(outcome: &BuildOutcome) -> String {
    let mut text = format!("entry {:08x}\n", outcome.answer.last);

    for (number, (_, _, body)) in bodies(&outcome.regions).enumerate() {
        let address = u32_at(body, 0);

        text += &format!("region {number} {address:08x}\n");
        for (count, part) in body[4..].chunks(4).enumerate() {
            let pc = address.wrapping_add(4 * count as u32);

            text += &match part.len() {
                4 => format!("{pc:08x} {:08x}\n", u32_at(part, 0)),
                _ => format!("{pc:08x} {}\n", hex(part)),
            };
        }
    }

    text
}
