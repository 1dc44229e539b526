//! The counts of constants by their forms (document 02, P14): the library's call against a walk
//! over the range, with the forms of the second implementation.

use crate::answer::Answer;
use crate::other::{library, Other};
use crate::second_words;

/// Constants on each side of a boundary.
const SIDE: u64 = 35_000;

const LAST: u64 = u32::MAX as u64;

/// Where the form of the next constant differs from that of the last, or the range ends.
const BOUNDARIES: [u64; 15] = [
    0,
    0x7fff,
    0x8000,
    0xffff,
    0x1_0000,
    0x1_8000,
    0x2_0000,
    0x1234_0000,
    0x7fff_0000,
    0x8000_0000,
    0xfffe_0000,
    0xffff_0000,
    0xffff_7fff,
    0xffff_8000,
    0xffff_ffff,
];

/// Counts by form: addiu, ori, lui, both halves.
type Counts = [u64; 4];

struct Outcome {
    answer: Answer,
    counts: Counts,
}

const UNTOUCHED: [u8; 8] = [0xa5; 8];

fn asked(start: u64, end: u64) -> Result<Outcome, String> {
    let mut counts = UNTOUCHED.repeat(4);
    let mut answer = [0xa5; Answer::SIZE];
    let returned = library::count_forms(start as u32, end as u32, &mut counts, &mut answer);
    let answer = Answer::from_bytes(&answer);

    if returned != answer.number {
        return Err(format!("returned {returned}, answered {answer:?}"));
    }

    let counts = [0, 8, 16, 24].map(|place| {
        let bytes = counts[place..place + 8].try_into().expect("eight bytes");
        u64::from_le_bytes(bytes)
    });

    Ok(Outcome { answer, counts })
}

/// The linked call's counts of a range that it has to accept.
fn counted(start: u64, end: u64) -> Result<Counts, String> {
    let Outcome { answer, counts } = asked(start, end)?;

    match answer == Answer::accepted(0) {
        true => Ok(counts),
        false => Err(format!("answered {answer:?}")),
    }
}

/// Whether a range is refused with nothing but the number, and its counts are as they were.
fn refused(start: u64, end: u64) -> Result<(), String> {
    let Outcome { answer, counts } = asked(start, end)?;
    let due = Answer {
        number: 30,
        ..Answer::accepted(0)
    };

    match answer == due && counts == [u64::from_le_bytes(UNTOUCHED); 4] {
        true => Ok(()),
        false => Err(format!("answered {answer:?} with counts {counts:?}")),
    }
}

fn form(constant: u64) -> usize {
    second_words::form(&second_words::load(constant, second_words::AT)) as usize - 1
}

fn expect(start: u64, end: u64, walked: Counts, found: Result<Counts, String>) -> bool {
    let agreed = found.as_ref() == Ok(&walked);
    if !agreed {
        println!("{start:#x} to {end:#x}: walked {walked:?}, found {found:?}");
    }

    agreed
}

/// Walks one window; after each constant the range from the window's start up to it is asked for,
/// and then, from each constant on, the range down from the window's end.
fn window(from: u64, to: u64) -> bool {
    let mut walked = [0; 4];
    for constant in from..=to {
        walked[form(constant)] += 1;
        if !expect(from, constant, walked, counted(from, constant)) {
            return false;
        }
    }
    for constant in from..=to {
        if !expect(constant, to, walked, counted(constant, to)) {
            return false;
        }
        walked[form(constant)] -= 1;
    }

    true
}

/// Start past end, by one and by all.
fn refusals() -> bool {
    [(1, 0), (LAST, 0), (LAST, LAST - 1), (0x8000, 0x7fff)]
        .iter()
        .all(|&(start, end)| match refused(start, end) {
            Ok(()) => true,
            Err(fault) => {
                println!("{start:#x} to {end:#x}: {fault}");
                false
            }
        })
}

pub fn run(other: Other) -> bool {
    assert!(other == Other::Library, "only the library has the call");
    let mut ranges = 0;

    for boundary in BOUNDARIES {
        let from = boundary.saturating_sub(SIDE);
        let to = (boundary + SIDE).min(LAST);
        if !window(from, to) {
            return false;
        }
        ranges += 2 * (to - from + 1);
    }

    let full = [65_536, 32_768, 65_535, 4_294_803_457];
    let agreed = expect(0, LAST, full, counted(0, LAST)) && refusals();
    println!(
        "count_forms: {ranges} ranges in {} windows",
        BOUNDARIES.len()
    );

    agreed
}
