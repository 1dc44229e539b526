//! Generated dry runs, each by the plain interpreter and by the library; and runs timed.

use crate::bench::{least, median};
use crate::dry_run_generate::generated;
use crate::dry_run_input::{RunInput, RunOutcome, REGISTER_BYTES};
use crate::dry_run_library;
use crate::dry_run_plain;
use crate::options::Options;
use crate::records::{addressed, kind, write, Record};
use std::collections::BTreeMap;
use std::hint::black_box;
use std::time::Instant;

const ROUNDS: usize = 51;
/// The most time that the library may take, in times the plain interpreter's: the least of each.
const MOST: f64 = 1.5;
const STEPS: u32 = 200_000;
const BASE: u32 = 0x0040_0000;
const REASONS: [&str; 4] = ["allowance", "pc", "word", "overflow"];

/// The outcome that both sides give; none where they differ, which is printed whole.
fn agreed(input: &RunInput) -> Option<RunOutcome> {
    let expected = dry_run_plain::dry_run(input);
    let met = dry_run_library::dry_run(input);

    if met.as_ref().ok() == Some(&expected) {
        return Some(expected);
    }

    input.print();
    expected.print("plain");
    match met {
        Ok(outcome) => outcome.print("nazgwern"),
        Err(fault) => println!("nazgwern: {fault}"),
    }

    None
}

/// Compares `count` runs; false at the first difference.
pub fn run(options: &Options) -> bool {
    let mut tally = BTreeMap::new();
    let mut steps = 0u64;

    for index in 0..options.count {
        let input = generated(options.seed, index);
        let Some(RunOutcome { answer, .. }) = agreed(&input) else {
            println!("run {index} of seed {} differs", options.seed);
            return false;
        };
        let name = match answer.number {
            0 => format!("reason {}", REASONS[answer.a as usize]),
            number => format!("refusal {number}"),
        };

        if answer.number == 0 {
            steps += answer.b as u64;
        }
        *tally.entry(name).or_insert(0u64) += 1;
    }

    println!(
        "dry runs, plain interpreter beside nazgwern, seed {}",
        options.seed
    );
    for (name, count) in tally {
        println!("{name} {count}");
    }
    println!("{steps} steps");
    println!("0 differ");

    bench()
}

/// The words of each of the eighteen, with `here` as the number of the jump, none overflowing.
fn each_once(here: u32) -> Vec<u32> {
    let immediate = |opcode: u32, half: u32| opcode << 26 | 2 << 21 | 3 << 16 | half;
    let register = |function: u32| 4 << 21 | 5 << 16 | 6 << 11 | function;
    let mut words = vec![0];

    words.extend([9, 8, 13, 14].map(|opcode| immediate(opcode, 7)));
    words.push(15 << 26 | 3 << 16 | 7);
    words.extend([32, 33, 34, 35, 38, 39, 42, 43].map(register));
    words.push(5 << 16 | 6 << 11 | 4 << 6 | 3);
    words.extend([
        4 << 26 | 2 << 21 | 7 << 16 | 1,
        5 << 26 | 2 << 21 | 2 << 16 | 1,
    ]);
    words.push(2 << 26 | here);

    words
}

fn image(words: &[u32], regions_before: usize) -> RunInput {
    let data: Vec<u8> = words.iter().flat_map(|word| word.to_le_bytes()).collect();
    let mut records: Vec<Record> = (0..regions_before)
        .map(|number| addressed(kind::REGION, 0x1000_0000 + 4 * number as u32, &[0; 4]))
        .collect();
    records.push(addressed(kind::REGION, BASE, &data));

    let mut registers = vec![0; REGISTER_BYTES];
    registers[4 * 7] = 1;
    RunInput {
        regions: write(&records),
        registers,
        pc: BASE,
        allowance: STEPS,
    }
}

/// Loops that end by their allowance, run by both sides in turn; false where the library takes too long.
fn bench() -> bool {
    // addiu $4,$4,-1; addu $2,$2,$4; j back
    let three = [0x2484_ffff, 0x0044_1021, 2 << 26 | BASE >> 2];
    let images = [
        ("three words, 1 region", image(&three, 0)),
        ("three words, 16 regions", image(&three, 15)),
        (
            "each of eighteen, 1 region",
            image(&each_once(BASE >> 2), 0),
        ),
    ];

    let mut within = true;

    println!();
    println!("{STEPS} steps a call, nanoseconds a step: the median of {ROUNDS} calls, in turn");
    println!(
        "{:>27} {:>8} {:>9} {:>15}",
        "", "plain", "nazgwern", "nazgwern/plain"
    );

    for (name, input) in images {
        match agreed(&input) {
            Some(RunOutcome { answer, .. }) if answer.b == STEPS => {}
            _ => {
                println!("{name}: the sides differ, or the loop ends");
                return false;
            }
        }

        let (mut plain, mut other) = (vec![], vec![]);
        for _ in 0..ROUNDS {
            plain.push(time(|| {
                black_box(dry_run_plain::dry_run(black_box(&input)));
            }));
            other.push(time(|| {
                let _ = black_box(dry_run_library::dry_run(black_box(&input)));
            }));
        }

        within &= least(&other) <= MOST * least(&plain);
        let [plain, other] = [plain, other].map(median);
        println!(
            "{name:>27} {plain:>8.2} {other:>9.2} {:>15.2}",
            other / plain
        );
    }

    if !within {
        println!("over {MOST} times the plain interpreter's time");
    }

    within
}

/// Nanoseconds a step.
fn time(mut call: impl FnMut()) -> f64 {
    let start = Instant::now();
    call();

    start.elapsed().as_nanos() as f64 / STEPS as f64
}
