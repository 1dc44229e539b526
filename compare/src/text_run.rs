//! Generated texts, each read by the plain lexer and by the library; and texts timed.

use crate::answer::Answer;
use crate::bench::{least, median};
use crate::options::Options;
use crate::text_generate::generated;
use crate::text_lexer;
use crate::text_library;
use std::collections::BTreeMap;
use std::hint::black_box;
use std::time::Instant;

const ROUNDS: usize = 201;
/// The most time that the library may take, in times the plain lexer's: the least of each.
const MOST: f64 = 1.0;

/// Compares `count` texts; false at the first difference.
pub fn run(options: &Options) -> bool {
    let mut tally = BTreeMap::new();

    for index in 0..options.count {
        let input = generated(options.seed, index);
        let expected = text_lexer::read_text(&input);
        let met = text_library::read_text(&input);

        if met.as_ref().ok() != Some(&expected) {
            input.print();
            expected.print("lexer");
            match met {
                Ok(outcome) => outcome.print("nazgwern"),
                Err(fault) => println!("nazgwern: {fault}"),
            }
            println!("text {index} of seed {} differs", options.seed);
            return false;
        }

        *tally.entry(expected.answer.number).or_insert(0u64) += 1;
    }

    println!("texts, plain lexer beside nazgwern, seed {}", options.seed);
    for (number, count) in tally {
        match number {
            0 => println!("read {count}"),
            _ => println!("refusal {number} {count}"),
        }
    }
    println!("0 differ");

    bench()
}

/// A routine of lines as lofts write them, read by both sides in turn; false where the library takes too long.
fn bench() -> bool {
    let mut within = true;
    let line = "loop1:  addiu $t0, $t1, -0x10   # one seam step\n        bne $t0,$zero,loop1\n        lw $a0, 4($sp)\n";

    println!();
    println!("texts, nanoseconds a byte: the median of {ROUNDS} rounds, the sides in turn");
    println!(
        "{:>8} {:>12} {:>12} {:>16}",
        "bytes", "plain lexer", "nazgwern", "nazgwern/plain"
    );

    for lines in [1, 20, 100] {
        let text = line.repeat(lines).into_bytes();
        let mut tokens = vec![0; 65536];
        let mut answer = [0; Answer::SIZE];
        let mut plain = vec![];
        let mut other = vec![];

        for _ in 0..ROUNDS {
            plain.push(time(text.len(), || {
                black_box(text_lexer::read_into(black_box(&text), 7, &mut tokens));
            }));
            other.push(time(text.len(), || {
                black_box(text_library::call(
                    black_box(&text),
                    7,
                    &mut tokens,
                    &mut answer,
                ));
            }));
        }

        within &= least(&other) <= MOST * least(&plain);
        let [plain, other] = [plain, other].map(median);
        println!(
            "{:>8} {plain:>12.2} {other:>12.2} {:>16.2}",
            text.len(),
            other / plain
        );
    }

    if !within {
        println!("over {MOST} times the plain lexer's time");
    }

    within
}

/// Nanoseconds a byte, over a batch of calls.
fn time(bytes: usize, mut call: impl FnMut()) -> f64 {
    const BATCH: usize = 16;
    let start = Instant::now();
    for _ in 0..BATCH {
        call();
    }

    start.elapsed().as_nanos() as f64 / (BATCH * bytes) as f64
}
