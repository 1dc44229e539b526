//! Generated pages, each laid out by the plain program and by the library; and pages timed.

use crate::answer::Answer;
use crate::bench::median;
use crate::names::{digits, spoken};
use crate::options::Options;
use crate::page_generate::generated;
use crate::page_input::{PageInput, PageOutcome};
use crate::page_library;
use crate::page_plain::{by_hand, by_write, lay_out, lay_out_into, LIMIT};
use crate::random::Random;
use crate::records::{addressed, kind, write, Label, Record};
use std::collections::BTreeMap;
use std::hint::black_box;
use std::time::Instant;

const ROUNDS: usize = 101;
const BASE: u32 = 0x0040_0000;

/// The outcome that both sides give; none where they differ, which is printed whole.
fn agreed(input: &PageInput) -> Option<PageOutcome> {
    let expected = lay_out(input, by_write);
    let met = page_library::lay_out(input);

    if met.as_ref().ok() == Some(&expected) {
        return Some(expected);
    }

    input.print();
    expected.print("plain");
    match met {
        Ok(outcome) => outcome.print("nazgwern"),
        Err(fault) => println!("nazgwern: {fault}"),
    }

    None
}

/// Compares `count` pages; false at the first difference.
pub fn run(options: &Options) -> bool {
    let mut tally = BTreeMap::new();

    for index in 0..options.count {
        let Some(outcome) = agreed(&generated(options.seed, index)) else {
            println!("page {index} of seed {} differs", options.seed);
            return false;
        };
        *tally.entry(outcome.answer.number).or_insert(0u64) += 1;
    }

    println!(
        "pages, plain program beside nazgwern, seed {}",
        options.seed
    );
    for (number, count) in tally {
        match number {
            0 => println!("laid out {count}"),
            _ => println!("refusal {number} {count}"),
        }
    }
    println!("0 differ");

    bench()
}

/// So many labels on the words of the first region, all over it, in an order drawn at random.
fn labels(count: usize, words: usize, name: fn(usize) -> Vec<u8>) -> Vec<u8> {
    let mut random = Random::of(count as u64, words as u64);
    let records: Vec<Record> = random
        .shuffled(count)
        .into_iter()
        .map(|number| {
            let word = number * words / count;
            let label = Label {
                address: BASE + 4 * word as u32,
                owner: None,
                name: name(number),
            };
            label.record()
        })
        .collect();

    write(&records)
}

fn regions(count: usize, bytes: usize) -> Vec<u8> {
    let mut random = Random::of(count as u64, bytes as u64);
    let records: Vec<Record> = (0..count)
        .map(|_| addressed(kind::REGION, BASE, &random.bytes(bytes)))
        .collect();

    write(&records)
}

/// A name of one or two bytes.
fn short(number: usize) -> Vec<u8> {
    const LETTERS: usize = 95;
    let letter = |n: usize| b' ' + n as u8;

    match number < LETTERS {
        true => vec![letter(number)],
        false => vec![letter(number / LETTERS - 1), letter(number % LETTERS)],
    }
}

fn long(number: usize) -> Vec<u8> {
    digits(number, 24)
}

/// Whole calls of both sides in turn, the plain program's with the library's formatting and by hand.
fn bench() -> bool {
    let pages = [
        ("14 words, 4 labels", labels(4, 14, spoken), regions(1, 56)),
        (
            "1,000 words, 100 labels",
            labels(100, 1_000, spoken),
            regions(1, 4_000),
        ),
        ("16,382 words, no label", vec![], regions(1, 65_528)),
        (
            "16,382 words, 2,000 labels",
            labels(2_000, 16_382, spoken),
            regions(1, 65_528),
        ),
        (
            "16,382 words, 2,000 of 24 bytes",
            labels(2_000, 16_382, long),
            regions(1, 65_528),
        ),
        (
            "16 x 1,023 words, 6,563 labels",
            labels(6_563, 1_023, short),
            regions(16, 4_088),
        ),
    ];

    println!();
    println!("pages, microseconds a call: the median of {ROUNDS} calls, the sides in turn");
    println!(
        "{:>32} {:>9} {:>9} {:>9} {:>15} {:>8}",
        "", "plain", "by hand", "nazgwern", "nazgwern/plain", "/by hand"
    );

    for (name, labels, regions) in pages {
        let mut page = vec![0; LIMIT];
        let input = PageInput {
            labels,
            regions,
            page: page.clone(),
        };
        match agreed(&input) {
            Some(PageOutcome { answer, page })
                if answer.number == 0 && page == lay_out(&input, by_hand).page => {}
            _ => {
                println!("{name}: the sides differ, or there is no page");
                return false;
            }
        }

        let mut times = [vec![], vec![], vec![]];
        let mut answer = [0; Answer::SIZE];
        for _ in 0..ROUNDS {
            for (put_word, times) in [by_write, by_hand].into_iter().zip(&mut times) {
                times.push(time(|| {
                    let input = black_box(&input);
                    black_box(lay_out_into(
                        &input.labels,
                        &input.regions,
                        &mut page,
                        put_word,
                    ));
                }));
            }
            times[2].push(time(|| {
                let input = black_box(&input);
                black_box(page_library::call(
                    &input.labels,
                    &input.regions,
                    &mut page,
                    &mut answer,
                ));
            }));
        }

        let [plain, hand, other] = times.map(median);
        println!(
            "{name:>32} {plain:>9.1} {hand:>9.1} {other:>9.1} {:>15.2} {:>8.2}",
            other / plain,
            other / hand
        );
    }

    true
}

/// Microseconds.
fn time(mut call: impl FnMut()) -> f64 {
    let start = Instant::now();
    call();

    start.elapsed().as_nanos() as f64 / 1_000.0
}
