//! Whole builds, timed: the Rust's beside the other side's, on the same lists in one run.

use crate::answer::Answer;
use crate::build_input::BuildInput;
use crate::job::Job;
use crate::judge_build;
use crate::names::{digits, spoken};
use crate::options::Options;
use crate::other::{library, Other};
use crate::random::Random;
use crate::records::{addressed, entry, kind, write, Label, Pending, Reference};
use crate::run_build;
use crate::second_build;
use std::hint::black_box;
use std::time::Instant;

const ROUNDS: usize = 201;

/// Where the timed routines begin; their entry records name the label there.
const ENTRY: u32 = 0x0040_0000;

/// Labels, pendings, regions, how a label is named by its number, builds in one timed batch.
/// Batches are small, so that what was prepared for them is still in the processor's caches.
pub type Size = (usize, usize, usize, fn(usize) -> Vec<u8>, usize);

/// First as many pendings as labels, then as many as a list of 65,536 bytes holds: with a name of
/// twelve bytes a pending takes 48, with one of sixteen 52, with one of four 40, with one of two
/// 38. The last has the most labels that a list holds, with all names of one byte.
const SIZES: [Size; 8] = [
    (10, 10, 1, |number| digits(number, 12), 64),
    (100, 100, 1, |number| digits(number, 12), 16),
    (10, 1365, 1, |number| digits(number, 12), 2),
    (10, 1365, 16, |number| digits(number, 12), 2),
    (100, 1365, 1, |number| digits(number, 12), 2),
    (2000, 1260, 1, spoken, 2),
    (2000, 1638, 1, |number| digits(number, 4), 2),
    (6563, 1724, 1, shortest, 1),
];

/// How a list stands: in an order drawn at random, or rising by names.
#[derive(Clone, Copy, PartialEq)]
pub enum Order {
    Random,
    Rising,
}

/// The 95 names of one byte, then names of two.
fn shortest(number: usize) -> Vec<u8> {
    let byte = |number: usize| b' ' + number as u8;

    match number {
        0..95 => vec![byte(number)],
        _ => vec![byte(number / 95 - 1), byte(number % 95)],
    }
}

pub fn run(options: &Options) -> bool {
    println!("whole builds, nanoseconds each: the median of {ROUNDS} batches, the sides in turn");
    println!("Every call gets its lists afresh, as the region list is patched in place, and every");
    println!("'Rust, build' a builder. This restoring is outside the timing for both sides alike,");
    println!("and so is dropping what a call returned.");
    println!(
        "'Rust, build' is its build() alone; 'Rust, whole' also makes the BinaryBuilder, with its"
    );
    println!(
        "HashMap, from the same four lists; 'other' is {}, from the lists.",
        options.other.name()
    );
    println!(
        "The pendings name all labels in an order drawn at random; 'order' is that of the label"
    );
    println!("list. Of several regions the pendings take turns.");
    println!();
    println!(
        "{:>6} {:>8} {:>7} {:>6} {:>12} {:>12} {:>12} {:>14} {:>14}",
        "labels",
        "pendings",
        "regions",
        "order",
        "Rust, build",
        "Rust, whole",
        "other",
        "other/build",
        "other/whole"
    );

    SIZES.iter().all(|size| {
        row(options, *size, Order::Random, "random") && row(options, *size, Order::Rising, "rising")
    })
}

/// One row of the table; false where the sides differ.
fn row(options: &Options, size: Size, order: Order, shown: &str) -> bool {
    let input = input(size, order);
    let (labels, pendings, regions, _, batch) = size;
    if run_build::agreed(options, &input).map(|(answer, _)| answer) != Some(Answer::accepted(ENTRY))
    {
        println!("the sides differ on {labels} labels");
        return false;
    }
    let second = |input: BuildInput| second_build::build(Job::Commit, &input);
    let [mut build, mut whole, mut other] = [(); 3].map(|()| vec![]);

    for _ in 0..ROUNDS {
        build.push(time(
            batch,
            || judge_build::builder(&input),
            |builder| builder.build(),
        ));
        whole.push(time(
            batch,
            || (),
            |()| judge_build::builder(&input).build(),
        ));
        other.push(match options.other {
            Other::Library => time(batch, || input.clone(), call_library),
            Other::Second => time(batch, || input.clone(), second),
        });
    }

    let [build, whole, other] = [build, whole, other].map(median);
    let [by_build, by_whole] = [other / build, other / whole];
    println!(
        "{labels:>6} {pendings:>8} {regions:>7} {shown:>6} {build:>12.0} {whole:>12.0} \
         {other:>12.0} {by_build:>14.2} {by_whole:>14.2}"
    );

    true
}

pub fn call_library(mut lent: BuildInput) -> BuildInput {
    let mut answer = [0; Answer::SIZE];
    library::build(&mut lent, &mut answer);
    black_box(answer);

    lent
}

/// Nanoseconds a call, over a batch that is prepared before and dropped after.
fn time<T, R>(batch: usize, prepare: impl Fn() -> T, call: impl Fn(T) -> R) -> f64 {
    let given: Vec<T> = (0..batch).map(|_| prepare()).collect();
    let mut results = Vec::with_capacity(batch);

    let start = Instant::now();
    for each in given {
        results.push(black_box(call(each)));
    }
    let taken = start.elapsed();

    taken.as_nanos() as f64 / batch as f64
}

/// The least of the times: what the code takes where nothing else runs beside it.
pub fn least(times: &[f64]) -> f64 {
    times.iter().copied().fold(f64::INFINITY, f64::min)
}

pub fn median(mut times: Vec<f64>) -> f64 {
    times.sort_by(f64::total_cmp);

    times[times.len() / 2]
}

/// A routine with a label on every so many words and a patch in each word, of each kind in
/// turn, that names them all over the table.
pub fn input((labels, pendings, regions, name, _): Size, order: Order) -> BuildInput {
    let mut random = Random::of(labels as u64, pendings as u64);
    let mut table: Vec<Label> = random
        .shuffled(labels)
        .into_iter()
        .map(|number| Label {
            address: ENTRY + 4 * (number * pendings / labels) as u32,
            owner: None,
            name: name(number),
        })
        .collect();
    if order == Order::Rising {
        table.sort_by(|one, other| one.name.cmp(&other.name));
    }

    let used = random.shuffled(labels);
    let pending: Vec<_> = (0..pendings)
        .map(|place| {
            Pending {
                region: (place % regions) as u16,
                offset: 4 * (place / regions) as u32,
                source: 0,
                index: 20 * place as u32,
                patch: (place % 5) as u8,
                reference: reference(20 * place as u32 + 8, 4, name(used[place % labels])),
            }
            .record()
        })
        .collect();

    let bytes = 4 * pendings.div_ceil(regions);
    let data: Vec<_> = (0..regions)
        .map(|number| {
            addressed(
                kind::REGION,
                ENTRY + (number * bytes) as u32,
                &vec![0; bytes],
            )
        })
        .collect();

    BuildInput {
        labels: write(&table.iter().map(Label::record).collect::<Vec<_>>()),
        entry: write(&[entry(&reference(0, 0, name(0)))]),
        regions: write(&data),
        pending: write(&pending),
    }
}

fn reference(index: u32, added: u64, name: Vec<u8>) -> Reference {
    Reference {
        form: 1,
        value: added,
        source: 0,
        index,
        name,
    }
}
