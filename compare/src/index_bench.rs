//! A line with an index beside the same line without one, and an index made afresh beside plain
//! Rust, timed.

use crate::answer::Answer;
use crate::bench::median;
use crate::descriptors;
use crate::index_input::IndexedInput;
use crate::index_library::{call, call_make, counts_of};
use crate::index_plain::afresh;
use crate::index_run::JUDGE;
use crate::job::Job;
use crate::line_input::LineInput;
use crate::names::spoken;
use crate::other::library;
use crate::random::Random;
use crate::records::{kind, write, Label, Pending, Record, Reference};
use crate::tokens::{COMMA, REGISTER, SYMBOL};
use std::hint::black_box;
use std::time::Instant;

const ROUNDS: usize = 201;

/// Pendings that are there, and labels that they name.
const SIZES: [(usize, usize); 4] = [(100, 10), (100, 200), (1_000, 10), (1_000, 200)];

/// The most pendings of a list: each of 37 bytes, with a name of one byte.
const MOST: usize = 1_771;

pub fn run() -> bool {
    lines() && indexes()
}

/// Microseconds.
fn time(mut call: impl FnMut()) -> f64 {
    let start = Instant::now();
    call();

    start.elapsed().as_nanos() as f64 / 1_000.0
}

fn label(number: usize) -> Record {
    let label = Label {
        address: 0x0040_0000 + 4 * number as u32,
        owner: None,
        name: spoken(number),
    };

    label.record()
}

fn pending(name: Vec<u8>, source: u32, number: usize) -> Record {
    let pending = Pending {
        region: 0,
        offset: 4 * number as u32,
        source: 0,
        index: number as u32,
        patch: 0,
        reference: Reference {
            form: 1,
            value: 0,
            source,
            index: number as u32,
            name,
        },
    };

    pending.record()
}

/// A routine of so many pendings that name so many labels, and its next line, `beq $t0,$t1,name`.
fn routine(pendings: usize, labels: usize, rising: bool) -> IndexedInput {
    let mut random = Random::of(pendings as u64, labels as u64);
    let mut table: Vec<Record> = random.shuffled(labels).into_iter().map(label).collect();
    if rising {
        table.sort_by(|one, other| one.body[4..].cmp(&other.body[4..]));
    }
    let used: Vec<Record> = (0..pendings)
        .map(|number| pending(spoken(random.below(labels)), 0, number))
        .collect();
    let token = |kind: u16, payload: &[u8]| Record {
        kind,
        body: [&[0; 8], payload].concat(),
    };
    let tokens = [
        token(REGISTER, &[8]),
        token(COMMA, &[]),
        token(REGISTER, &[9]),
        token(COMMA, &[]),
        token(SYMBOL, &spoken(random.below(labels))),
    ];

    let (labels, mut pending) = (write(&table), write(&used));
    let counts = [4 * pendings as u32, pending.len() as u32, 0];
    let mut index = afresh(&labels, &pending);
    let fill = index.len() as u32;
    pending.resize(pending.len() + 100, 0);
    index.resize(index.len() + 100, 0);

    IndexedInput {
        job: Job::Commit,
        line: LineInput {
            tokens: write(&tokens),
            mnemonic: write(&[token(kind::MNEMONIC, b"beq")]),
            descriptors: write(descriptors::table()),
            data: vec![0; 4 * pendings + 4],
            pending,
            breakpoints: vec![0; 16],
            counts,
            position: 0,
            region: 0,
            address: 0x0040_0000,
        },
        labels,
        index,
        fill,
    }
}

fn lines() -> bool {
    println!();
    println!("the next line `beq $t0,$t1,name` of a routine, microseconds: the median of {ROUNDS} calls, in turn.");
    println!(
        "'without' is nazgwern_do_instruction; 'plain' checks and makes the index in plain Rust"
    );
    println!("(a BTreeMap, twice) and has the line from the judge. 'order' is that of the labels.");
    println!(
        "{:>9} {:>7} {:>7} {:>9} {:>9} {:>13} {:>9} {:>11}",
        "pendings", "labels", "order", "without", "with", "with/without", "plain", "with/plain"
    );

    SIZES
        .iter()
        .all(|(pendings, labels)| line(*pendings, *labels, true) && line(*pendings, *labels, false))
}

fn line(pendings: usize, labels: usize, rising: bool) -> bool {
    let input = routine(pendings, labels, rising);
    let (mut without, mut with, mut plain) = (vec![], vec![], vec![]);
    let mut answer = [0; Answer::SIZE];

    for _ in 0..ROUNDS {
        let (mut lent, mut counts) = (input.line.clone(), counts_of(&input));
        without.push(time(|| {
            black_box(library::line(&mut lent, &mut counts[..12], &mut answer));
        }));

        let (mut lent, mut counts) = (input.clone(), counts_of(&input));
        with.push(time(|| {
            black_box(call(&mut lent, &mut counts, &mut answer));
        }));
        plain.push(time(|| {
            black_box(JUDGE.do_indexed(black_box(&input)));
        }));
        if Answer::from_bytes(&answer).number != 0 {
            println!("the line is refused: {:?}", Answer::from_bytes(&answer));
            return false;
        }
    }

    let [without, with, plain] = [without, with, plain].map(median);
    println!(
        "{pendings:>9} {labels:>7} {:>7} {without:>9.1} {with:>9.1} {:>13.2} {plain:>9.1} {:>11.2}",
        if rising { "rising" } else { "random" },
        with / without,
        with / plain
    );

    true
}

fn indexes() -> bool {
    let mut random = Random::of(1, 1);
    let different = |order: Vec<usize>| -> Vec<u8> {
        let uses: Vec<Record> = order
            .into_iter()
            .map(|number| pending(b"a".to_vec(), number as u32, number))
            .collect();
        write(&uses)
    };
    let some = routine(1_000, 200, false);
    let filled = some.line.pending[..some.line.counts[1] as usize].to_vec();
    let lists = [
        ("1,000 pendings, 200 labels", filled, some.labels),
        (
            "1,771 different, rising",
            different((0..MOST).collect()),
            vec![],
        ),
        (
            "1,771 different, falling",
            different((0..MOST).rev().collect()),
            vec![],
        ),
        (
            "1,771 different, random",
            different(random.shuffled(MOST)),
            vec![],
        ),
    ];

    println!();
    println!("an index made afresh, microseconds: the median of {ROUNDS} calls, in turn. 'roomy' is a buffer as long");
    println!("as the pending list, 'exact' one as long as the index; 'plain' is plain Rust with a BTreeMap.");
    println!(
        "{:>28} {:>9} {:>9} {:>9} {:>12} {:>12}",
        "", "plain", "roomy", "exact", "roomy/plain", "exact/plain"
    );

    for (name, pendings, labels) in lists {
        let made = afresh(&labels, &pendings);
        let fill = pendings.len() as u32;
        let (mut roomy, mut exact) = (vec![0; pendings.len()], vec![0; made.len()]);
        let mut times = [vec![], vec![], vec![]];
        let mut answer = [0; Answer::SIZE];

        for _ in 0..ROUNDS {
            times[0].push(time(|| {
                black_box(JUDGE.make_into(black_box(&pendings), fill, &labels, &mut roomy));
            }));
            for (buffer, times) in [&mut roomy, &mut exact].into_iter().zip(&mut times[1..]) {
                times.push(time(|| {
                    black_box(call_make(
                        black_box(&pendings),
                        fill,
                        &labels,
                        buffer,
                        &mut answer,
                    ));
                }));
                if buffer[..made.len()] != made {
                    println!(
                        "{name}: the sides differ, {:?}",
                        Answer::from_bytes(&answer)
                    );
                    return false;
                }
            }
        }

        let [plain, roomy, exact] = times.map(median);
        println!(
            "{name:>28} {plain:>9.1} {roomy:>9.1} {exact:>9.1} {:>12.2} {:>12.2}",
            roomy / plain,
            exact / plain
        );
    }

    true
}
