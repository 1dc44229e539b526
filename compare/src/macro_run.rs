//! Generated macro lists, each written out in plain Rust and by the library; and lists timed.

use crate::answer::Answer;
use crate::bench::median;
use crate::macro_generate::generated;
use crate::macro_library;
use crate::macro_plain;
use crate::options::Options;
use crate::random::Random;
use std::collections::BTreeMap;
use std::hint::black_box;
use std::time::Instant;

const ROUNDS: usize = 51;

/// Compares `count` lists; false at the first difference.
pub fn run(options: &Options) -> bool {
    let mut tally = BTreeMap::new();

    for index in 0..options.count {
        let input = generated(options.seed, index);
        let expected = macro_plain::write_out(&input);
        let met = macro_library::write_out(&input);

        if met.as_ref().ok() != Some(&expected) {
            input.print();
            expected.print("plain");
            match met {
                Ok(outcome) => outcome.print("nazgwern"),
                Err(fault) => println!("nazgwern: {fault}"),
            }
            println!("list {index} of seed {} differs", options.seed);
            return false;
        }

        *tally.entry(expected.answer.number).or_insert(0u64) += 1;
    }

    println!(
        "macro lists, plain Rust beside nazgwern, seed {}",
        options.seed
    );
    for (number, count) in tally {
        match number {
            0 => println!("written out {count}"),
            _ => println!("refusal {number} {count}"),
        }
    }
    println!("0 differ");

    bench()
}

fn token(kind: u16, payload: &[u8]) -> Vec<u8> {
    let mut record = ((8 + payload.len()) as u16).to_le_bytes().to_vec();
    record.extend(kind.to_le_bytes());
    record.extend([7, 0, 0, 0, 0, 0, 0, 0]);
    record.extend(payload);

    record
}

fn symbol(name: &str) -> Vec<u8> {
    token(8, name.as_bytes())
}

fn defined(name: &[u8], parameters: &[&str], body: &[u8]) -> Vec<u8> {
    let mut inside = vec![name.len() as u8];
    inside.extend(name);
    inside.push(parameters.len() as u8);
    for parameter in parameters {
        inside.push(parameter.len() as u8);
        inside.extend(parameter.as_bytes());
    }
    inside.extend(body);

    let mut record = (inside.len() as u16).to_le_bytes().to_vec();
    record.extend(40u16.to_le_bytes());
    record.extend(inside);

    record
}

/// `lines` lines of which each eighth calls a macro of two parameters, which calls another twice.
fn ordinary(lines: usize) -> (Vec<u8>, Vec<u8>) {
    let parameter = |name: &str| token(2, name.as_bytes());
    let line = |words: &[Vec<u8>]| [words.concat(), token(13, b"")].concat();
    let step = [
        symbol("addiu"),
        parameter("r"),
        token(11, b""),
        parameter("r"),
        token(11, b""),
        parameter("n"),
    ]
    .concat();
    let seam = [
        line(&[
            symbol("step"),
            parameter("walk"),
            token(5, &[8, 0, 0, 0, 0, 0, 0, 0]),
        ]),
        [
            symbol("step"),
            parameter("lift"),
            token(5, &[1, 0, 0, 0, 0, 0, 0, 0]),
        ]
        .concat(),
    ]
    .concat();
    let macros = [
        defined(b"step", &["r", "n"], &step),
        defined(b"seam", &["walk", "lift"], &seam),
    ]
    .concat();
    let mut tokens = vec![];

    for number in 0..lines {
        tokens.extend(match number % 8 {
            0 => line(&[
                symbol("seam"),
                token(3, &[8]),
                token(11, b""),
                token(3, &[9]),
            ]),
            _ => line(&[
                symbol("addu"),
                token(3, &[8]),
                token(11, b""),
                token(3, &[9]),
                token(11, b""),
                token(3, &[10]),
            ]),
        });
    }

    (tokens, macros)
}

/// As many macros of two-byte names as a list holds, in an order drawn at random.
fn many_names() -> Vec<u8> {
    Random::of(8192, 2)
        .shuffled(8192)
        .into_iter()
        .flat_map(|n| defined(&[0x21 + (n / 90) as u8, 0x21 + (n % 90) as u8], &[], b""))
        .collect()
}

/// Lists of lofts and the worst lists that were found, written out by both sides in turn.
fn bench() -> bool {
    let line = |name: &str| [symbol(name), token(13, b"")].concat();
    let commas = [symbol("i"), token(11, b"").repeat(5000)].concat();
    let lists = [
        ("20 lines, 3 calls", ordinary(20), ROUNDS),
        ("500 lines, 63 calls", ordinary(500), ROUNDS),
        ("8,192 macros, no line", (vec![], many_names()), 5),
        (
            "8,192 macros, 2,600 mnemonics",
            (line("x").repeat(2600), many_names()),
            5,
        ),
        (
            "5,000 commas, 2,600 calls",
            (
                line("o").repeat(2600),
                [defined(b"i", &[], b""), defined(b"o", &[], &commas)].concat(),
            ),
            5,
        ),
    ];

    println!();
    println!("microseconds a call: the median of the rounds, the sides in turn");
    println!(
        "{:>30} {:>10} {:>10} {:>15}",
        "", "plain", "nazgwern", "nazgwern/plain"
    );
    for (name, (tokens, macros), rounds) in lists {
        let mut out = vec![0; 65536];
        let mut answer = [0; Answer::SIZE];
        let (mut plain, mut other) = (vec![], vec![]);
        for _ in 0..rounds {
            plain.push(time(|| {
                black_box(macro_plain::write_into(
                    black_box(&tokens),
                    black_box(&macros),
                    &mut out,
                ));
            }));
            other.push(time(|| {
                black_box(macro_library::call(
                    black_box(&tokens),
                    black_box(&macros),
                    &mut out,
                    &mut answer,
                ));
            }));
        }

        if Answer::from_bytes(&answer).number != 0 {
            println!("{name}: {:?}", Answer::from_bytes(&answer));
            return false;
        }
        let [plain, other] = [plain, other].map(median);
        println!(
            "{name:>30} {plain:>10.1} {other:>10.1} {:>15.2}",
            other / plain
        );
    }

    true
}

/// Microseconds of one call.
fn time(mut call: impl FnMut()) -> f64 {
    let start = Instant::now();
    call();

    start.elapsed().as_nanos() as f64 / 1000.0
}
