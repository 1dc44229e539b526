//! Lines, timed: a routine emitted line by line, the Rust's `do_instruction` beside the library's.

use crate::answer::Answer;
use crate::assembler::cursor::LexerCursor;
use crate::assembler::emit::do_instruction;
use crate::assembler::instructions::Instruction;
use crate::assembler::lexer::Token;
use crate::bench::median;
use crate::descriptors;
use crate::judge_line::{builder, instruction, location, text, token};
use crate::line_input::LineInput;
use crate::other::library;
use crate::records::{bodies, kind, write, Record};
use crate::tokens::{COMMA, REGISTER, SYMBOL};
use std::collections::HashMap;
use std::hint::black_box;
use std::time::Instant;

const ROUNDS: usize = 51;

/// Lines of a routine. Each leaves one pending, so that the list of pendings grows by one a line.
const SIZES: [usize; 3] = [10, 100, 1000];

/// The bytes that a line `beq $t0,$t1,loop` appends: a word, a pending and a breakpoint.
const ADDED: [usize; 3] = [4, 40, 16];

pub fn run() -> bool {
    println!();
    println!("lines `beq $t0,$t1,loop`, nanoseconds each: the median of {ROUNDS} routines, the sides in turn");
    println!(
        "The table has {} descriptors. 'Rust, line' is its do_instruction() alone, with tokens and",
        descriptors::table().len()
    );
    println!(
        "the map of instructions at hand; 'Rust, whole' makes both from the records for each line,"
    );
    println!(
        "which is what the library starts from. 'order' is that of the table: the Rust's own, or"
    );
    println!("rising by names.");
    println!();
    println!(
        "{:>6} {:>6} {:>12} {:>12} {:>12} {:>14} {:>14}",
        "lines",
        "order",
        "Rust, line",
        "Rust, whole",
        "nazgwern",
        "nazgwern/line",
        "nazgwern/whole"
    );
    let table = descriptors::table();
    let mut rising = table.to_vec();
    rising.sort_by(|one, other| one.body[8..].cmp(&other.body[8..]));

    SIZES
        .iter()
        .all(|lines| row(*lines, table, "own") && row(*lines, &rising, "rising"))
}

/// One row of the table; false where the sides differ.
fn row(lines: usize, table: &[Record], shown: &str) -> bool {
    let input = routine(lines, table);
    let tokens = tokens(&input);
    let instructions = instructions(&input);
    let map = map(&instructions);
    let at_hand = Some((&tokens[..], &map));
    if with_library(&input, lines) != with_rust(&input, lines, at_hand) {
        println!("the sides differ on {lines} lines");
        return false;
    }

    let mut line = vec![];
    let mut whole = vec![];
    let mut other = vec![];

    for _ in 0..ROUNDS {
        line.push(time(lines, || with_rust(&input, lines, at_hand)));
        whole.push(time(lines, || with_rust(&input, lines, None)));
        other.push(time(lines, || with_library(&input, lines)));
    }

    let [line, whole, other] = [line, whole, other].map(median);
    let [by_line, by_whole] = [other / line, other / whole];
    println!(
        "{lines:>6} {shown:>6} {line:>12.0} {whole:>12.0} {other:>12.0} \
         {by_line:>14.2} {by_whole:>14.2}"
    );

    true
}

/// Nanoseconds a line.
fn time(lines: usize, call: impl Fn() -> Vec<u8>) -> f64 {
    let start = Instant::now();
    black_box(call());

    start.elapsed().as_nanos() as f64 / lines as f64
}

fn routine(lines: usize, table: &[Record]) -> LineInput {
    let token = |kind: u16, payload: &[u8]| Record {
        kind,
        body: [&[0; 8], payload].concat(),
    };
    let tokens = [
        token(REGISTER, &[8]),
        token(COMMA, &[]),
        token(REGISTER, &[9]),
        token(COMMA, &[]),
        token(SYMBOL, b"loop"),
    ];
    let [data, pending, breakpoints] = ADDED.map(|bytes| vec![0; bytes * lines]);

    LineInput {
        tokens: write(&tokens),
        mnemonic: write(&[token(kind::MNEMONIC, b"beq")]),
        descriptors: write(table),
        data,
        pending,
        breakpoints,
        counts: [0; 3],
        position: 0,
        region: 0,
        address: 0x0040_0000,
    }
}

/// The data of the routine, emitted by the library.
fn with_library(input: &LineInput, lines: usize) -> Vec<u8> {
    let mut lent = input.clone();
    let mut counts = [0; 12];
    let mut answer = [0; Answer::SIZE];

    for _ in 0..lines {
        assert_eq!(library::line(&mut lent, &mut counts, &mut answer), 0);
    }

    lent.data
}

/// The same by the Rust, with tokens and map at hand or made at each line.
fn with_rust(input: &LineInput, lines: usize, at_hand: Option<(&[Token], &Map)>) -> Vec<u8> {
    let (_, _, mnemonic) = bodies(&input.mnemonic).next().unwrap();
    let mut builder = builder(&LineInput {
        data: vec![],
        ..input.clone()
    });
    let mut emit = |tokens: &[Token], map: &Map| {
        let mut cursor = LexerCursor::new(tokens);
        let start = location(mnemonic);
        do_instruction(text(&mnemonic[8..]), start, &mut cursor, &mut builder, map).unwrap();
    };

    for _ in 0..lines {
        match at_hand {
            Some((tokens, map)) => emit(tokens, map),
            None => emit(&tokens(input), &map(&instructions(input))),
        }
    }

    builder.regions[0].raw.data.clone()
}

type Map<'a> = HashMap<&'a str, &'a Instruction<'a>>;

fn tokens(input: &LineInput) -> Vec<Token<'_>> {
    bodies(&input.tokens)
        .map(|(_, kind, body)| token(kind, body))
        .collect()
}

fn instructions(input: &LineInput) -> Vec<Instruction<'_>> {
    bodies(&input.descriptors)
        .map(|(_, _, body)| instruction(body))
        .collect()
}

fn map<'a>(instructions: &'a [Instruction<'a>]) -> Map<'a> {
    instructions
        .iter()
        .map(|instruction| (instruction.name, instruction))
        .collect()
}
