//! Generated routines of emit calls with an index (document 02, P1), each call answered by both
//! sides, and indexes made afresh; then lines with and without an index, and indexes, timed.

use crate::answer::{Answer, Tally};
use crate::index_bench;
use crate::index_generate::Routine;
use crate::index_input::{IndexedInput, IndexedOutcome, MakeInput, MakeOutcome};
use crate::index_library;
use crate::index_plain::{afresh, one_by_one, Side};
use crate::judge_job;
use crate::options::Options;
use crate::other::Other;
use crate::random::Random;
use crate::second_line;

/// The emit call is the judge's, and the index is made afresh.
pub const JUDGE: Side = Side {
    line: |input| judge_job::line(input.job, &input.line).0,
    index: afresh,
};

const SECOND: Side = Side {
    line: |input| second_line::do_instruction(input.job, &input.line),
    index: one_by_one,
};

/// How many calls of each sort were compared, and their answers.
struct Seen {
    lines: u64,
    routines: u64,
    longest: u64,
    /// Calls on labels that were changed behind an index.
    stale: u64,
    damaged: u64,
    answers: Tally,
    made: Tally,
}

/// Compares `count` lines; false at the first difference.
pub fn run(options: &Options) -> bool {
    let mut seen = Seen {
        lines: 0,
        routines: 0,
        longest: 0,
        stale: 0,
        damaged: 0,
        answers: Tally::new(),
        made: Tally::new(),
    };

    while seen.lines < options.count {
        if routine(options, &mut seen).is_none() {
            println!("routine {} of seed {} differs", seen.routines, options.seed);
            return false;
        }
        seen.routines += 1;
    }

    println!(
        "lines with an index, judge beside {}, seed {}",
        options.other.name(),
        options.seed
    );
    println!(
        "lines {} along {} routines, the longest with {} pendings",
        seen.lines, seen.routines, seen.longest
    );
    println!("labels changed behind the index {}", seen.stale);
    println!("damaged or cut short {}", seen.damaged);
    print!("{}", seen.answers.text());
    println!("indexes made afresh");
    print!("{}", seen.made.text());
    println!("0 differ");

    options.other != Other::Library || index_bench::run()
}

/// One whole routine; none at a difference.
fn routine(options: &Options, seen: &mut Seen) -> Option<()> {
    let mut random = Random::of(options.seed, seen.routines);
    let lines = match random.below(60) {
        0 => random.within(200, 1_500),
        1..=20 => random.within(20, 80),
        _ => random.within(1, 20),
    };
    let mut routine = Routine::new(random, lines);

    for _ in 0..lines {
        if routine.change_labels() {
            let (_, input) = routine.line();
            seen.stale += 1;
            line(options, seen, &input)?;
            make(options, seen, &mut routine)?;
        }

        let (at, input) = routine.line();
        let left = line(options, seen, &input)?;
        let damaged = routine.damaged(&input, &left);
        seen.damaged += 1;
        line(options, seen, &damaged)?;
        if left.line.answer.number == 0 {
            routine.take(at, left);
        }
    }
    make(options, seen, &mut routine)?;
    seen.longest = seen.longest.max(routine.pendings());

    Some(())
}

/// An emit call by both sides.
fn line(options: &Options, seen: &mut Seen, input: &IndexedInput) -> Option<IndexedOutcome> {
    let expected = JUDGE.do_indexed(input);
    let met = match options.other {
        Other::Second => Ok(SECOND.do_indexed(input)),
        Other::Library => index_library::do_indexed(input),
    };
    seen.lines += 1;
    seen.answers.count(&expected.line.answer);

    if met.as_ref().ok() == Some(&expected) {
        return Some(expected);
    }

    input.print();
    expected.print("judge");
    match met {
        Ok(outcome) => outcome.print(options.other.name()),
        Err(fault) => println!("{}: {fault}", options.other.name()),
    }

    None
}

/// Indexes made of the routine as it is, until one is not damaged, which the routine goes on with.
fn make(options: &Options, seen: &mut Seen, routine: &mut Routine) -> Option<()> {
    loop {
        let (whole, input) = routine.making();
        let outcome = made(options, &input)?;
        seen.made.count(&outcome.answer);

        if whole {
            let Answer { number, last, .. } = outcome.answer;
            assert_eq!(number, 0, "an index as long as the pendings has room");
            routine.index = outcome.index;
            routine.fill = last;
            return Some(());
        }
    }
}

fn made(options: &Options, input: &MakeInput) -> Option<MakeOutcome> {
    let expected = JUDGE.make_index(input);
    let met = match options.other {
        Other::Second => Ok(SECOND.make_index(input)),
        Other::Library => index_library::make_index(input),
    };

    if met.as_ref().ok() == Some(&expected) {
        return Some(expected);
    }

    input.print();
    expected.print("plain");
    match met {
        Ok(outcome) => outcome.print(options.other.name()),
        Err(fault) => println!("{}: {fault}", options.other.name()),
    }

    None
}
