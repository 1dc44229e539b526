//! Generated scripts of steps and lines, the library's answer, record and lent bytes held to the plain
//! implementation's after every call; what both leave at the end held to a whole build after the
//! accepted lines; and steps timed.

use crate::answer::Answer;
use crate::bench::{call_library, input, median, Order};
use crate::build_input::BuildInput;
use crate::job::Job;
use crate::names::digits;
use crate::options::Options;
use crate::other::Other;
use crate::patching_generate::generated;
use crate::patching_input::{Fixed, Outcome, Patching, Said, Script, Turn};
use crate::patching_library;
use crate::patching_plain::turn;
use crate::second_build;
use std::collections::BTreeMap;
use std::hint::black_box;
use std::time::Instant;

const LIMIT: usize = 65_536;

/// The fewest bytes of a pending record.
const PENDING: usize = 36;

/// The outcome that both sides give; none where they differ, which is printed whole. Without the
/// library the plain side's.
fn agreed(other: Other, fixed: &Fixed, given: &Patching, next: &Turn) -> Option<Outcome> {
    let expected = turn(fixed, given, next);
    if other == Other::Second {
        return Some(expected);
    }
    let met = patching_library::turn(fixed, given, next);

    if met.as_ref().ok() == Some(&expected) {
        return Some(expected);
    }

    fixed.print();
    given.print("given");
    next.print();
    println!("plain says {:?}", expected.said);
    expected.after.print("plain");
    match met {
        Ok(outcome) => {
            println!("nazgwern says {:?}", outcome.said);
            outcome.after.print("nazgwern");
        }
        Err(fault) => println!("nazgwern: {fault}"),
    }

    None
}

/// How many calls of each sort answered what.
type Tally = BTreeMap<(&'static str, u32), u64>;

fn count(tally: &mut Tally, next: &Turn, said: Said) {
    let key = match (next, said) {
        (_, Said::Patched(_)) => ("patched", 0),
        (_, Said::Ended(_)) => ("ended", 0),
        (Turn::Step, Said::Answered(answer)) => ("step, refusal", answer.number),
        (Turn::Line(_), Said::Answered(Answer { number: 0, .. })) => ("line accepted", 0),
        (Turn::Line(_), Said::Answered(answer)) => ("line, refusal", answer.number),
    };
    *tally.entry(key).or_insert(0) += 1;
}

/// Compares `count` scripts; false at the first difference.
pub fn run(options: &Options) -> bool {
    let mut tally = Tally::new();
    let mut finished = 0;

    for index in 0..options.count {
        let script = generated(options.seed, index);
        let mut now = script.start.clone();
        let mut lines = vec![];

        for next in &script.turns {
            let Some(outcome) = agreed(options.other, &script.fixed, &now, next) else {
                println!("script {index} of seed {} differs", options.seed);
                return false;
            };
            count(&mut tally, next, outcome.said);
            if let (Turn::Line(_), Said::Answered(Answer { number: 0, .. })) = (next, outcome.said)
            {
                lines.push(next.clone());
            }
            now = outcome.after;
        }

        if !is_start(&script.start) {
            continue;
        }
        if !equals_build(&script, &lines, now) {
            println!(
                "the end of script {index} of seed {} is not a build's",
                options.seed
            );
            return false;
        }
        finished += 1;
    }

    println!(
        "scripts of steps and lines, plain implementation beside nazgwern, seed {}",
        options.seed
    );
    for ((what, number), count) in tally {
        match number {
            0 => println!("{what} {count}"),
            _ => println!("{what} {number} {count}"),
        }
    }
    println!("{finished} ends are those of a whole build after the accepted lines");
    if options.other == Other::Second {
        return true;
    }
    println!("0 differ");

    bench()
}

/// What the claims take for a start.
fn is_start(start: &Patching) -> bool {
    let within = |buffer: &[u8], fill: u32| buffer.len() <= LIMIT && fill as usize <= buffer.len();

    start.patches == 0
        && start.state == 0
        && within(&start.regions, start.fills[0])
        && within(&start.pending, start.fills[1])
        && start.kept.len() <= LIMIT
        && start.kept.len() >= 4 * (start.pending.len() / PENDING)
}

/// The finished image, or the refusal, is that of all accepted lines first and a whole build after.
fn equals_build(script: &Script, lines: &[Turn], mut now: Patching) -> bool {
    let said = loop {
        let outcome = turn(&script.fixed, &now, &Turn::Step);
        now = outcome.after;
        if !matches!(outcome.said, Said::Patched(_)) {
            break outcome.said;
        }
    };
    let mut first = script.start.clone();
    for line in lines {
        first = turn(&script.fixed, &first, line).after;
    }
    let [regions, pending, _] = first.fills.map(|fill| fill as usize);
    let built = second_build::build(
        script.fixed.job,
        &BuildInput {
            labels: script.fixed.labels.clone(),
            entry: script.fixed.entry.clone(),
            regions: first.regions[..regions].to_vec(),
            pending: first.pending[..pending].to_vec(),
        },
    );
    let answer = match said {
        Said::Ended(entry) => Answer::accepted(entry),
        Said::Answered(answer) => answer,
        Said::Patched(_) => return false,
    };

    built.answer == answer && built.regions == now.regions[..now.fills[0] as usize]
}

const ROUNDS: usize = 101;

/// The sizes that are timed: as many pendings as a list holds with names of four bytes.
const LABELS: usize = 2_000;
const PENDINGS: usize = 1_638;

/// One step with few and with many patches done, all steps, and one build of the same lists.
fn bench() -> bool {
    println!();
    println!(
        "{LABELS} labels, {PENDINGS} pendings, microseconds: the median of {ROUNDS} calls in turn"
    );
    println!(
        "{:>6} {:>10} {:>10} {:>10} {:>10} {:>12} {:>16}",
        "order", "build", "step 1", "step 819", "step 1638", "all steps", "all steps/build"
    );

    bench_row("random", Order::Random) && bench_row("rising", Order::Rising)
}

fn bench_row(shown: &str, order: Order) -> bool {
    let lists = input((LABELS, PENDINGS, 1, |number| digits(number, 4), 1), order);
    let fixed = Fixed {
        job: Job::Commit,
        labels: lists.labels.clone(),
        entry: lists.entry.clone(),
    };
    let start = Patching {
        fills: [lists.regions.len() as u32, lists.pending.len() as u32, 0],
        regions: lists.regions.clone(),
        pending: lists.pending.clone(),
        breakpoints: vec![],
        kept: vec![0; 4 * PENDINGS],
        patches: 0,
        state: 0,
    };

    // Where the library stands before the first step, in the middle and before the last.
    let mut stops = vec![];
    let mut now = start.clone();
    for number in 0..=PENDINGS {
        if [0, PENDINGS / 2, PENDINGS - 1].contains(&number) {
            stops.push(now.clone());
        }
        match patching_library::turn(&fixed, &now, &Turn::Step) {
            Ok(outcome) => now = outcome.after,
            Err(fault) => {
                println!("{fault}");
                return false;
            }
        }
    }
    let built = second_build::build(Job::Commit, &lists);
    if now.state != 1 || now.regions != built.regions {
        println!("the steps do not end as a build does");
        return false;
    }

    let mut build = vec![];
    let mut steps = vec![vec![]; stops.len()];
    for _ in 0..ROUNDS {
        let lent = lists.clone();
        build.push(
            time(|| {
                black_box(call_library(black_box(lent.clone())));
            }) - time(|| {
                black_box(black_box(&lent).clone());
            }),
        );
        for (stop, times) in stops.iter().zip(&mut steps) {
            times.push(step(&fixed, &mut stop.clone()));
        }
    }
    let mut lent = start;
    let all: f64 = (0..=PENDINGS).map(|_| step(&fixed, &mut lent)).sum();

    let build = median(build);
    let steps: Vec<f64> = steps.into_iter().map(median).collect();
    println!(
        "{shown:>6} {build:>10.1} {:>10.1} {:>10.1} {:>10.1} {all:>12.0} {:>16.0}",
        steps[0],
        steps[1],
        steps[2],
        all / build
    );

    true
}

/// Microseconds of one step of the library; what is lent is changed by it.
fn step(fixed: &Fixed, lent: &mut Patching) -> f64 {
    let mut state = patching_library::state_of(lent);
    let mut answer = [0; Answer::SIZE];
    let taken = time(|| {
        black_box(patching_library::step(fixed, lent, &mut state, &mut answer));
    });
    patching_library::put_state(lent, &state);

    taken
}

/// Microseconds.
fn time(call: impl FnOnce()) -> f64 {
    let start = Instant::now();
    call();

    start.elapsed().as_nanos() as f64 / 1_000.0
}
