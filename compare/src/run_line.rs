//! Generated emit calls, each answered by both sides.

use crate::answer::{Answer, Tally};
use crate::damage_line::damaged;
use crate::generate_full_line::full_line;
use crate::generate_job_line::pointed;
use crate::generate_line::well_formed;
use crate::job::Job;
use crate::judge_job::{self, Judge, Judged};
use crate::line_input::LineInput;
use crate::model_line;
use crate::operands::{ENCODINGS, PSEUDO};
use crate::options::Options;
use crate::random::Random;
use crate::second_line;

/// Compares `count` lines; false at the first difference.
pub fn run(options: &Options) -> bool {
    let mut tally = Tally::new();
    let mut judged = Judged::default();
    let mut whole = 0u64;
    // Accepted lines of each encoding and then of each pseudo-instruction.
    let mut accepted = vec![0u64; ENCODINGS.len() + PSEUDO.len()];

    for index in 0..options.count {
        let (well, input, named) = generated(options.seed, index, options.job);

        if well {
            whole += 1;
            assert!(
                model_line::refusal_of_lists(&input).is_none(),
                "input {index} was to be well formed"
            );
        }

        let Some((answer, judge)) = agreed(options, &input) else {
            println!("input {index} of seed {} differs", options.seed);
            return false;
        };

        if let (0, Some(named)) = (answer.number, named) {
            accepted[named] += 1;
        }
        tally.count(&answer);
        judged.count(judge);
    }

    let (encodings, pseudo) = accepted.split_at(ENCODINGS.len());

    println!(
        "lines, judge beside {}, seed {}",
        options.other.name(),
        options.seed
    );
    println!("well-formed inputs {whole}");
    println!("damaged inputs {}", options.count - whole);
    print!("{}", judged.text(options));
    print!("{}", tally.text());
    println!("accepted lines of each encoding, in order: {encodings:?}");
    println!("accepted lines of each pseudo-instruction, in the Rust's order: {pseudo:?}");
    println!("0 differ");

    true
}

/// An emit call, whether it was made well formed, and what its mnemonic then names.
pub fn generated(seed: u64, index: u64, job: Job) -> (bool, LineInput, Option<usize>) {
    let mut random = Random::of(seed, index);
    let a_line = |random: &mut Random| match job != Job::Commit && random.one_in(2) {
        true => pointed(random),
        false => well_formed(random),
    };

    if random.one_in(3) {
        let line = a_line(&mut random);
        return (false, damaged(&mut random, line), None);
    }

    let line = match random.one_in(500) {
        true => full_line(&mut random),
        false => a_line(&mut random),
    };

    (true, line.write(), line.named())
}

/// The answer that both sides give, and the judge; none where they differ, which is printed whole.
pub fn agreed(options: &Options, input: &LineInput) -> Option<(Answer, Judge)> {
    let (expected, judge) = judge_job::line(options.job, input);
    let second = second_line::do_instruction(options.job, input);
    let met = options.other.line(options.job, input);
    let second_agrees = judge != Judge::Second || second == expected;

    if second_agrees && met.as_ref().ok() == Some(&expected) {
        return Some((expected.answer, judge));
    }

    input.print();
    expected.print("judge");
    if !second_agrees {
        second.print("second implementation");
    }
    match met {
        Ok(outcome) => outcome.print(options.other.name()),
        Err(fault) => println!("{}: {fault}", options.other.name()),
    }

    None
}
