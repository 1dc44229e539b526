//! Generated builds, each answered by both sides.

use crate::answer::{Answer, Tally};
use crate::build_input::BuildInput;
use crate::damage_build::damaged;
use crate::damage_owners::damage_labels;
use crate::generate_build::well_formed;
use crate::generate_full_build::full_list;
use crate::generate_many_labels::many_labels;
use crate::generate_owners::{full_labels, put_owners};
use crate::job::Job;
use crate::judge_job::{self, Judge, Judged};
use crate::model;
use crate::options::Options;
use crate::random::Random;
use crate::second_build;

/// Compares `count` builds; false at the first difference.
pub fn run(options: &Options) -> bool {
    let mut tally = Tally::new();
    let mut judged = Judged::default();
    let mut whole = 0u64;

    for index in 0..options.count {
        let (well, input) = match index % 400 {
            0 => (true, of_many_labels(options, index)),
            _ => generated(options.seed, index, options.job, options.owners),
        };

        if well {
            whole += 1;
            assert!(
                model::refusal_of_lists(&input).is_none(),
                "input {index} was to be well formed"
            );
        }

        let Some((answer, judge)) = agreed(options, &input) else {
            println!("input {index} of seed {} differs", options.seed);
            return false;
        };

        tally.count(&answer);
        judged.count(judge);
    }

    println!(
        "builds, judge beside {}, seed {}",
        options.other.name(),
        options.seed
    );
    println!("well-formed inputs {whole}");
    println!("damaged inputs {}", options.count - whole);
    print!("{}", judged.text(options));
    print!("{}", tally.text());
    println!("0 differ");

    true
}

/// A build call with many labels.
fn of_many_labels(options: &Options, index: u64) -> BuildInput {
    let mut random = Random::of(options.seed, index);
    let lists = well_formed(&mut random, options.job);

    many_labels(&mut random, options.owners, lists).write()
}

/// A build call, and whether it was made well formed.
pub fn generated(seed: u64, index: u64, job: Job, owners: bool) -> (bool, BuildInput) {
    let mut random = Random::of(seed, index);
    let well = random.one_in(2);
    let full = well && random.one_in(400);
    let mut lists = well_formed(&mut random, job);

    if owners {
        put_owners(&mut random, &mut lists);
        if !well {
            damage_labels(&mut random, &mut lists.labels);
        }
    }

    let input = match (well, full) {
        (true, true) if owners && random.one_in(2) => full_labels(&mut random, lists).write(),
        (true, true) => full_list(&mut random, lists).write(),
        (true, false) => lists.write(),
        (false, _) => damaged(&mut random, lists),
    };

    (well, input)
}

/// The answer that both sides give, and the judge; none where they differ, which is printed whole.
pub fn agreed(options: &Options, input: &BuildInput) -> Option<(Answer, Judge)> {
    let (expected, judge) = judge_job::build(options.job, input);
    let second = second_build::build(options.job, input);
    let met = options.other.build(options.job, input);
    let second_agrees = judge != Judge::Second || second == expected;

    if second_agrees && met.as_ref().ok() == Some(&expected) {
        return Some((expected.answer, judge));
    }

    input.print();
    expected.print("judge");
    if !second_agrees {
        second.print("second implementation");
    }
    match met {
        Ok(outcome) => outcome.print(options.other.name()),
        Err(fault) => println!("{}: {fault}", options.other.name()),
    }

    None
}
