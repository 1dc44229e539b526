//! The words given to the program. ./run has already looked at its own.

use crate::job::Job;
use crate::other::Other;
use std::env;

pub struct Options {
    pub mode: String,
    pub count: u64,
    pub seed: u64,
    pub other: Other,
    pub job: Job,
    /// Whether the generated labels have owners.
    pub owners: bool,
}

pub fn read() -> Result<Options, String> {
    let mut words = env::args().skip(1);
    let mode = words
        .next()
        .ok_or("a mode is needed: build, line, cases, count_forms, text, dry_run, macros, page, index, patching, bench or list")?;
    let mut options = Options {
        mode,
        count: 200_000,
        seed: 1,
        other: Other::Library,
        job: Job::Commit,
        owners: false,
    };

    while let Some(word) = words.next() {
        let mut number = || {
            let value = words.next().ok_or(format!("{word} needs a number"))?;
            value
                .parse::<u64>()
                .map_err(|_| format!("{word} needs a number, not {value}"))
        };

        match word.as_str() {
            "--count" => options.count = number()?,
            "--seed" => options.seed = number()?,
            "--self" => options.other = Other::Second,
            "--owners" => options.owners = true,
            "--manual" => options.job = Job::Manual,
            "--release6" => options.job = Job::Release6,
            _ => return Err(format!("unknown word {word}")),
        }
    }

    if options.owners && options.mode != "build" {
        return Err("--owners goes with build".to_string());
    }

    match (options.job, options.mode.as_str()) {
        (Job::Commit, _) | (Job::Manual, "line" | "build") | (Job::Release6, "line") => Ok(options),
        (Job::Manual, _) => Err("--manual goes with line and build".to_string()),
        (Job::Release6, _) => Err("--release6 goes with line; its build is --manual".to_string()),
    }
}
