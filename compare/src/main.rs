//! Compares the Rattle port with the Rust that it ports, on generated inputs.

// The Rust's own files, copied here by ./run and otherwise unchanged.
#[allow(warnings)]
mod assembler {
    pub mod assembler_util;
    pub mod binary;
    pub mod binary_builder;
    pub mod cursor;
    pub mod emit;
    pub mod instructions;
    pub mod lexer;
    pub mod registers;
}

mod answer;
mod bench;
mod bench_line;
mod build_input;
mod cases;
mod count_forms;
mod damage;
mod damage_build;
mod damage_line;
mod damage_owners;
mod descriptors;
mod dry_run;
mod dry_run_generate;
mod dry_run_input;
mod dry_run_library;
mod dry_run_plain;
mod generate_build;
mod generate_full_build;
mod generate_full_line;
mod generate_job_line;
mod generate_line;
mod generate_many_labels;
mod generate_owners;
mod index_bench;
mod index_generate;
mod index_input;
mod index_library;
mod index_plain;
mod index_run;
mod job;
mod judge_build;
mod judge_job;
mod judge_line;
mod line_input;
mod list;
mod list_build;
mod list_line;
mod macro_generate;
mod macro_input;
mod macro_library;
mod macro_plain;
mod macro_run;
mod model;
mod model_line;
mod model_list;
mod names;
mod operands;
mod options;
mod other;
mod owners;
mod page_generate;
mod page_input;
mod page_library;
mod page_plain;
mod page_run;
mod patching_generate;
mod patching_input;
mod patching_library;
mod patching_plain;
mod patching_run;
mod random;
mod records;
mod run_build;
mod run_line;
mod second_build;
mod second_described;
mod second_line;
mod second_list;
mod second_pseudo;
mod second_reader;
mod second_words;
mod text_generate;
mod text_input;
mod text_lexer;
mod text_library;
mod text_run;
mod tokens;

use other::Other;
use std::process::ExitCode;

fn main() -> ExitCode {
    let options = match options::read() {
        Ok(options) => options,
        Err(fault) => {
            eprintln!("{fault}");
            return ExitCode::from(2);
        }
    };

    let (has_build, has_line) = options.other.has(options.job);

    judge_build::keep_its_panics_quiet();

    let agreed = match options.mode.as_str() {
        "bench" if has_build => {
            // Lines are timed with the library alone.
            let lines = has_line && options.other == Other::Library;
            bench::run(&options) && (!lines || bench_line::run())
        }
        "build" if has_build => run_build::run(&options),
        "line" if has_line => run_line::run(&options),
        "list" if has_build && has_line => list::run(&options),
        "cases" => cases::run(),
        "count_forms" if options.other.has_count() => count_forms::run(options.other),
        "text" if text_library::HAS_TEXT => text_run::run(&options),
        "dry_run" if dry_run_library::HAS_DRY_RUN => dry_run::run(&options),
        "macros" if macro_library::HAS_MACROS => macro_run::run(&options),
        "page" if page_library::HAS_PAGE => page_run::run(&options),
        "index" if index_library::HAS_INDEX || options.other == Other::Second => {
            index_run::run(&options)
        }
        "patching" if patching_library::HAS_PATCHING || options.other == Other::Second => {
            patching_run::run(&options)
        }
        "bench" | "build" | "count_forms" | "dry_run" | "index" | "line" | "list" | "macros"
        | "page" | "patching" | "text" => {
            eprintln!("the library has no entry for {}", options.mode);
            return ExitCode::from(2);
        }
        mode => {
            eprintln!("unknown mode {mode}");
            return ExitCode::from(2);
        }
    };

    match agreed {
        true => ExitCode::SUCCESS,
        false => ExitCode::from(1),
    }
}
