//! The entry `nazgwern_dry_run` of libnazgwern.a by the C calling convention. Nothing checks this
//! declaration against the Rattle source: a slice goes as a pointer and a length.

use crate::answer::Answer;
use crate::dry_run_input::{RunInput, RunOutcome};

pub const HAS_DRY_RUN: bool = cfg!(library_dry_run);

#[cfg(library_dry_run)]
mod declared {
    extern "C" {
        pub fn nazgwern_dry_run(
            regions: *const u8,
            regions_length: usize,
            registers: *mut u8,
            registers_length: usize,
            pc: u32,
            allowance: u32,
            answer: *mut u8,
            answer_length: usize,
        ) -> u32;
    }
}

#[cfg(library_dry_run)]
fn call(input: &RunInput, registers: &mut [u8], answer: &mut [u8; Answer::SIZE]) -> u32 {
    unsafe {
        declared::nazgwern_dry_run(
            input.regions.as_ptr(),
            input.regions.len(),
            registers.as_mut_ptr(),
            registers.len(),
            input.pc,
            input.allowance,
            answer.as_mut_ptr(),
            answer.len(),
        )
    }
}

#[cfg(not(library_dry_run))]
fn call(_: &RunInput, _: &mut [u8], _: &mut [u8; Answer::SIZE]) -> u32 {
    panic!("linked without nazgwern_dry_run")
}

/// The outcome of a call, or what the call did that no such call may do.
pub fn dry_run(input: &RunInput) -> Result<RunOutcome, String> {
    let mut registers = input.registers.clone();
    let mut answer = [0xa5; Answer::SIZE];
    let returned = call(input, &mut registers, &mut answer);
    let answer = Answer::from_bytes(&answer);

    match returned == answer.number {
        true => Ok(RunOutcome { answer, registers }),
        false => Err(format!("returned {returned}, answered {answer:?}")),
    }
}
