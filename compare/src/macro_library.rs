//! The entry `nazgwern_write_out` of libnazgwern.a by the C calling convention. Nothing checks this declaration against the Rattle
//! source: a slice goes as a pointer and a length.

use crate::answer::Answer;
use crate::macro_input::{MacroInput, MacroOutcome};

pub const HAS_MACROS: bool = cfg!(library_macros);

#[cfg(library_macros)]
mod declared {
    extern "C" {
        pub fn nazgwern_write_out(
            tokens: *const u8,
            tokens_length: usize,
            macros: *const u8,
            macros_length: usize,
            out: *mut u8,
            out_length: usize,
            answer: *mut u8,
            answer_length: usize,
        ) -> u32;
    }
}

#[cfg(library_macros)]
pub fn call(tokens: &[u8], macros: &[u8], out: &mut [u8], answer: &mut [u8; Answer::SIZE]) -> u32 {
    unsafe {
        declared::nazgwern_write_out(
            tokens.as_ptr(),
            tokens.len(),
            macros.as_ptr(),
            macros.len(),
            out.as_mut_ptr(),
            out.len(),
            answer.as_mut_ptr(),
            answer.len(),
        )
    }
}

#[cfg(not(library_macros))]
pub fn call(_: &[u8], _: &[u8], _: &mut [u8], _: &mut [u8; Answer::SIZE]) -> u32 {
    panic!("linked without nazgwern_write_out")
}

/// The outcome of a call, or what the call did that no such call may do.
pub fn write_out(input: &MacroInput) -> Result<MacroOutcome, String> {
    let mut out = input.out.clone();
    let mut answer = [0xa5; Answer::SIZE];
    let returned = call(&input.tokens, &input.macros, &mut out, &mut answer);
    let answer = Answer::from_bytes(&answer);

    if returned != answer.number {
        return Err(format!("returned {returned}, answered {answer:?}"));
    }

    Ok(MacroOutcome { answer, out })
}
