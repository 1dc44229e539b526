//! The entry `nazgwern_read_text` of libnazgwern.a by the C calling convention. Nothing checks this declaration against the Rattle
//! source: a slice goes as a pointer and a length.

use crate::answer::Answer;
use crate::text_input::{TextInput, TextOutcome};

pub const HAS_TEXT: bool = cfg!(library_text);

#[cfg(library_text)]
mod declared {
    extern "C" {
        pub fn nazgwern_read_text(
            text: *const u8,
            text_length: usize,
            source: u32,
            tokens: *mut u8,
            tokens_length: usize,
            answer: *mut u8,
            answer_length: usize,
        ) -> u32;
    }
}

#[cfg(library_text)]
pub fn call(text: &[u8], source: u32, tokens: &mut [u8], answer: &mut [u8; Answer::SIZE]) -> u32 {
    unsafe {
        declared::nazgwern_read_text(
            text.as_ptr(),
            text.len(),
            source,
            tokens.as_mut_ptr(),
            tokens.len(),
            answer.as_mut_ptr(),
            answer.len(),
        )
    }
}

#[cfg(not(library_text))]
pub fn call(_: &[u8], _: u32, _: &mut [u8], _: &mut [u8; Answer::SIZE]) -> u32 {
    panic!("linked without nazgwern_read_text")
}

/// The outcome of a call, or what the call did that no such call may do.
pub fn read_text(input: &TextInput) -> Result<TextOutcome, String> {
    let mut tokens = input.tokens.clone();
    let mut answer = [0xa5; Answer::SIZE];
    let returned = call(&input.text, input.source, &mut tokens, &mut answer);
    let answer = Answer::from_bytes(&answer);

    if returned != answer.number {
        return Err(format!("returned {returned}, answered {answer:?}"));
    }

    Ok(TextOutcome { answer, tokens })
}
