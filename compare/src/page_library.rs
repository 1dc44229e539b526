//! The entry `nazgwern_lay_out` of libnazgwern.a by the C calling convention. Nothing checks this
//! declaration against the Rattle source: a slice goes as a pointer and a length.

use crate::answer::Answer;
use crate::page_input::{PageInput, PageOutcome};

pub const HAS_PAGE: bool = cfg!(library_page);

#[cfg(library_page)]
mod declared {
    extern "C" {
        pub fn nazgwern_lay_out(
            labels: *const u8,
            labels_length: usize,
            regions: *const u8,
            regions_length: usize,
            page: *mut u8,
            page_length: usize,
            answer: *mut u8,
            answer_length: usize,
        ) -> u32;
    }
}

#[cfg(library_page)]
pub fn call(
    labels: &[u8],
    regions: &[u8],
    page: &mut [u8],
    answer: &mut [u8; Answer::SIZE],
) -> u32 {
    unsafe {
        declared::nazgwern_lay_out(
            labels.as_ptr(),
            labels.len(),
            regions.as_ptr(),
            regions.len(),
            page.as_mut_ptr(),
            page.len(),
            answer.as_mut_ptr(),
            answer.len(),
        )
    }
}

#[cfg(not(library_page))]
pub fn call(_: &[u8], _: &[u8], _: &mut [u8], _: &mut [u8; Answer::SIZE]) -> u32 {
    panic!("linked without nazgwern_lay_out")
}

/// The outcome of a call, or what the call did that no such call may do.
pub fn lay_out(input: &PageInput) -> Result<PageOutcome, String> {
    let mut page = input.page.clone();
    let mut answer = [0xa5; Answer::SIZE];
    let returned = call(&input.labels, &input.regions, &mut page, &mut answer);
    let answer = Answer::from_bytes(&answer);

    match returned == answer.number {
        true => Ok(PageOutcome { answer, page }),
        false => Err(format!("returned {returned}, answered {answer:?}")),
    }
}
