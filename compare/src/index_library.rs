//! The entries `nazgwern_do_indexed` and `nazgwern_make_index` of libnazgwern.a by the C calling
//! convention. Nothing checks these declarations against the Rattle source: a slice goes as a
//! pointer and a length.

use crate::answer::Answer;
use crate::index_input::{IndexedInput, IndexedOutcome, MakeInput, MakeOutcome};
use crate::line_input::LineOutcome;
use crate::records::u32_at;

pub const HAS_INDEX: bool = cfg!(library_index);

/// Bytes of the four fill counts: data, pending, breakpoints and index.
pub const COUNTS: usize = 16;

#[cfg(library_index)]
mod declared {
    extern "C" {
        pub fn nazgwern_do_indexed(
            tokens: *const u8,
            tokens_length: usize,
            mnemonic: *const u8,
            mnemonic_length: usize,
            descriptors: *const u8,
            descriptors_length: usize,
            data: *mut u8,
            data_length: usize,
            pending: *mut u8,
            pending_length: usize,
            breakpoints: *mut u8,
            breakpoints_length: usize,
            labels: *const u8,
            labels_length: usize,
            index: *mut u8,
            index_length: usize,
            counts: *mut u8,
            counts_length: usize,
            position: u32,
            region: u16,
            address: u32,
            job: u32,
            answer: *mut u8,
            answer_length: usize,
        ) -> u32;

        pub fn nazgwern_make_index(
            pending: *const u8,
            pending_length: usize,
            fill: u32,
            labels: *const u8,
            labels_length: usize,
            index: *mut u8,
            index_length: usize,
            answer: *mut u8,
            answer_length: usize,
        ) -> u32;
    }
}

#[cfg(library_index)]
pub fn call(
    lent: &mut IndexedInput,
    counts: &mut [u8; COUNTS],
    answer: &mut [u8; Answer::SIZE],
) -> u32 {
    let line = &mut lent.line;

    unsafe {
        declared::nazgwern_do_indexed(
            line.tokens.as_ptr(),
            line.tokens.len(),
            line.mnemonic.as_ptr(),
            line.mnemonic.len(),
            line.descriptors.as_ptr(),
            line.descriptors.len(),
            line.data.as_mut_ptr(),
            line.data.len(),
            line.pending.as_mut_ptr(),
            line.pending.len(),
            line.breakpoints.as_mut_ptr(),
            line.breakpoints.len(),
            lent.labels.as_ptr(),
            lent.labels.len(),
            lent.index.as_mut_ptr(),
            lent.index.len(),
            counts.as_mut_ptr(),
            counts.len(),
            line.position,
            line.region,
            line.address,
            lent.job as u32,
            answer.as_mut_ptr(),
            answer.len(),
        )
    }
}

#[cfg(library_index)]
pub fn call_make(
    pending: &[u8],
    fill: u32,
    labels: &[u8],
    index: &mut [u8],
    answer: &mut [u8; Answer::SIZE],
) -> u32 {
    unsafe {
        declared::nazgwern_make_index(
            pending.as_ptr(),
            pending.len(),
            fill,
            labels.as_ptr(),
            labels.len(),
            index.as_mut_ptr(),
            index.len(),
            answer.as_mut_ptr(),
            answer.len(),
        )
    }
}

#[cfg(not(library_index))]
pub fn call(_: &mut IndexedInput, _: &mut [u8; COUNTS], _: &mut [u8; Answer::SIZE]) -> u32 {
    panic!("linked without nazgwern_do_indexed")
}

#[cfg(not(library_index))]
pub fn call_make(_: &[u8], _: u32, _: &[u8], _: &mut [u8], _: &mut [u8; Answer::SIZE]) -> u32 {
    panic!("linked without nazgwern_make_index")
}

pub fn counts_of(input: &IndexedInput) -> [u8; COUNTS] {
    let [data, pending, breakpoints] = input.line.counts;
    let mut bytes = [0; COUNTS];

    for (count, place) in [data, pending, breakpoints, input.fill]
        .into_iter()
        .zip(bytes.chunks_exact_mut(4))
    {
        place.copy_from_slice(&count.to_le_bytes());
    }

    bytes
}

/// The outcome of a call, or what the call did that no such call may do.
pub fn do_indexed(input: &IndexedInput) -> Result<IndexedOutcome, String> {
    let mut lent = input.clone();
    let mut counts = counts_of(input);
    let mut answer = [0xa5; Answer::SIZE];
    let returned = call(&mut lent, &mut counts, &mut answer);
    let answer = Answer::from_bytes(&answer);
    let IndexedInput { line, index, .. } = lent;

    if returned != answer.number {
        return Err(format!("returned {returned}, answered {answer:?}"));
    }

    Ok(IndexedOutcome {
        line: LineOutcome {
            answer,
            counts: [0, 4, 8].map(|place| u32_at(&counts, place)),
            data: line.data,
            pending: line.pending,
            breakpoints: line.breakpoints,
        },
        index,
        fill: u32_at(&counts, 12),
    })
}

/// Likewise of a call that makes an index.
pub fn make_index(input: &MakeInput) -> Result<MakeOutcome, String> {
    let mut index = input.index.clone();
    let mut answer = [0xa5; Answer::SIZE];
    let returned = call_make(
        &input.pending,
        input.fill,
        &input.labels,
        &mut index,
        &mut answer,
    );
    let answer = Answer::from_bytes(&answer);

    match returned == answer.number {
        true => Ok(MakeOutcome { answer, index }),
        false => Err(format!("returned {returned}, answered {answer:?}")),
    }
}
