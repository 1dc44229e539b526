//! The entries `nazgwern_patch_step` and `nazgwern_patch_line` of libnazgwern.a and those of the other
//! jobs by the C calling convention. Nothing checks these declarations against the Rattle source: a
//! slice goes as a pointer and a length.

use crate::answer::Answer;
#[cfg(library_patching)]
use crate::job::Job;
use crate::patching_input::{Fixed, Line, Outcome, Patching, Said, Turn};

pub const HAS_PATCHING: bool = cfg!(library_patching);

const STATE: usize = 20;

#[cfg(library_patching)]
mod declared {
    macro_rules! step_entry {
        ($entry:ident) => {
            extern "C" {
                pub fn $entry(
                    labels: *const u8,
                    labels_length: usize,
                    entry: *const u8,
                    entry_length: usize,
                    regions: *mut u8,
                    regions_length: usize,
                    pending: *const u8,
                    pending_length: usize,
                    kept: *mut u8,
                    kept_length: usize,
                    state: *mut u8,
                    state_length: usize,
                    answer: *mut u8,
                    answer_length: usize,
                ) -> u32;
            }
        };
    }

    macro_rules! line_entry {
        ($entry:ident) => {
            extern "C" {
                pub fn $entry(
                    tokens: *const u8,
                    tokens_length: usize,
                    mnemonic: *const u8,
                    mnemonic_length: usize,
                    descriptors: *const u8,
                    descriptors_length: usize,
                    regions: *mut u8,
                    regions_length: usize,
                    pending: *mut u8,
                    pending_length: usize,
                    breakpoints: *mut u8,
                    breakpoints_length: usize,
                    state: *mut u8,
                    state_length: usize,
                    position: u32,
                    region: u16,
                    answer: *mut u8,
                    answer_length: usize,
                ) -> u32;
            }
        };
    }

    step_entry!(nazgwern_patch_step);
    step_entry!(nazgwern_patch_step_manual);
    line_entry!(nazgwern_patch_line);
    line_entry!(nazgwern_patch_manual_line);
    line_entry!(nazgwern_patch_release_6_line);
}

/// The caller's record as the calls take it.
pub fn state_of(given: &Patching) -> [u8; STATE] {
    let [regions, pending, breakpoints] = given.fills;
    let mut state = [0; STATE];

    for (place, number) in [regions, pending, breakpoints, given.patches, given.state]
        .into_iter()
        .enumerate()
    {
        state[4 * place..4 * place + 4].copy_from_slice(&number.to_le_bytes());
    }

    state
}

pub fn put_state(given: &mut Patching, state: &[u8; STATE]) {
    let number =
        |place: usize| u32::from_le_bytes(state[4 * place..4 * place + 4].try_into().unwrap());

    given.fills = [number(0), number(1), number(2)];
    given.patches = number(3);
    given.state = number(4);
}

#[cfg(library_patching)]
pub fn step(
    fixed: &Fixed,
    lent: &mut Patching,
    state: &mut [u8; STATE],
    answer: &mut [u8; Answer::SIZE],
) -> u32 {
    let entry = match fixed.job {
        Job::Commit => declared::nazgwern_patch_step,
        Job::Manual | Job::Release6 => declared::nazgwern_patch_step_manual,
    };

    unsafe {
        entry(
            fixed.labels.as_ptr(),
            fixed.labels.len(),
            fixed.entry.as_ptr(),
            fixed.entry.len(),
            lent.regions.as_mut_ptr(),
            lent.regions.len(),
            lent.pending.as_ptr(),
            lent.pending.len(),
            lent.kept.as_mut_ptr(),
            lent.kept.len(),
            state.as_mut_ptr(),
            state.len(),
            answer.as_mut_ptr(),
            answer.len(),
        )
    }
}

#[cfg(library_patching)]
pub fn line(
    line: &Line,
    lent: &mut Patching,
    state: &mut [u8; STATE],
    answer: &mut [u8; Answer::SIZE],
) -> u32 {
    let entry = match line.job {
        Job::Commit => declared::nazgwern_patch_line,
        Job::Manual => declared::nazgwern_patch_manual_line,
        Job::Release6 => declared::nazgwern_patch_release_6_line,
    };

    unsafe {
        entry(
            line.tokens.as_ptr(),
            line.tokens.len(),
            line.mnemonic.as_ptr(),
            line.mnemonic.len(),
            line.descriptors.as_ptr(),
            line.descriptors.len(),
            lent.regions.as_mut_ptr(),
            lent.regions.len(),
            lent.pending.as_mut_ptr(),
            lent.pending.len(),
            lent.breakpoints.as_mut_ptr(),
            lent.breakpoints.len(),
            state.as_mut_ptr(),
            state.len(),
            line.position,
            line.region,
            answer.as_mut_ptr(),
            answer.len(),
        )
    }
}

#[cfg(not(library_patching))]
pub fn step(_: &Fixed, _: &mut Patching, _: &mut [u8; STATE], _: &mut [u8; Answer::SIZE]) -> u32 {
    panic!("linked without nazgwern_patch_step")
}

#[cfg(not(library_patching))]
pub fn line(_: &Line, _: &mut Patching, _: &mut [u8; STATE], _: &mut [u8; Answer::SIZE]) -> u32 {
    panic!("linked without nazgwern_patch_line")
}

/// The outcome of a call, or what the call did that no such call may do.
pub fn turn(fixed: &Fixed, given: &Patching, turn: &Turn) -> Result<Outcome, String> {
    let mut after = given.clone();
    let mut state = state_of(given);
    let mut answer = [0xa5; Answer::SIZE];
    let returned = match turn {
        Turn::Step => step(fixed, &mut after, &mut state, &mut answer),
        Turn::Line(given) => line(given, &mut after, &mut state, &mut answer),
    };
    let answer = Answer::from_bytes(&answer);
    put_state(&mut after, &state);

    if returned != answer.number {
        return Err(format!("returned {returned}, answered {answer:?}"));
    }

    let said = match (turn, answer) {
        (
            Turn::Step,
            Answer {
                number: 0, a, last, ..
            },
        ) => match a {
            0 => Said::Patched(last),
            1 => Said::Ended(last),
            _ => return Err(format!("a step answered {answer:?}")),
        },
        _ => Said::Answered(answer),
    };

    Ok(Outcome { said, after })
}
