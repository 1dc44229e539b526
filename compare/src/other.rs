//! The side that is compared with the judge: the Rattle library, or the second implementation.

use crate::answer::Answer;
use crate::build_input::{BuildInput, BuildOutcome};
use crate::job::Job;
use crate::line_input::{LineInput, LineOutcome};
use crate::records::u32_at;
use crate::second_build;
use crate::second_line;

#[derive(Clone, Copy, PartialEq)]
pub enum Other {
    Second,
    Library,
}

impl Other {
    pub fn name(self) -> &'static str {
        match self {
            Other::Second => "second implementation",
            Other::Library => "nazgwern",
        }
    }

    /// Whether this side can be asked for a build and for a line of this job.
    pub fn has(self, job: Job) -> (bool, bool) {
        match (self, job) {
            (Other::Second, _) => (true, true),
            (Other::Library, Job::Commit) => (cfg!(library_build), cfg!(library_line)),
            (Other::Library, Job::Manual) => {
                (cfg!(library_manual_build), cfg!(library_manual_line))
            }
            (Other::Library, Job::Release6) => {
                (cfg!(library_manual_build), cfg!(library_release_6_line))
            }
        }
    }

    /// Whether this side can be asked for the counts of a range.
    pub fn has_count(self) -> bool {
        self == Other::Library && cfg!(library_count)
    }

    /// The outcome of a build call, or what the call did that no build call may do.
    pub fn build(self, job: Job, input: &BuildInput) -> Result<BuildOutcome, String> {
        match self {
            Other::Second => Ok(second_build::build(job, input)),
            Other::Library => library_build(job, input),
        }
    }

    /// The outcome of an emit call, or what the call did that no emit call may do.
    pub fn line(self, job: Job, input: &LineInput) -> Result<LineOutcome, String> {
        match self {
            Other::Second => Ok(second_line::do_instruction(job, input)),
            Other::Library => library_line(job, input),
        }
    }
}

fn library_build(job: Job, input: &BuildInput) -> Result<BuildOutcome, String> {
    let mut lent = input.clone();
    let mut answer = [0xa5; Answer::SIZE];
    let returned = library::build_of(job, &mut lent, &mut answer);
    let answer = Answer::from_bytes(&answer);

    if returned != answer.number {
        return Err(format!("returned {returned}, answered {answer:?}"));
    }
    if (&lent.labels, &lent.entry, &lent.pending) != (&input.labels, &input.entry, &input.pending) {
        return Err("a list that is only read was changed".to_string());
    }

    Ok(BuildOutcome {
        answer,
        regions: lent.regions,
    })
}

fn library_line(job: Job, input: &LineInput) -> Result<LineOutcome, String> {
    let mut lent = input.clone();
    let mut counts = input.counts.map(u32::to_le_bytes).concat();
    let mut answer = [0xa5; Answer::SIZE];
    let returned = library::line_of(job, &mut lent, &mut counts, &mut answer);
    let answer = Answer::from_bytes(&answer);

    if returned != answer.number {
        return Err(format!("returned {returned}, answered {answer:?}"));
    }
    if (&lent.tokens, &lent.mnemonic, &lent.descriptors)
        != (&input.tokens, &input.mnemonic, &input.descriptors)
    {
        return Err("a list that is only read was changed".to_string());
    }

    Ok(LineOutcome {
        answer,
        counts: [0, 4, 8].map(|place| u32_at(&counts, place)),
        data: lent.data,
        pending: lent.pending,
        breakpoints: lent.breakpoints,
    })
}

/// The entries of libnazgwern.a by the C calling convention. Nothing checks these declarations
/// against the Rattle source: a slice goes as a pointer and a length.
pub mod library {
    use super::*;

    /// A build entry as a function on lent lists, which panics where the library lacks it.
    macro_rules! build_entry {
        ($has:ident, $call:ident, $entry:ident) => {
            #[cfg($has)]
            pub fn $call(lent: &mut BuildInput, answer: &mut [u8; Answer::SIZE]) -> u32 {
                extern "C" {
                    fn $entry(
                        labels: *const u8,
                        labels_length: usize,
                        entry: *const u8,
                        entry_length: usize,
                        regions: *mut u8,
                        regions_length: usize,
                        pending: *const u8,
                        pending_length: usize,
                        answer: *mut u8,
                        answer_length: usize,
                    ) -> u32;
                }

                unsafe {
                    $entry(
                        lent.labels.as_ptr(),
                        lent.labels.len(),
                        lent.entry.as_ptr(),
                        lent.entry.len(),
                        lent.regions.as_mut_ptr(),
                        lent.regions.len(),
                        lent.pending.as_ptr(),
                        lent.pending.len(),
                        answer.as_mut_ptr(),
                        answer.len(),
                    )
                }
            }

            #[cfg(not($has))]
            pub fn $call(_: &mut BuildInput, _: &mut [u8; Answer::SIZE]) -> u32 {
                panic!(concat!("linked without ", stringify!($entry)))
            }
        };
    }

    build_entry!(library_build, build, nazgwern_build);
    build_entry!(library_manual_build, build_manual, nazgwern_build_manual);

    /// The build of a job; that of Release 6 is the manual one.
    pub fn build_of(job: Job, lent: &mut BuildInput, answer: &mut [u8; Answer::SIZE]) -> u32 {
        match job {
            Job::Commit => build(lent, answer),
            Job::Manual | Job::Release6 => build_manual(lent, answer),
        }
    }

    /// An emit entry, likewise.
    macro_rules! line_entry {
        ($has:ident, $call:ident, $entry:ident) => {
            #[cfg($has)]
            pub fn $call(
                lent: &mut LineInput,
                counts: &mut [u8],
                answer: &mut [u8; Answer::SIZE],
            ) -> u32 {
                extern "C" {
                    fn $entry(
                        tokens: *const u8,
                        tokens_length: usize,
                        mnemonic: *const u8,
                        mnemonic_length: usize,
                        descriptors: *const u8,
                        descriptors_length: usize,
                        data: *mut u8,
                        data_length: usize,
                        pending: *mut u8,
                        pending_length: usize,
                        breakpoints: *mut u8,
                        breakpoints_length: usize,
                        counts: *mut u8,
                        counts_length: usize,
                        position: u32,
                        region: u16,
                        address: u32,
                        answer: *mut u8,
                        answer_length: usize,
                    ) -> u32;
                }

                unsafe {
                    $entry(
                        lent.tokens.as_ptr(),
                        lent.tokens.len(),
                        lent.mnemonic.as_ptr(),
                        lent.mnemonic.len(),
                        lent.descriptors.as_ptr(),
                        lent.descriptors.len(),
                        lent.data.as_mut_ptr(),
                        lent.data.len(),
                        lent.pending.as_mut_ptr(),
                        lent.pending.len(),
                        lent.breakpoints.as_mut_ptr(),
                        lent.breakpoints.len(),
                        counts.as_mut_ptr(),
                        counts.len(),
                        lent.position,
                        lent.region,
                        lent.address,
                        answer.as_mut_ptr(),
                        answer.len(),
                    )
                }
            }

            #[cfg(not($has))]
            pub fn $call(_: &mut LineInput, _: &mut [u8], _: &mut [u8; Answer::SIZE]) -> u32 {
                panic!(concat!("linked without ", stringify!($entry)))
            }
        };
    }

    line_entry!(library_line, line, nazgwern_do_instruction);
    line_entry!(
        library_manual_line,
        manual_line,
        nazgwern_do_manual_instruction
    );
    line_entry!(
        library_release_6_line,
        release_6_line,
        nazgwern_do_release_6_instruction
    );

    pub fn line_of(
        job: Job,
        lent: &mut LineInput,
        counts: &mut [u8],
        answer: &mut [u8; Answer::SIZE],
    ) -> u32 {
        match job {
            Job::Commit => line(lent, counts, answer),
            Job::Manual => manual_line(lent, counts, answer),
            Job::Release6 => release_6_line(lent, counts, answer),
        }
    }

    #[cfg(library_count)]
    mod declared_count {
        extern "C" {
            pub fn nazgwern_count_forms(
                start: u32,
                end: u32,
                counts: *mut u8,
                counts_length: usize,
                answer: *mut u8,
                answer_length: usize,
            ) -> u32;
        }
    }

    #[cfg(library_count)]
    pub fn count_forms(
        start: u32,
        end: u32,
        counts: &mut [u8],
        answer: &mut [u8; Answer::SIZE],
    ) -> u32 {
        unsafe {
            declared_count::nazgwern_count_forms(
                start,
                end,
                counts.as_mut_ptr(),
                counts.len(),
                answer.as_mut_ptr(),
                answer.len(),
            )
        }
    }

    #[cfg(not(library_count))]
    pub fn count_forms(_: u32, _: u32, _: &mut [u8], _: &mut [u8; Answer::SIZE]) -> u32 {
        panic!("linked without nazgwern_count_forms")
    }
}
