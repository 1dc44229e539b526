//! The sorts of job, and all that the second implementation does otherwise in each (document 02,
//! P5 and P9).

use crate::second_words::{func, Base, Begun, Word, AT, RD, RT, SA};

#[derive(Clone, Copy, PartialEq)]
pub enum Job {
    /// As the Rust.
    Commit,
    Manual,
    Release6,
}

/// What a job's own refusals look at, as far as a line has it.
#[derive(Default)]
pub struct Seen {
    pub amount: Option<u64>,
    pub code: Option<u64>,
    pub third_input: bool,
}

impl Job {
    /// "In them Word is 20".
    pub fn size_code(self, size: u8) -> u64 {
        match (size, self) {
            (0, _) => 16,
            (1, _) => 17,
            (_, Job::Commit) => 18,
            (_, Job::Manual | Job::Release6) => 20,
        }
    }

    /// "abs first emits sra $at,source,31". In the Rust an immediate of 31 takes the place of rd,
    /// shift amount and function.
    pub fn first_of_abs(self, source: u64) -> Word {
        let sra = Begun::of(func(3)).field(RT, source);

        match self {
            Job::Commit => sra.immediate(31).done(),
            Job::Manual | Job::Release6 => sra.field(RD, AT).field(SA, 31).done(),
        }
    }

    /// "a branch distance outside -32,768 to 32,767 gets refusal 16"
    pub fn reaches(self, distance: i64) -> bool {
        match self {
            Job::Commit => (-0x10000..=0xffff).contains(&distance),
            Job::Manual | Job::Release6 => (-32_768..=32_767).contains(&distance),
        }
    }

    /// "A Release 6 job changes function 8 under the Source encoding to 9".
    pub fn base(self, Base(class, key): Base, encoding: u8) -> Base {
        match (self, class, key % 64, encoding) {
            (Job::Release6, 1, 8, 2) => func(9),
            _ => Base(class, key),
        }
    }

    /// "19, a shift amount outside 0 to 31; 20, a condition code outside 0 to 7; both tested on
    /// the full 64-bit operand"; "27, an Inputs line with a third operand or a Func 18 line in a
    /// Release 6 job, tested straight after 20".
    pub fn refusal(self, Base(class, key): Base, seen: &Seen) -> Option<u32> {
        if self == Job::Commit {
            return None;
        }
        if seen.amount.is_some_and(|amount| amount > 31) {
            return Some(19);
        }
        if seen.code.is_some_and(|code| code > 7) {
            return Some(20);
        }
        let dropped = seen.third_input || class == 1 && key % 64 == 18;

        (self == Job::Release6 && dropped).then_some(27)
    }
}
