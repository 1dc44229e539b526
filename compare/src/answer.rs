//! What a call answers, apart from the lent bytes.

/// The six numbers of an answer. `last` is a build's entry or a line's position.
#[derive(Clone, Copy, Debug, PartialEq, Eq)]
pub struct Answer {
    pub number: u32,
    pub source: u32,
    pub index: u32,
    pub a: u32,
    pub b: u32,
    pub last: u32,
}

/// A refused build has no entry; its place in the answer holds this.
pub const NO_ENTRY: u32 = 0;

impl Answer {
    pub const SIZE: usize = 24;

    pub fn accepted(last: u32) -> Answer {
        Answer {
            number: 0,
            source: 0,
            index: 0,
            a: 0,
            b: 0,
            last,
        }
    }

    pub fn from_bytes(bytes: &[u8; Answer::SIZE]) -> Answer {
        let number =
            |place: usize| u32::from_le_bytes(bytes[4 * place..4 * place + 4].try_into().unwrap());

        Answer {
            number: number(0),
            source: number(1),
            index: number(2),
            a: number(3),
            b: number(4),
            last: number(5),
        }
    }
}

/// How many answers of each number a run has seen.
pub struct Tally([u64; 31]);

impl Tally {
    pub fn new() -> Tally {
        Tally([0; 31])
    }

    pub fn count(&mut self, answer: &Answer) {
        self.0[answer.number as usize] += 1;
    }

    /// A line for each number that was met.
    pub fn text(&self) -> String {
        let mut text = format!("accepted {}\n", self.0[0]);

        for (number, count) in self.0.iter().enumerate().skip(1) {
            if *count > 0 {
                text += &format!("refusal {number} {count}\n");
            }
        }

        text
    }
}

pub fn hex(bytes: &[u8]) -> String {
    bytes.iter().map(|byte| format!("{byte:02x}")).collect()
}
