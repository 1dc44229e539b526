//! The inputs of an emit call with labels and an index of their uses, and of a call that makes
//! such an index (document 02, P1); and what these calls are seen to do.

use crate::answer::{hex, Answer};
use crate::job::Job;
use crate::line_input::{LineInput, LineOutcome};

#[derive(Clone)]
pub struct IndexedInput {
    pub job: Job,
    pub line: LineInput,
    pub labels: Vec<u8>,
    pub index: Vec<u8>,
    /// The index's fill count.
    pub fill: u32,
}

#[derive(PartialEq, Eq)]
pub struct IndexedOutcome {
    pub line: LineOutcome,
    pub index: Vec<u8>,
    pub fill: u32,
}

impl IndexedInput {
    pub fn refused(&self, answer: Answer) -> IndexedOutcome {
        IndexedOutcome {
            line: self.line.refused(answer),
            index: self.index.clone(),
            fill: self.fill,
        }
    }

    pub fn print(&self) {
        self.line.print();
        println!("labels      {}", hex(&self.labels));
        println!("index       {}", hex(&self.index));
        println!("index count {} job {}", self.fill, self.job as u32);
    }
}

impl IndexedOutcome {
    pub fn print(&self, side: &str) {
        self.line.print(side);
        println!("{side} leaves index       {}", hex(&self.index));
        println!("{side} leaves index count {}", self.fill);
    }
}

#[derive(Clone)]
pub struct MakeInput {
    pub pending: Vec<u8>,
    pub fill: u32,
    pub labels: Vec<u8>,
    pub index: Vec<u8>,
}

/// `last` of the answer is the index's fill count, and 0 on refusal. The index is the whole buffer.
#[derive(PartialEq, Eq)]
pub struct MakeOutcome {
    pub answer: Answer,
    pub index: Vec<u8>,
}

impl MakeInput {
    pub fn print(&self) {
        println!("pending     {}", hex(&self.pending));
        println!("pending count {}", self.fill);
        println!("labels      {}", hex(&self.labels));
        println!("index       {}", hex(&self.index));
    }
}

impl MakeOutcome {
    pub fn print(&self, side: &str) {
        println!("{side} answers {:?}", self.answer);
        println!("{side} leaves index {}", hex(&self.index));
    }
}
