//! The four lists of a build call, and what a build call is seen to do.

use crate::answer::{hex, Answer};

#[derive(Clone)]
pub struct BuildInput {
    pub labels: Vec<u8>,
    pub entry: Vec<u8>,
    pub regions: Vec<u8>,
    pub pending: Vec<u8>,
}

#[derive(PartialEq, Eq)]
pub struct BuildOutcome {
    pub answer: Answer,
    /// The region list after the call.
    pub regions: Vec<u8>,
}

impl BuildInput {
    /// "Lent bytes and fill counts then remain as at entry."
    pub fn refused(&self, answer: Answer) -> BuildOutcome {
        BuildOutcome {
            answer,
            regions: self.regions.clone(),
        }
    }

    pub fn print(&self) {
        println!("labels  {}", hex(&self.labels));
        println!("entry   {}", hex(&self.entry));
        println!("regions {}", hex(&self.regions));
        println!("pending {}", hex(&self.pending));
    }
}

impl BuildOutcome {
    pub fn print(&self, side: &str) {
        println!("{side} answers {:?}", self.answer);
        println!("{side} leaves regions {}", hex(&self.regions));
    }
}
