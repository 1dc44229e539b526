//! The inputs of an emit call, and what an emit call is seen to do.

use crate::answer::{hex, Answer};

/// "The selected number is 0 to 15, or 65535 for none."
pub const NO_REGION: u16 = 65535;

#[derive(Clone)]
pub struct LineInput {
    pub tokens: Vec<u8>,
    pub mnemonic: Vec<u8>,
    pub descriptors: Vec<u8>,
    pub data: Vec<u8>,
    pub pending: Vec<u8>,
    pub breakpoints: Vec<u8>,
    /// The fill counts of the last three buffers.
    pub counts: [u32; 3],
    pub position: u32,
    pub region: u16,
    pub address: u32,
}

#[derive(PartialEq, Eq)]
pub struct LineOutcome {
    pub answer: Answer,
    pub counts: [u32; 3],
    pub data: Vec<u8>,
    pub pending: Vec<u8>,
    pub breakpoints: Vec<u8>,
}

impl LineInput {
    /// "Lent bytes and fill counts then remain as at entry."
    pub fn refused(&self, answer: Answer) -> LineOutcome {
        LineOutcome {
            answer,
            counts: self.counts,
            data: self.data.clone(),
            pending: self.pending.clone(),
            breakpoints: self.breakpoints.clone(),
        }
    }

    pub fn print(&self) {
        println!("tokens      {}", hex(&self.tokens));
        println!("mnemonic    {}", hex(&self.mnemonic));
        println!("descriptors {}", hex(&self.descriptors));
        println!("data        {}", hex(&self.data));
        println!("pending     {}", hex(&self.pending));
        println!("breakpoints {}", hex(&self.breakpoints));
        println!("counts {:?} position {}", self.counts, self.position);
        println!("region {} address {:#010x}", self.region, self.address);
    }
}

impl LineOutcome {
    pub fn print(&self, side: &str) {
        println!("{side} answers {:?}", self.answer);
        println!("{side} leaves counts {:?}", self.counts);
        println!("{side} leaves data        {}", hex(&self.data));
        println!("{side} leaves pending     {}", hex(&self.pending));
        println!("{side} leaves breakpoints {}", hex(&self.breakpoints));
    }
}
