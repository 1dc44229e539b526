//! A dry run's input and outcome.

use crate::answer::{hex, Answer};

/// The bytes of 32 registers.
pub const REGISTER_BYTES: usize = 128;

pub struct RunInput {
    pub regions: Vec<u8>,
    pub registers: Vec<u8>,
    pub pc: u32,
    pub allowance: u32,
}

impl RunInput {
    pub fn print(&self) {
        println!("regions {}", hex(&self.regions));
        println!("registers {}", hex(&self.registers));
        println!("pc {:08x}, allowance {}", self.pc, self.allowance);
    }
}

/// The registers are those at exit.
#[derive(PartialEq)]
pub struct RunOutcome {
    pub answer: Answer,
    pub registers: Vec<u8>,
}

impl RunOutcome {
    pub fn print(&self, side: &str) {
        println!("{side}: {:?}", self.answer);
        println!("{side}: registers {}", hex(&self.registers));
    }
}
