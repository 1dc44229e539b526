//! The inputs of a call that writes macros out, and what such a call is seen to do.

use crate::answer::{hex, Answer};

#[derive(Clone)]
pub struct MacroInput {
    pub tokens: Vec<u8>,
    pub macros: Vec<u8>,
    pub out: Vec<u8>,
}

/// `last` of the answer is the fill of the written-out list, and 0 on refusal.
#[derive(PartialEq, Eq)]
pub struct MacroOutcome {
    pub answer: Answer,
    pub out: Vec<u8>,
}

impl MacroInput {
    pub fn print(&self) {
        println!("tokens {}", hex(&self.tokens));
        println!("macros {}", hex(&self.macros));
        println!("room {}", self.out.len());
    }
}

impl MacroOutcome {
    pub fn print(&self, side: &str) {
        println!("{side} answers {:?}", self.answer);
        println!("{side} leaves {}", hex(&self.out));
    }
}
