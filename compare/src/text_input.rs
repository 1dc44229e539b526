//! The inputs of a call that reads a text, and what such a call is seen to do.

use crate::answer::{hex, Answer};

#[derive(Clone)]
pub struct TextInput {
    pub text: Vec<u8>,
    pub source: u32,
    pub tokens: Vec<u8>,
}

/// `last` of the answer is the fill of the token buffer, and 0 on refusal.
#[derive(PartialEq, Eq)]
pub struct TextOutcome {
    pub answer: Answer,
    pub tokens: Vec<u8>,
}

impl TextInput {
    pub fn print(&self) {
        println!("text   {}", hex(&self.text));
        println!("as     {:?}", String::from_utf8_lossy(&self.text));
        println!("source {} room {}", self.source, self.tokens.len());
    }
}

impl TextOutcome {
    pub fn print(&self, side: &str) {
        println!("{side} answers {:?}", self.answer);
        println!("{side} leaves tokens {}", hex(&self.tokens));
    }
}
