//! The inputs of a call that lays out a page, and what such a call is seen to do.

use crate::answer::{hex, Answer};

pub struct PageInput {
    pub labels: Vec<u8>,
    pub regions: Vec<u8>,
    pub page: Vec<u8>,
}

/// `last` of the answer is the page's length, and 0 on refusal. The page is the whole buffer.
#[derive(PartialEq, Eq)]
pub struct PageOutcome {
    pub answer: Answer,
    pub page: Vec<u8>,
}

impl PageInput {
    pub fn print(&self) {
        println!("labels  {}", hex(&self.labels));
        println!("regions {}", hex(&self.regions));
        println!("page of {} bytes", self.page.len());
    }
}

impl PageOutcome {
    pub fn print(&self, side: &str) {
        println!("{side} answers {:?}", self.answer);
        println!("{side} leaves");
        println!("{}", String::from_utf8_lossy(&self.page));
    }
}
