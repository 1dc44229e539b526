//! Scripts of steps of patching with lines between them (document 02, P12), and what the two calls
//! are seen to do.

use crate::answer::{hex, Answer};
use crate::job::Job;

/// What is lent from one call to the next: whole buffers and the caller's record.
#[derive(Clone, PartialEq, Eq)]
pub struct Patching {
    pub regions: Vec<u8>,
    pub pending: Vec<u8>,
    pub breakpoints: Vec<u8>,
    pub kept: Vec<u8>,
    /// The fill counts of the first three buffers.
    pub fills: [u32; 3],
    pub patches: u32,
    pub state: u32,
}

/// Labels, entry record and job of all steps: "with the label table fixed at the start".
#[derive(Clone)]
pub struct Fixed {
    pub job: Job,
    pub labels: Vec<u8>,
    pub entry: Vec<u8>,
}

#[derive(Clone)]
pub struct Line {
    pub job: Job,
    pub tokens: Vec<u8>,
    pub mnemonic: Vec<u8>,
    pub descriptors: Vec<u8>,
    pub position: u32,
    pub region: u16,
}

#[derive(Clone)]
pub enum Turn {
    Step,
    Line(Line),
}

pub struct Script {
    pub fixed: Fixed,
    pub start: Patching,
    pub turns: Vec<Turn>,
}

/// What a call answers: a refused one, an accepted line too, has the six numbers of an answer.
#[derive(Clone, Copy, Debug, PartialEq, Eq)]
pub enum Said {
    Patched(u32),
    Ended(u32),
    Answered(Answer),
}

#[derive(Clone, PartialEq, Eq)]
pub struct Outcome {
    pub said: Said,
    pub after: Patching,
}

impl Patching {
    pub fn print(&self, side: &str) {
        println!("{side} regions     {}", hex(&self.regions));
        println!("{side} pending     {}", hex(&self.pending));
        println!("{side} breakpoints {}", hex(&self.breakpoints));
        println!("{side} kept        {}", hex(&self.kept));
        println!(
            "{side} fills {:?} patches {} state {}",
            self.fills, self.patches, self.state
        );
    }
}

impl Fixed {
    pub fn print(&self) {
        println!("labels {}", hex(&self.labels));
        println!("entry  {}", hex(&self.entry));
        println!("job    {}", self.job as u32);
    }
}

impl Turn {
    pub fn print(&self) {
        let Turn::Line(line) = self else {
            println!("a step");
            return;
        };
        println!("a line, job {}", line.job as u32);
        println!("tokens      {}", hex(&line.tokens));
        println!("mnemonic    {}", hex(&line.mnemonic));
        println!("descriptors {}", hex(&line.descriptors));
        println!("position {} region {}", line.position, line.region);
    }
}
