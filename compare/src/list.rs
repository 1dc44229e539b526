//! A fixed list of calls with the judge's answers, for the program `replay` (crates/replay).
//!
//! The calls are those of the modes line and build, and the judge is theirs: the Rust, and for
//! refusals 1, 2 and 12 and the location of 14 the models of document 01. A call is kept where one
//! of its classes (list_line.rs, list_build.rs) has fewer calls than are wanted of it. The list is
//! made by
//!
//!     compare/run list --self --count 100000 --seed 1 > crates/replay/stdin
//!
//! and is written only where the other side agrees on each listed call. What it covers goes to
//! standard error.
//!
//! The format: lists, each after its 4-byte byte count, and numbers, little-endian and of four
//! bytes where nothing else is said. The first list has the number of builds and that of all
//! calls. Each other is a call, the builds first, and is made of lists itself:
//!
//! - a build: the four lists. Expected: the answer, then the region list at exit.
//! - a line: the six buffers, the three fill counts, and position, region (2 bytes) and address.
//!   Expected: the answer, the fill counts, then the last three buffers at exit.
//!
//! The answer is number, source, index, the low 32 bits of a, b, and the entry address or the
//! position.

use crate::answer::{Answer, Tally};
use crate::build_input::{BuildInput, BuildOutcome};
use crate::line_input::{LineInput, LineOutcome};
use crate::list_build;
use crate::list_line;
use crate::options::Options;
use crate::{run_build, run_line};
use std::collections::BTreeMap;
use std::io::{stdout, Write};

/// The calls are gone through once for each of these lengths, and those up to it and over the one
/// before are considered, so that of a class the short ones are kept.
const LENGTHS: [usize; 6] = [0, 250, 350, 600, 1_500, usize::MAX];

/// Longer calls are kept for their length only.
const SHORT: usize = 1_500;

/// `replay` reads one byte more than a lent buffer may have.
const LONGEST: usize = 65_537;

/// A class of calls, and how many calls of it are wanted.
pub type Class = (String, usize);

/// A call as it is listed.
pub struct Call {
    pub answer: Answer,
    pub bytes: Vec<u8>,
    pub classes: Vec<Class>,
}

/// What has been kept, by class.
pub struct Chosen {
    kept: BTreeMap<String, usize>,
    list: Vec<u8>,
    tally: Tally,
    calls: usize,
}

impl Chosen {
    fn new() -> Chosen {
        Chosen {
            kept: BTreeMap::new(),
            list: vec![],
            tally: Tally::new(),
            calls: 0,
        }
    }

    fn wants(&self, classes: &[Class]) -> bool {
        classes
            .iter()
            .any(|(class, wanted)| self.kept.get(class).map_or(0, |kept| *kept) < *wanted)
    }

    /// How many calls are kept of the classes whose names start and end so.
    pub fn count(&self, start: &str, end: &str) -> usize {
        self.kept
            .iter()
            .filter(|(class, _)| class.starts_with(start) && class.ends_with(end))
            .map(|(_, kept)| kept)
            .sum()
    }

    /// Whether a call is kept.
    fn keeps(&mut self, call: &Call, lengths: &[usize]) -> bool {
        let length = call.bytes.len();

        if length <= lengths[0] || length > lengths[1] || !self.wants(&call.classes) {
            return false;
        }
        for (class, _) in &call.classes {
            *self.kept.entry(class.clone()).or_insert(0) += 1;
        }
        self.tally.count(&call.answer);
        self.calls += 1;
        buffer(&mut self.list, &call.bytes);

        true
    }
}

/// Writes the list; false, and no list, where the other side differs on a listed call.
pub fn run(options: &Options) -> bool {
    let (mut builds, mut lines) = (Chosen::new(), Chosen::new());

    for lengths in LENGTHS.windows(2) {
        for index in 0..options.count {
            let (build, line) = (
                list_build::listed(options.seed, index),
                list_line::listed(options.seed, index),
            );
            let agreed = [
                build
                    .filter(|(_, call)| builds.keeps(call, lengths))
                    .map(|(input, _)| run_build::agreed(options, &input)),
                line.filter(|(_, call)| lines.keeps(call, lengths))
                    .map(|(input, _)| run_line::agreed(options, &input)),
            ];

            if agreed.contains(&Some(None)) {
                println!("input {index} of seed {} differs", options.seed);
                return false;
            }
        }
    }

    summary("build", &builds, list_build::covered(&builds));
    summary("line", &lines, list_line::covered(&lines));

    let calls = [builds.calls, builds.calls + lines.calls];
    let mut list = vec![];
    buffer(&mut list, &numbers(&calls.map(|count| count as u32)));
    list.extend([builds.list, lines.list].concat());

    stdout().write_all(&list).is_ok()
}

fn summary(entry: &str, chosen: &Chosen, covered: String) {
    eprintln!(
        "{entry}: {} calls, {} bytes, {} classes",
        chosen.calls,
        chosen.list.len(),
        chosen.kept.len()
    );
    eprint!("{}{covered}", chosen.tally.text());
}

/// Whether a call is one that is kept for its length.
pub fn is_long(call: &[u8]) -> bool {
    call.len() > SHORT
}

/// Whether `replay` has room for a call's buffers.
pub fn fits(buffers: &[&Vec<u8>]) -> bool {
    buffers.iter().all(|buffer| buffer.len() <= LONGEST)
}

/// The classes of a call that is kept for its length: one over the limit in each buffer, and one
/// of each length that is allowed.
pub fn by_length(buffers: &[&Vec<u8>], answer: &Answer) -> Vec<Class> {
    let longest = (0..buffers.len())
        .max_by_key(|number| buffers[*number].len())
        .unwrap();
    let number = answer.number;
    let class = match buffers[longest].len() {
        65_537 if (number, answer.a) == (1, longest as u32) => format!("buffer {longest} over"),
        60_000.. if [0, 12].contains(&number) && (buffers.len(), longest) == (6, 3) => {
            format!("data, answer {number}")
        }
        60_000.. if number == 0 => "list".to_string(),
        60_000.. => return vec![],
        _ => format!("over {SHORT}, answer {number}"),
    };

    vec![(format!("length: {class}"), 1)]
}

/// Where refusal 1 or 2 found its fault: the buffer, whether its first record is at fault, the
/// kind there, and what of the record is missing; of a repeated name the list's length.
pub fn fault(answer: &Answer, buffers: &[&Vec<u8>]) -> Class {
    let (buffer, place) = (buffers[answer.a as usize], answer.b as usize);
    let end = |size: usize| place + 4 + size > buffer.len();
    let half = |at: usize| u16::from_le_bytes([buffer[at], buffer[at + 1]]);
    let record = match place {
        _ if place == buffer.len() => "none".to_string(),
        _ if end(0) => "head cut".to_string(),
        _ if end(half(place) as usize) => "body cut".to_string(),
        _ => format!("kind {}", half(place + 2).min(40)),
    };
    let Answer { number, a, .. } = answer;

    match number {
        1 => (
            format!("fault: buffer {a}, first {}, {record}", place == 0),
            1,
        ),
        _ => (format!("repeat: {}", buffer.len() / 128), 12),
    }
}

fn numbers(numbers: &[u32]) -> Vec<u8> {
    numbers.iter().flat_map(|n| n.to_le_bytes()).collect()
}

fn buffer(call: &mut Vec<u8>, bytes: &[u8]) {
    call.extend((bytes.len() as u32).to_le_bytes());
    call.extend(bytes);
}

fn answer(answer: &Answer) -> Vec<u8> {
    let Answer {
        number,
        source,
        index,
        a,
        b,
        last,
    } = *answer;

    numbers(&[number, source, index, a, b, last])
}

pub fn build_call(input: &BuildInput, expected: &BuildOutcome) -> Vec<u8> {
    let mut call = vec![];

    for bytes in list_build::buffers(input) {
        buffer(&mut call, bytes);
    }
    buffer(&mut call, &answer(&expected.answer));
    buffer(&mut call, &expected.regions);

    call
}

pub fn line_call(input: &LineInput, expected: &LineOutcome) -> Vec<u8> {
    let mut call = vec![];
    let region = input.region.to_le_bytes();
    let place = [
        numbers(&[input.position]),
        region.to_vec(),
        numbers(&[input.address]),
    ];

    for bytes in list_line::buffers(input) {
        buffer(&mut call, bytes);
    }
    buffer(&mut call, &numbers(&input.counts));
    buffer(&mut call, &place.concat());
    buffer(&mut call, &answer(&expected.answer));
    buffer(&mut call, &numbers(&expected.counts));
    buffer(&mut call, &expected.data);
    buffer(&mut call, &expected.pending);
    buffer(&mut call, &expected.breakpoints);

    call
}
