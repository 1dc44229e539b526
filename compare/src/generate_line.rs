//! Well-formed emit calls: inputs to which neither refusal 1 nor 2 is due.

use crate::descriptors::{made_up, table};
use crate::line_input::{LineInput, NO_REGION};
use crate::names::{name, place, unknown_name};
use crate::operands::{self, of_encoding, PSEUDO};
use crate::random::Random;
use crate::records::{kind, write, Pending, Record, Reference};
use crate::tokens::{mixed, number};

/// An emit call before its lists are written as bytes.
pub struct Line {
    pub tokens: Vec<Record>,
    pub mnemonic: Vec<Record>,
    pub descriptors: Vec<Record>,
    /// What the last three buffers hold at the call.
    pub data: Vec<u8>,
    pub pending: Vec<Record>,
    pub breakpoints: Vec<Record>,
    /// How many bytes each of them has beyond that.
    pub room: [usize; 3],
    pub position: u32,
    pub region: u16,
    pub address: u32,
}

impl Line {
    pub fn write(&self) -> LineInput {
        let mut buffers = [
            self.data.clone(),
            write(&self.pending),
            write(&self.breakpoints),
        ];
        let counts = [0, 1, 2].map(|part: usize| buffers[part].len() as u32);

        for (buffer, room) in buffers.iter_mut().zip(self.room) {
            buffer.resize(buffer.len() + room, 0xcc);
        }
        let [data, pending, breakpoints] = buffers;

        LineInput {
            tokens: write(&self.tokens),
            mnemonic: write(&self.mnemonic),
            descriptors: write(&self.descriptors),
            data,
            pending,
            breakpoints,
            counts,
            position: self.position,
            region: self.region,
            address: self.address,
        }
    }

    /// What the mnemonic names: an encoding, a pseudo-instruction's number after the 21
    /// encodings, or neither.
    pub fn named(&self) -> Option<usize> {
        let lowered = self.mnemonic[0].body[8..].to_ascii_lowercase();
        let descriptor = self
            .descriptors
            .iter()
            .find(|record| record.body[8..] == lowered[..]);

        match descriptor {
            Some(record) => Some(record.body[2] as usize),
            None => PSEUDO
                .iter()
                .position(|(name, _)| name.as_bytes() == lowered)
                .map(|number| 21 + number),
        }
    }
}

pub fn well_formed(random: &mut Random) -> Line {
    let descriptors = descriptors(random);
    let (mnemonic, operands) = mnemonic(random, &descriptors);

    line_of(random, descriptors, mnemonic, operands)
}

/// A line of this mnemonic, with operands that are right for it or nearly so.
pub fn line_of(
    random: &mut Random,
    descriptors: Vec<Record>,
    mnemonic: Record,
    operands: &str,
) -> Line {
    let mut tokens = vec![];
    if random.one_in(4) {
        mixed(random, &mut tokens);
    }
    let start = tokens.len();
    tokens.extend(operands::tokens(random, operands));
    if random.one_in(16) {
        tokens.truncate(random.within(0, tokens.len()));
    }
    let position = match random.below(24) {
        0 => random.within(0, tokens.len() + 2) as u32,
        1 => tokens.len() as u32 + random.pick(&[0, 1, 2, 1000]),
        2 => random.pick(&[u32::MAX, u32::MAX - 1, 0x8000_0000]),
        _ => start as u32,
    };

    let mut line = Line {
        tokens,
        mnemonic: vec![mnemonic],
        descriptors,
        data: vec![],
        pending: (0..random.below(4)).map(|_| pending(random)).collect(),
        breakpoints: (0..random.below(4)).map(|_| breakpoint(random)).collect(),
        // Five words; two pendings of the longest name; a breakpoint of five words.
        room: [
            random.within(20, 40),
            random.within(200, 220),
            random.within(32, 50),
        ],
        position,
        region: random.below(16) as u16,
        address: 0x0040_0000,
    };
    place_region(random, &mut line);

    line
}

/// The region's address and what it holds: at times near the top of the addresses, near the
/// longest data, without room, or no region at all.
fn place_region(random: &mut Random, line: &mut Line) {
    let length = match random.below(4) {
        0 => random.below(30),
        _ => random.below(8) * 4,
    };
    line.data = random.bytes(length);

    match random.below(12) {
        0 => line.region = NO_REGION,
        // Refusal 11: the address plus the data's length about 2^32, for some word of the line.
        1 | 2 => {
            let top = (length + random.below(20)) as u32;
            line.address = 0u32
                .wrapping_sub(top)
                .max(1)
                .wrapping_add(random.below(3) as u32);
        }
        3 => line.address = random.u32(),
        _ => {}
    }

    // Refusal 12, about each of its ends.
    match random.below(12) {
        0 => line.room[0] = random.below(21),
        1 => line.room[1] = random.below(201),
        2 => line.room[2] = random.below(33),
        3 => line.room = [random.below(21), random.below(101), random.below(33)],
        4 if random.one_in(8) => {
            let length = random.within(65_500, 65_536);
            line.data = vec![random.u8(); length];
            line.room[0] = 65_536 - length;
        }
        _ => {}
    }
}

pub fn descriptors(random: &mut Random) -> Vec<Record> {
    let mut records: Vec<Record> = match random.below(4) {
        0 => table().to_vec(),
        1 => vec![],
        _ => (0..random.within(1, 4))
            .map(|_| table()[random.below(table().len())].clone())
            .collect(),
    };

    if random.one_in(3) {
        for _ in 0..random.within(1, 3) {
            let place = random.below(records.len() + 1);
            records.insert(place, made_up(random));
        }
    }

    let mut names: Vec<Vec<u8>> = vec![];
    records.retain(|record| {
        let fresh = !names.iter().any(|name| *name == record.body[8..]);
        names.push(record.body[8..].to_vec());
        fresh
    });

    records
}

/// A mnemonic and the operands that it reads.
fn mnemonic(random: &mut Random, descriptors: &[Record]) -> (Record, &'static str) {
    let (text, operands) = match random.below(20) {
        0 => {
            // Mostly neither a descriptor's nor a pseudo-instruction's.
            let mut text = match random.below(3) {
                0 => vec![],
                1 => random.pick(&PSEUDO).0.as_bytes().to_vec(),
                _ => name(random),
            };
            if random.one_in(2) {
                text.push(b'u');
            }
            text.truncate(random.pick(&[1, 3, 16, 16]));
            (text, "rr")
        }
        number if number < 8 || descriptors.is_empty() => {
            let (text, operands) = random.pick(&PSEUDO);
            (text.as_bytes().to_vec(), operands)
        }
        choice => {
            // Loads and stores more often, as their operand is read in the most ways.
            let access = descriptors
                .iter()
                .find(|record| [13, 14].contains(&record.body[2]));
            let any = &descriptors[random.below(descriptors.len())];
            let body = &access.filter(|_| choice < 11).unwrap_or(any).body;
            (body[8..].to_vec(), of_encoding(body[2], body[4]))
        }
    };

    (named(random, text), operands)
}

/// A mnemonic record, at times with capitals: "lowered by ASCII rules".
pub fn named(random: &mut Random, mut text: Vec<u8>) -> Record {
    if random.one_in(4) {
        for byte in &mut text {
            if random.one_in(2) {
                byte.make_ascii_uppercase();
            }
        }
    }

    let mut body = [place(random), place(random)]
        .map(u32::to_le_bytes)
        .concat();
    body.extend(text);

    Record {
        kind: kind::MNEMONIC,
        body,
    }
}

fn pending(random: &mut Random) -> Record {
    let reference = match random.one_in(2) {
        true => Reference::constant(number(random)),
        false => Reference {
            form: 1,
            value: number(random),
            source: place(random),
            index: place(random),
            name: unknown_name(random, &[]),
        },
    };

    Pending {
        region: random.below(16) as u16,
        offset: random.u32(),
        source: place(random),
        index: place(random),
        patch: random.below(5) as u8,
        reference,
    }
    .record()
}

fn breakpoint(random: &mut Random) -> Record {
    let length = 8 + 4 * random.within(1, 5);

    Record {
        kind: kind::BREAKPOINT,
        body: random.bytes(length),
    }
}
