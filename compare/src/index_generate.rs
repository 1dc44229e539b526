//! Whole routines of emit calls with labels and an index that is carried along: lines of every
//! sort over a few names, labels changed between some, and some indexes and lists damaged.

use crate::damage::any_bytes;
use crate::damage_line::damaged;
use crate::descriptors::table;
use crate::generate_line::{line_of, named, well_formed, Line};
use crate::generate_owners::{owner, source};
use crate::index_input::{IndexedInput, IndexedOutcome, MakeInput};
use crate::index_plain::afresh;
use crate::job::Job;
use crate::line_input::LineInput;
use crate::names::{name, near_name};
use crate::operands::{of_encoding, PSEUDO};
use crate::random::Random;
use crate::records::{bodies, kind, write, Label, Record};
use crate::tokens::SYMBOL;

/// What a line adds at most: five words, two pendings of the longest name, a breakpoint.
const ADDED: [usize; 3] = [20, 200, 32];

/// One routine, as its caller keeps it between the lines.
pub struct Routine {
    random: Random,
    job: Job,
    names: Vec<Vec<u8>>,
    pub labels: Vec<u8>,
    /// The data buffers of its regions, with their fill counts and addresses.
    regions: Vec<(Vec<u8>, u32, u32)>,
    pub pending: Vec<u8>,
    breakpoints: Vec<u8>,
    /// The fill counts of pendings and breakpoints.
    counts: [u32; 2],
    pub index: Vec<u8>,
    pub fill: u32,
}

impl Routine {
    /// An empty routine, whose index is empty too, with room for so many lines.
    pub fn new(mut random: Random, lines: usize) -> Routine {
        let mut names = vec![name(&mut random)];
        for _ in 0..random.below(16) {
            let from = random.below(names.len());
            let name = match random.one_in(2) {
                true => near_name(&mut random, &names[from].clone()),
                false => name(&mut random),
            };
            names.push(name);
        }
        let room = |part: usize| vec![0xcc; (ADDED[part] * lines).min(65_536)];
        let regions = (0..random.within(1, 3))
            .map(|number| (room(0), 0, 0x0040_0000 + 0x0010_0000 * number as u32))
            .collect();
        let job = random.pick(&[Job::Commit, Job::Commit, Job::Manual, Job::Release6]);

        Routine {
            job,
            labels: labels(&mut random, &names),
            names,
            regions,
            pending: room(1),
            breakpoints: room(2),
            counts: [0; 2],
            index: vec![0xcc; (ADDED[1] * lines).min(65_536)],
            fill: 0,
            random,
        }
    }

    pub fn pendings(&self) -> u64 {
        bodies(&self.pending[..self.counts[0] as usize]).count() as u64
    }

    /// The next line, and the number of its region. The buffers are the routine's.
    pub fn line(&mut self) -> (usize, IndexedInput) {
        let mut line = line(&mut self.random);
        self.use_names(&mut line);
        let at = self.random.below(self.regions.len());

        (at, self.input(at, line.write()))
    }

    fn input(&self, at: usize, line: LineInput) -> IndexedInput {
        let (data, count, address) = &self.regions[at];

        IndexedInput {
            job: self.job,
            line: LineInput {
                data: data.clone(),
                pending: self.pending.clone(),
                breakpoints: self.breakpoints.clone(),
                counts: [*count, self.counts[0], self.counts[1]],
                region: if line.region < 16 {
                    at as u16
                } else {
                    line.region
                },
                address: if self.odd(&line) {
                    line.address
                } else {
                    *address
                },
                ..line
            },
            labels: self.labels.clone(),
            index: self.index.clone(),
            fill: self.fill,
        }
    }

    /// A line drawn near the top of the addresses stays there: refusal 11.
    fn odd(&self, line: &LineInput) -> bool {
        line.address > 0xffff_0000
    }

    /// Most symbols of a line are names of the routine, of few sources.
    fn use_names(&mut self, line: &mut Line) {
        for token in &mut line.tokens {
            if token.kind == SYMBOL && !self.random.one_in(8) {
                let name = &self.names[self.random.below(self.names.len())];
                let mut body = source(&mut self.random).to_le_bytes().to_vec();
                body.extend(&token.body[4..8]);
                body.extend(name);
                token.body = body;
            }
        }
    }

    /// Goes on from what an accepted line has left.
    pub fn take(&mut self, at: usize, outcome: IndexedOutcome) {
        let IndexedOutcome { line, index, fill } = outcome;

        self.regions[at].0 = line.data;
        self.regions[at].1 = line.counts[0];
        self.pending = line.pending;
        self.breakpoints = line.breakpoints;
        self.counts = [line.counts[1], line.counts[2]];
        self.index = index;
        self.fill = fill;
    }

    /// Other labels over the same names, now and then: what has to be made afresh.
    pub fn change_labels(&mut self) -> bool {
        let changes = self.random.one_in(8);
        if changes {
            self.labels = labels(&mut self.random, &self.names);
        }

        changes
    }

    /// A call that makes the index of the routine as it is, into a buffer of some length: mostly
    /// the routine's own, at times one about the index's length, at times with damaged lists.
    pub fn making(&mut self) -> (bool, MakeInput) {
        let random = &mut self.random;
        let mut input = MakeInput {
            pending: self.pending.clone(),
            fill: self.counts[0],
            labels: self.labels.clone(),
            index: self.index.clone(),
        };
        let filled = &self.pending[..self.counts[0] as usize];
        let made = afresh(&self.labels, filled).len();

        match random.below(8) {
            0 => input.index.truncate(near(random, made)),
            1 => input.index.truncate(near(random, filled.len())),
            2 => input.index.truncate(random.below(made + 2)),
            3 => damage_labels(random, &mut input.labels),
            4 if random.one_in(2) => any_bytes(random, &mut input.pending),
            4 => {
                input.fill = input
                    .fill
                    .wrapping_add(random.below(9) as u32)
                    .wrapping_sub(4)
            }
            5 if random.one_in(40) => input.index = vec![0; random.pick(&[65_536, 65_537])],
            _ => return (true, input),
        }

        (false, input)
    }

    /// A call that is not taken into the routine: the line with one part of it changed.
    pub fn damaged(&mut self, input: &IndexedInput, left: &IndexedOutcome) -> IndexedInput {
        let random = &mut self.random;
        let mut input = input.clone();

        match random.below(12) {
            // 17: about the length that the line needs.
            0..=2 => {
                let length = near(random, left.fill as usize).max(input.fill as usize);
                input.index.truncate(length);
            }
            3 => damage_labels(random, &mut input.labels),
            4 => {
                let other = labels(random, &self.names);
                let filled = &input.line.pending[..input.line.counts[1] as usize];
                input.fill = put(&mut input.index, &afresh(&other, filled));
            }
            5 => {
                input.fill = random.pick(&[input.fill + 1, input.fill.wrapping_sub(1), 0, u32::MAX])
            }
            6 => {
                let mut line = line(random);
                line.pending.clear();
                input.line = damaged(random, line);
                let filled = input.line.pending.get(..input.line.counts[1] as usize);
                let made = filled
                    .filter(|list| whole(list))
                    .map(|list| afresh(&input.labels, list));
                input.fill = put(&mut input.index, &made.unwrap_or_default());
            }
            7 if random.one_in(40) => input.index.resize(65_537, 0),
            _ => {
                let mut index = input.index[..input.fill as usize].to_vec();
                damage_index(random, &mut index);
                input.fill = put(&mut input.index, &index);
            }
        }

        input
    }
}

/// Writes a list to the start of a buffer, which is made longer for it, and gives its fill count.
fn put(buffer: &mut Vec<u8>, list: &[u8]) -> u32 {
    if buffer.len() < list.len() {
        buffer.resize(list.len(), 0xcc);
    }
    buffer[..list.len()].copy_from_slice(list);

    list.len() as u32
}

/// Whether a list's records end where it ends, and have room for what `afresh` reads.
fn whole(list: &[u8]) -> bool {
    let mut rest = list;

    while rest.len() >= 4 {
        let length = 4 + rest[0] as usize + 256 * rest[1] as usize;
        if length < 36 || length > rest.len() {
            return false;
        }
        rest = &rest[length..];
    }

    rest.is_empty()
}

fn near(random: &mut Random, length: usize) -> usize {
    (length + random.below(4)).saturating_sub(2)
}

/// A line of any sort, half of the time one that takes a label.
fn line(random: &mut Random) -> Line {
    if random.one_in(2) {
        return well_formed(random);
    }
    let takes_label = |operands: &str| operands.contains(['l', 'a']);

    if random.one_in(2) {
        let (text, operands) = loop {
            let pseudo = random.pick(&PSEUDO);
            if takes_label(pseudo.1) {
                break pseudo;
            }
        };
        let mnemonic = named(random, text.as_bytes().to_vec());
        return line_of(random, vec![], mnemonic, operands);
    }

    let descriptor = loop {
        let record = &table()[random.below(table().len())];
        if takes_label(of_encoding(record.body[2], record.body[4])) {
            break record.clone();
        }
    };
    let mnemonic = named(random, descriptor.body[8..].to_vec());
    let operands = of_encoding(descriptor.body[2], descriptor.body[4]);

    line_of(random, vec![descriptor], mnemonic, operands)
}

/// Labels of some of the names, for all files and of owners, in any order, and others.
fn labels(random: &mut Random, names: &[Vec<u8>]) -> Vec<u8> {
    let mut labels: Vec<Label> = vec![];

    for _ in 0..random.below(2 * names.len() + 2) {
        let owner = (!random.one_in(3)).then(|| owner(random));
        let name = match random.one_in(12) {
            true => name(random),
            false => names[random.below(names.len())].clone(),
        };
        if !labels
            .iter()
            .any(|label| (label.owner, &label.name) == (owner, &name))
        {
            labels.push(Label {
                address: random.u32(),
                owner,
                name,
            });
        }
    }

    write(&labels.iter().map(Label::record).collect::<Vec<_>>())
}

/// A byte of the label list, or a label twice.
fn damage_labels(random: &mut Random, list: &mut Vec<u8>) {
    if random.one_in(2) || list.is_empty() {
        return any_bytes(random, list);
    }
    let mut labels = records(list);
    let again = labels[random.below(labels.len())].clone();
    labels.insert(random.below(labels.len() + 1), again);
    *list = write(&labels);
}

fn records(list: &[u8]) -> Vec<Record> {
    bodies(list)
        .map(|(_, kind, body)| Record {
            kind,
            body: body.to_vec(),
        })
        .collect()
}

/// One thing about an index changed, as a wrong program may: a record missing, twice or out of its
/// order, a number missing, twice or another, the known flag, the owner, the name, the kind; or any
/// byte.
fn damage_index(random: &mut Random, index: &mut Vec<u8>) {
    if index.is_empty() || random.one_in(4) {
        return any_bytes(random, index);
    }
    let mut uses = records(index);
    let (one, other) = (random.below(uses.len()), random.below(uses.len()));
    let count = u16::from_le_bytes([uses[one].body[1], uses[one].body[2]]);
    let number = 3 + 2 * random.below(count as usize);
    let owner_at = 3 + 2 * count as usize;
    let counted = |body: &mut Vec<u8>, count: u16| body[1..3].copy_from_slice(&count.to_le_bytes());

    match random.below(10) {
        0 => drop(uses.remove(one)),
        1 => uses.insert(other, uses[one].clone()),
        2 => uses.swap(one, other),
        3 => {
            let body = &mut uses[one].body;
            body.drain(number..number + 2);
            counted(body, count - 1);
        }
        4 => {
            let body = &mut uses[one].body;
            let twice = [body[number], body[number + 1]];
            body.splice(number..number, twice);
            counted(body, count + 1);
        }
        5 => uses[one].body[number] ^= 1,
        6 => uses[one].body[0] ^= 1,
        7 => uses[one].body[owner_at + random.below(4)] ^= 1,
        8 => {
            let name = uses[other].body.len() - 1;
            uses[other].body[name] ^= 1;
        }
        _ => uses[one].kind = random.pick(&[kind::ENTRY, 40, kind::PENDING]),
    }
    *index = write(&uses);
}
