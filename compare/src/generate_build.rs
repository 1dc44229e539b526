//! Well-formed build inputs: lists to which neither refusal 1 nor 2 is due.

use crate::build_input::BuildInput;
use crate::job::Job;
use crate::names::{place, unknown_name};
use crate::random::Random;
use crate::records::{addressed, entry, kind, write, Label, Pending, Record, Reference};

/// The four lists before they are written as bytes.
pub struct BuildLists {
    pub labels: Vec<Record>,
    pub entry: Vec<Record>,
    pub regions: Vec<Record>,
    pub pending: Vec<Record>,
}

impl BuildLists {
    pub fn write(&self) -> BuildInput {
        BuildInput {
            labels: write(&self.labels),
            entry: write(&self.entry),
            regions: write(&self.regions),
            pending: write(&self.pending),
        }
    }
}

pub struct Region {
    pub address: u32,
    pub data: Vec<u8>,
}

/// What is to go wrong: nothing, one thing, or whatever comes.
#[derive(Clone, Copy, PartialEq)]
enum Plan {
    Clean,
    OneFault,
    Free,
}

#[derive(Clone, Copy, PartialEq)]
enum Fault {
    None,
    PastEnd,
    UnknownName,
    OutOfRange,
    Any,
}

pub fn well_formed(random: &mut Random, job: Job) -> BuildLists {
    let plan = random.pick(&[
        Plan::Clean,
        Plan::Clean,
        Plan::Clean,
        Plan::OneFault,
        Plan::OneFault,
        Plan::Free,
    ]);
    let regions = regions(random);
    let labels = labels(random, &regions);
    let names: Vec<Vec<u8>> = labels.iter().map(|label| label.name.clone()).collect();

    let count = match random.below(4) {
        0 => random.within(0, 2),
        _ => random.within(0, 20),
    };
    let faulty = random.below(count + 1);
    let mut pending: Vec<Pending> = vec![];

    for number in 0..count {
        let fault = match plan {
            Plan::Free if random.one_in(8) => Fault::Any,
            // Of a manual job what is out of range, which is its listed point.
            Plan::OneFault if number == faulty => match job != Job::Commit && random.one_in(2) {
                true => Fault::OutOfRange,
                false => random.pick(&[Fault::PastEnd, Fault::UnknownName, Fault::OutOfRange]),
            },
            _ => Fault::None,
        };

        // The lower half that belongs to the upper half just made.
        if let Some(upper) = pending
            .last()
            .filter(|last| last.patch == 3 && fault == Fault::None)
        {
            let data = regions[upper.region as usize].data.len() as u64;
            if upper.offset as u64 + 8 <= data && random.one_in(2) {
                let mut lower = upper.clone();
                lower.offset += 4;
                lower.patch = 2;
                pending.push(lower);
                continue;
            }
        }

        pending.extend(pending_of(random, job, fault, &regions, &labels, &names));
    }

    let entry_fault =
        plan == Plan::OneFault && faulty == count || plan == Plan::Free && random.one_in(8);

    BuildLists {
        labels: labels.iter().map(Label::record).collect(),
        entry: entry_of(random, entry_fault, &labels, &names),
        regions: regions
            .iter()
            .map(|region| addressed(kind::REGION, region.address, &region.data))
            .collect(),
        pending: pending.iter().map(Pending::record).collect(),
    }
}

/// Addresses about the places where sums wrap or pages end.
pub fn address(random: &mut Random) -> u32 {
    let near = random.pick(&[
        0,
        0x0040_0000,
        0x0fff_fffc,
        0x1000_0000,
        0x1001_0000,
        0x7fff_fffc,
        0x8000_0000,
        0xf000_0000,
        0xffff_fffc,
        0xffff_ff00,
    ]);

    match random.below(8) {
        0 => random.u32(),
        1 => random.u32() & !3,
        2 | 3 => near,
        4 => near.wrapping_add(random.below(80) as u32).wrapping_sub(40),
        _ => near
            .wrapping_add(random.below(20) as u32 * 4)
            .wrapping_sub(40),
    }
}

fn regions(random: &mut Random) -> Vec<Region> {
    let count = match random.below(4) {
        0 => random.within(1, 16),
        _ => random.within(1, 3),
    };

    (0..count)
        .map(|_| {
            let length = match random.below(12) {
                0 => 0,
                1 => random.within(1, 3),
                2 => 4,
                3 => random.within(0, 70),
                // A region long enough for far patches; sixteen of them still fit in a list.
                4 => random.within(0, 1000) * 4,
                _ => random.within(1, 16) * 4,
            };

            Region {
                address: address(random),
                data: random.bytes(length),
            }
        })
        .collect()
}

fn labels(random: &mut Random, regions: &[Region]) -> Vec<Label> {
    let mut names = vec![];

    for _ in 0..random.within(0, 8) {
        let name = unknown_name(random, &names);
        names.push(name);
    }

    names
        .into_iter()
        .map(|name| {
            let region = &regions[random.below(regions.len())];
            let address = match random.below(3) {
                0 => address(random),
                _ => region
                    .address
                    .wrapping_add(random.below(region.data.len() + 8) as u32),
            };

            Label {
                address,
                owner: None,
                name,
            }
        })
        .collect()
}

fn entry_of(random: &mut Random, fault: bool, labels: &[Label], names: &[Vec<u8>]) -> Vec<Record> {
    let reference = if fault {
        unknown(random, names)
    } else if random.one_in(3) {
        return vec![];
    } else {
        let destination = address(random);
        refer(random, destination, labels)
    };

    vec![entry(&reference)]
}

fn unknown(random: &mut Random, names: &[Vec<u8>]) -> Reference {
    Reference {
        form: 1,
        value: random.u64(),
        source: place(random),
        index: place(random),
        name: unknown_name(random, names),
    }
}

/// A constant or a name that has this destination. The upper 32 bits of its value are free: a
/// constant's low 32 bits count, and the sum of address and offset wraps at 2^32.
fn refer(random: &mut Random, destination: u32, labels: &[Label]) -> Reference {
    let upper = match random.below(4) {
        0 => random.u64() << 32,
        1 => 0xffff_ffff_0000_0000,
        _ => 0,
    };

    if labels.is_empty() || random.one_in(3) {
        return Reference::constant(upper | destination as u64);
    }

    let label = &labels[random.below(labels.len())];

    Reference {
        form: 1,
        value: upper | destination.wrapping_sub(label.address) as u64,
        source: place(random),
        index: place(random),
        name: label.name.clone(),
    }
}

fn pending_of(
    random: &mut Random,
    job: Job,
    fault: Fault,
    regions: &[Region],
    labels: &[Label],
    names: &[Vec<u8>],
) -> Option<Pending> {
    let region = random.below(regions.len());
    let data = regions[region].data.len();
    let past_end = fault == Fault::PastEnd || fault == Fault::Any && random.one_in(3);

    if data < 4 && !past_end {
        return None;
    }

    let offset = if past_end {
        let short = (data as u32).saturating_sub(random.below(4) as u32);
        random.pick(&[
            short,
            short,
            data as u32 + 1,
            0xffff_ffff,
            0xffff_fffc,
            0x8000_0000,
        ])
    } else {
        match random.below(4) {
            0 => random.within(0, data - 4) as u32,
            1 => data as u32 - 4,
            _ => random.within(0, data / 4 - 1) as u32 * 4,
        }
    };

    let pc = regions[region].address.wrapping_add(offset);
    let patch = match fault {
        Fault::OutOfRange if job == Job::Commit => random.below(2) as u8,
        Fault::OutOfRange => random.pick(&[0, 0, 0, 1]),
        _ => random.below(5) as u8,
    };
    let out = fault == Fault::OutOfRange || fault == Fault::Any && random.one_in(2);
    let destination = match patch {
        0 => branch_destination(random, job, pc, out),
        1 => jump_destination(random, pc, out),
        _ => random.pick(&[
            0,
            0x8000,
            0xffff,
            0x1_0000,
            0xffff_0000,
            0xffff_ffff,
            pc,
            0x1234_5678,
        ]),
    };
    let reference = match fault == Fault::UnknownName || fault == Fault::Any && random.one_in(3) {
        true => unknown(random, names),
        false => refer(random, destination, labels),
    };

    Some(Pending {
        region: region as u16,
        offset,
        source: place(random),
        index: place(random),
        patch,
        reference,
    })
}

/// A branch's destination at or about the accepted distances' ends. A distance that leaves the
/// 30 bits of a word address wraps to a far one, so then the next word is taken instead.
fn branch_destination(random: &mut Random, job: Job, pc: u32, out: bool) -> u32 {
    let far = random.below(0x20000) as i64 - 0x10000;
    let distance = match (job, out) {
        (Job::Commit, true) => {
            random.pick(&[-0x10001, 0x10000, -0x10002, 0x10001, 0x20000, -0x20000])
        }
        (Job::Commit, false) => random.pick(&[
            -0x10000, 0xffff, -0xffff, 0xfffe, -32768, 32767, -32769, 32768, 0, -1, 1, 8, far, far,
        ]),
        // What is out of range is what the Rust accepts, for the most part.
        (Job::Manual | Job::Release6, true) => random.pick(&[
            -32769, 32768, -32769, 32768, -32770, 32769, -0x10000, 0xffff, -0x10001, 0x10000,
        ]),
        (Job::Manual | Job::Release6, false) => {
            random.pick(&[-32768, 32767, -32767, 32766, 0, -1, 1, 8, far / 2, far / 2])
        }
    };
    let base = (pc.wrapping_add(4) >> 2) as i64;
    let word = base + distance;
    let word = match out || (0..1 << 30).contains(&word) {
        true => word,
        false => base,
    };

    // A destination is rounded down to its word.
    (word << 2) as u32 | random.pick(&[0, 0, 0, 1, 2, 3])
}

/// A jump's destination at an end of its 256 MB page, or just outside.
fn jump_destination(random: &mut Random, pc: u32, out: bool) -> u32 {
    let page = pc.wrapping_add(4) & 0xf000_0000;

    match out {
        true => random.pick(&[
            page.wrapping_sub(4),
            page.wrapping_sub(1),
            page.wrapping_add(0x1000_0000),
            page ^ 0x8000_0000,
            page ^ 0x1000_0000 | 0x0040_0000,
        ]),
        false => {
            let inside = random.u32() >> 4;
            page | random.pick(&[0, 0x0fff_fffc, 0x0fff_ffff, 4, 1, inside, inside & !3])
        }
    }
}
