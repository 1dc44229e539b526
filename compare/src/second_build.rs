//! A second build, whole, written from document 01, for labels with owners from document 02's P6,
//! and apart from the model and the Rust: the other side of a --self run. It walks the lists in
//! order and stops at the first fault.

use crate::answer::{Answer, NO_ENTRY};
use crate::build_input::{BuildInput, BuildOutcome};
use crate::job::Job;
use crate::second_list::{reference_size_ok, text_ok, walk, Bytes, Walk};

pub struct Refused {
    pub number: u32,
    pub source: u32,
    pub index: u32,
    pub a: u32,
    pub b: u32,
}

impl Refused {
    /// As a build answers it.
    pub fn answer(&self) -> Answer {
        Answer {
            number: self.number,
            source: self.source,
            index: self.index,
            a: self.a,
            b: self.b,
            last: NO_ENTRY,
        }
    }
}

pub fn layout(buffer: u32, place: usize) -> Refused {
    Refused {
        number: 1,
        source: 0,
        index: 0,
        a: buffer,
        b: place as u32,
    }
}

pub struct Region {
    pub address: u32,
    /// Where the data begin in the region list, and how many bytes they are.
    pub begin: usize,
    pub length: usize,
}

struct Label<'a> {
    place: usize,
    address: u32,
    /// None for all files.
    owner: Option<u32>,
    name: &'a [u8],
}

pub struct Lists<'a> {
    labels: Vec<Label<'a>>,
    entry: Option<usize>,
    pub regions: Vec<Region>,
    /// Places of the pending records in patch order.
    pub patches: Vec<usize>,
}

pub fn build(job: Job, input: &BuildInput) -> BuildOutcome {
    match check_and_patch(job, input) {
        Ok(outcome) => outcome,
        Err(refused) => BuildOutcome {
            answer: refused.answer(),
            regions: input.regions.to_vec(),
        },
    }
}

fn check_and_patch(job: Job, input: &BuildInput) -> Result<BuildOutcome, Refused> {
    let lists = read(input)?;
    let entry = entry_of(input, &lists)?;
    let mut regions = input.regions.to_vec();

    for place in &lists.patches {
        patch(job, input, &lists, *place, &mut regions)?;
    }

    Ok(BuildOutcome {
        answer: Answer::accepted(entry),
        regions,
    })
}

/// The entry address, or refusal 2 or 13.
pub fn entry_of(input: &BuildInput, lists: &Lists) -> Result<u32, Refused> {
    for (count, later) in lists.labels.iter().enumerate() {
        for earlier in &lists.labels[..count] {
            if (earlier.owner, earlier.name) == (later.owner, later.name) {
                return Err(Refused {
                    number: 2,
                    source: 0,
                    index: 0,
                    a: 0,
                    b: later.place as u32,
                });
            }
        }
    }

    match lists.entry {
        None => Ok(0x0040_0000),
        Some(place) => destination(lists, &input.entry, place + 4, 13),
    }
}

/// Refusal 1 over the four lists in argument order.
pub fn read(input: &BuildInput) -> Result<Lists<'_>, Refused> {
    let labels = labels(&input.labels)?;

    let entry = walk(&input.entry, |place, length, kind| {
        place == 0 && kind == 38 && reference_size_ok(&input.entry, place + 4, length)
    });
    let entry = stop(1, entry)?.first().copied();

    let mut seen = 0;
    let regions = walk(&input.regions, |_, length, kind| {
        seen += 1;
        kind == 35 && length >= 4 && seen <= 16
    });
    let places = stop(2, regions)?;
    if places.is_empty() {
        return Err(layout(2, 0));
    }
    let regions: Vec<Region> = places
        .iter()
        .map(|place| Region {
            address: input.regions.number32(place + 4),
            begin: place + 8,
            length: input.regions.number16(*place) as usize - 4,
        })
        .collect();

    let pending = walk(&input.pending, |place, length, kind| {
        kind == 36
            && length >= 32
            && (input.pending.number16(place + 4) as usize) < regions.len()
            && input.pending[place + 18] < 5
            && reference_size_ok(&input.pending, place + 19, length - 15)
    });
    let mut patches = stop(3, pending)?;
    // A stable sort: list order stays inside a region.
    patches.sort_by_key(|place| input.pending.number16(place + 4));

    Ok(Lists {
        labels,
        entry,
        regions,
        patches,
    })
}

fn stop(buffer: u32, walk: Walk) -> Result<Vec<usize>, Refused> {
    match walk {
        Walk::Whole(places) => Ok(places),
        Walk::Fault(place) => Err(layout(buffer, place)),
    }
}

fn labels(list: &[u8]) -> Result<Vec<Label<'_>>, Refused> {
    let good = |place, length, kind| match kind {
        34 => length > 4 && length <= 68 && text_ok(list, place + 8, length - 4),
        41 if length > 8 && length <= 72 => {
            list.number32(place + 8) < 0xffff_ffff && text_ok(list, place + 12, length - 8)
        }
        _ => false,
    };
    let label = |place: usize| {
        let owned = list.number16(place + 2) == 41;

        Label {
            place,
            address: list.number32(place + 4),
            owner: owned.then(|| list.number32(place + 8)),
            name: name_of(list, place, if owned { 12 } else { 8 }),
        }
    };

    Ok(stop(0, walk(list, good))?.into_iter().map(label).collect())
}

fn name_of(list: &[u8], place: usize, skipped: usize) -> &[u8] {
    &list[place + skipped..place + 4 + list.number16(place) as usize]
}

/// "A destination is a constant's low 32 bits, or label address plus offset. The sum wraps at
/// 2^32." `form` is the place of the form byte; an unknown name gets refusal `unknown`.
fn destination(lists: &Lists, list: &[u8], form: usize, unknown: u32) -> Result<u32, Refused> {
    let low = list.number32(form + 1);

    if list[form] == 0 {
        return Ok(low);
    }

    // The record's end: an entry's form comes first in its body, a pending's behind 15 bytes.
    let start = if unknown == 13 { form - 4 } else { form - 19 };
    let name = name_of(list, start, form + 17 - start);
    let source = list.number32(form + 9);

    // "first to the label whose owner equals the source in the name's location, then to the one
    // for all"
    for owner in [Some(source), None] {
        for label in &lists.labels {
            if label.owner == owner && label.name == name {
                return Ok(((label.address as u64 + low as u64) % (1 << 32)) as u32);
            }
        }
    }

    Err(Refused {
        number: unknown,
        source,
        index: list.number32(form + 13),
        a: 0,
        b: 0,
    })
}

pub fn patch(
    job: Job,
    input: &BuildInput,
    lists: &Lists,
    place: usize,
    regions: &mut [u8],
) -> Result<(), Refused> {
    let list = &input.pending;
    let region = &lists.regions[list.number16(place + 4) as usize];
    let offset = list.number32(place + 6) as usize;
    let refused = |number, a, b| Refused {
        number,
        source: list.number32(place + 10),
        index: list.number32(place + 14),
        a,
        b,
    };

    if region.length < 4 || offset > region.length - 4 {
        return Err(refused(14, 0, 0));
    }

    let target = destination(lists, list, place + 19, 15)?;
    let pc = (region.address as u64 + offset as u64) % (1 << 32);
    let next = (pc + 4) % (1 << 32);
    let out = || refused(16, target, pc as u32);

    // The field's value and the number of its bits, from bit 0.
    let (value, bits) = match list[place + 18] {
        0 => {
            let distance = (target / 4) as i64 - (next / 4) as i64;
            if !job.reaches(distance) {
                return Err(out());
            }
            (distance.rem_euclid(0x10000) as u64, 16)
        }
        1 => {
            if (target >> 28) as u64 != next >> 28 {
                return Err(out());
            }
            ((target / 4) as u64 % (1 << 26), 26)
        }
        2 => (target as u64 % 0x10000, 16),
        3 => (target as u64 / 0x10000, 16),
        _ => (target as u64, 32),
    };

    let at = region.begin + offset;
    let word = regions.number32(at) as u64;
    let kept = (word >> bits) << bits;
    regions[at..at + 4].copy_from_slice(&((kept + value) as u32).to_le_bytes());

    Ok(())
}
