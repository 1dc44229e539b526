//! Refusals 1 and 2 of a build call and the place of refusal 14, from document 01 and document
//! 02's P6 alone: the Rust takes no record lists and panics at 14, so it cannot judge these.
//!
//! This side lists every fault of a call and takes the least.

use crate::answer::{Answer, NO_ENTRY};
use crate::build_input::BuildInput;
use crate::model_list::{is_name, Faults, List};
use std::collections::HashMap;

const LABELS: u32 = 0;
const ENTRY: u32 = 1;
const REGIONS: u32 = 2;
const PENDING: u32 = 3;

fn refusal(number: u32, a: u32, b: u32) -> Answer {
    // "The location is zero for 1 and 2."
    Answer {
        number,
        source: 0,
        index: 0,
        a,
        b,
        last: NO_ENTRY,
    }
}

/// "Label: address (4), name of 1 to 64." "a new kind 41 has a 4-byte owner after its address, a
/// source number below 0xFFFFFFFF"
pub fn is_label(kind: u16, body: &[u8]) -> bool {
    match kind {
        34 => body.len() > 4 && is_name(&body[4..], 1..=64),
        41 => body.len() > 8 && body[4..8] != [0xff; 4] && is_name(&body[8..], 1..=64),
        _ => false,
    }
}

/// What two labels may not share: "Two labels of one name get refusal 2 only with the same owner
/// or none."
pub fn owner_and_name(kind: u16, body: &[u8]) -> (Option<Vec<u8>>, Vec<u8>) {
    match kind {
        41 => (Some(body[4..8].to_vec()), body[8..].to_vec()),
        _ => (None, body[4..].to_vec()),
    }
}

/// "Region: address (4), data."
pub fn is_region(body: &[u8]) -> bool {
    body.len() >= 4
}

/// Form (1), value or added offset (8), the name's location (8), name of 1 to 64. "Form 0 has
/// zero location and no name."
fn is_reference(body: &[u8]) -> bool {
    if body.len() < 17 {
        return false;
    }

    match body[0] {
        0 => body[9..].iter().all(|byte| *byte == 0) && body.len() == 17,
        1 => is_name(&body[17..], 1..=64),
        _ => false,
    }
}

/// "Pending: region (2 bytes), offset (4), location, patch kind (1 byte: 0 Branch, 1 Jump,
/// 2 Lower, 3 Upper, 4 Full), form [...]". `limit` is the first region number that is too high.
pub fn is_pending(body: &[u8], limit: usize) -> bool {
    body.len() >= 15
        && (body[0] as usize + 256 * body[1] as usize) < limit
        && body[14] <= 4
        && is_reference(&body[15..])
}

/// Refusal 1 with the least a, then the least b; else refusal 2 with the least b.
pub fn refusal_of_lists(input: &BuildInput) -> Option<Answer> {
    let mut faults = Faults::new();

    let labels = List::of_kinds(&input.labels, LABELS, is_label, &mut faults);
    List::of(&input.entry, ENTRY, 38, is_reference, &mut faults).at_most(1, &mut faults);
    let regions = List::of(&input.regions, REGIONS, 35, is_region, &mut faults);
    regions.at_most(16, &mut faults);

    // "1 to 16 regions"; "the list's end for a missing record".
    if input.regions.is_empty() {
        faults.add(REGIONS, 0);
    }

    // "In a build, a pending whose number has no region breaks the layout."
    let count = regions.records.len();
    List::of(
        &input.pending,
        PENDING,
        36,
        |body| is_pending(body, count),
        &mut faults,
    );

    if let Some((a, b)) = faults.least() {
        return Some(refusal(1, a, b));
    }

    // "Two descriptors or two labels share a name (a: buffer, b: place of the later; the least b)."
    labels
        .least_repeat(owner_and_name)
        .map(|place| refusal(2, LABELS, place))
}

/// The location of the first pending, in patch order, whose four bytes end past its region's
/// data. For lists without refusal 1.
pub fn first_past_end(input: &BuildInput) -> Option<(u32, u32)> {
    let number = |bytes: &[u8]| {
        bytes
            .iter()
            .rev()
            .fold(0u64, |sum, byte| sum * 256 + *byte as u64)
    };
    let mut unread = Faults::new();

    let regions = List::of(&input.regions, REGIONS, 35, |_| true, &mut unread);
    let pending = List::of(&input.pending, PENDING, 36, |_| true, &mut unread);

    let mut first: HashMap<u64, (u32, u32)> = HashMap::new();

    for (_, _, body) in &pending.records {
        let region = number(&body[0..2]);
        let data = regions.records[region as usize].2.len() as u64 - 4;

        if number(&body[2..6]) + 4 > data {
            let location = (number(&body[6..10]) as u32, number(&body[10..14]) as u32);
            first.entry(region).or_insert(location);
        }
    }

    // "Patch order is region by region in rising number, and list order inside a region."
    first
        .into_iter()
        .min_by_key(|(region, _)| *region)
        .map(|(_, location)| location)
}
