//! Well-formed build inputs with lists of exactly 65,536 bytes, the longest that are lent.

use crate::generate_build::BuildLists;
use crate::random::Random;
use crate::records::{addressed, kind, Pending, Reference};

pub fn full_list(random: &mut Random, mut lists: BuildLists) -> BuildLists {
    match random.below(3) {
        0 => full_labels(random, &mut lists),
        1 => full_region(random, &mut lists),
        _ => full_pending(random, &mut lists),
    }

    lists
}

/// A name of `length` bytes that no other number has.
pub fn numbered(number: usize, length: usize) -> Vec<u8> {
    let mut name = format!("{number:05}").into_bytes();
    name.resize(length, b'.');

    name
}

/// 910 labels of 72 bytes and one of 16.
fn full_labels(random: &mut Random, lists: &mut BuildLists) {
    lists.labels = (0..911)
        .map(|number| {
            let name = numbered(number, if number == 455 { 8 } else { 64 });
            addressed(kind::LABEL, random.u32(), &name)
        })
        .collect();
    patch_first_words(random, lists, 2, &numbered(910, 64));
}

/// One patch a region, of a name known to this source: the names of the replaced labels are
/// unknown now.
pub fn patch_first_words(random: &mut Random, lists: &mut BuildLists, source: u32, name: &[u8]) {
    lists.entry.clear();
    lists.pending.clear();

    for (place, region) in lists.regions.iter().enumerate() {
        if region.body.len() >= 8 {
            let mut patch = full_patch(random, place as u16, 0, name.to_vec());
            patch.reference.source = source;
            lists.pending.push(patch.record());
        }
    }
}

/// One region of 65,528 bytes, patched at its end.
fn full_region(random: &mut Random, lists: &mut BuildLists) {
    let data = vec![random.u8(); 65_528];

    lists.regions = vec![addressed(kind::REGION, random.u32(), &data)];
    lists.pending.clear();

    for offset in [0, 65_521, 65_524, 65_524 + random.below(2) as u32] {
        let mut pending = full_patch(random, 0, offset, vec![]);
        pending.reference = Reference::constant(random.u64());
        lists.pending.push(pending.record());
    }
}

/// 655 pendings of 100 bytes and one of 36.
fn full_pending(random: &mut Random, lists: &mut BuildLists) {
    let name = numbered(7, 64);
    let known = addressed(kind::LABEL, random.u32(), &name);
    let place = random.below(lists.labels.len() + 1);

    lists.labels.insert(place, known);
    lists.regions = vec![addressed(
        kind::REGION,
        random.u32(),
        &vec![random.u8(); 4000],
    )];
    lists.pending = (0..655)
        .map(|_| {
            let offset = random.below(3997) as u32;
            full_patch(random, 0, offset, name.clone()).record()
        })
        .collect();

    let mut last = full_patch(random, 0, 3996, vec![]);
    last.reference = Reference::constant(random.u64());
    lists.pending.insert(random.below(656), last.record());
}

fn full_patch(random: &mut Random, region: u16, offset: u32, name: Vec<u8>) -> Pending {
    Pending {
        region,
        offset,
        source: 1,
        index: random.u32(),
        patch: random.within(2, 4) as u8,
        reference: Reference {
            form: 1,
            value: random.u64(),
            source: 2,
            index: 3,
            name,
        },
    }
}
