//! Which build calls the list of calls has.

use crate::answer::Answer;
use crate::build_input::{BuildInput, BuildOutcome};
use crate::job::Job;
use crate::judge_build;
use crate::list::{build_call, by_length, fault, fits, is_long, Call, Chosen, Class};
use crate::owners;
use crate::records::{bodies, u32_at, Pending, Reference};
use crate::run_build::generated;

pub fn buffers(input: &BuildInput) -> [&Vec<u8>; 4] {
    [&input.labels, &input.entry, &input.regions, &input.pending]
}

/// The call of this index, where `replay` has room for it.
pub fn listed(seed: u64, index: u64) -> Option<(BuildInput, Call)> {
    let (_, input) = generated(seed, index, Job::Commit, false);
    if !fits(&buffers(&input)) {
        return None;
    }

    let expected = judge_build::expected(&input);
    let bytes = build_call(&input, &expected);
    let answer = expected.answer;
    let classes = match is_long(&bytes) {
        true => by_length(&buffers(&input), &answer),
        false => classes(&input, &expected),
    };

    Some((
        input,
        Call {
            answer,
            bytes,
            classes,
        },
    ))
}

fn classes(input: &BuildInput, expected: &BuildOutcome) -> Vec<Class> {
    let answer = &expected.answer;
    let number = answer.number;

    if number <= 2 && number > 0 {
        return vec![fault(answer, &buffers(input))];
    }

    let input = &owners::renamed(input);
    let pending: Vec<Pending> = bodies(&input.pending)
        .map(|(_, _, body)| Pending::read(body))
        .collect();
    let mut patches: Vec<u8> = pending.iter().map(|pending| pending.patch).collect();
    patches.sort();
    patches.dedup();
    let entry = bodies(&input.entry)
        .map(|(_, _, body)| Reference::read(body))
        .map(|entry| format!("form {}, upper {}", entry.form, entry.value >> 32 != 0))
        .next();
    let regions = bodies(&input.regions).count().min(4);

    let count = pending.len().min(4);
    let wanted = if number == 0 { 6 } else { 2 };

    let mut classes = vec![
        (format!("entry: {entry:?}, answer {number}"), wanted),
        (format!("patches: {patches:?}, answer {number}"), wanted),
        (
            format!("regions: {regions}, patches {count}, answer {number}"),
            wanted,
        ),
    ];
    classes.extend(
        pending
            .iter()
            .filter(|pending| number == 0 || is_refused(pending, answer))
            .filter_map(|pending| by_patch(input, pending, number)),
    );

    classes
}

/// Whether a refusal of this number and location can be this patch's.
fn is_refused(pending: &Pending, answer: &Answer) -> bool {
    let reference = &pending.reference;
    let of_patch = (answer.source, answer.index) == (pending.source, pending.index);
    let of_name = (answer.source, answer.index) == (reference.source, reference.index);

    match answer.number {
        14 => of_patch,
        15 => of_name && reference.form == 1,
        16 => of_patch && pending.patch < 2,
        _ => false,
    }
}

/// By a patch's kind and by where it leads; none where it is not the one that is refused.
fn by_patch(input: &BuildInput, pending: &Pending, number: u32) -> Option<Class> {
    let (_, _, region) = bodies(&input.regions).nth(pending.region as usize).unwrap();
    let (patch, reference) = (pending.patch, &pending.reference);
    let form = reference.form;
    let room = (region.len() as i64 - 4 - pending.offset as i64).max(-1);
    let address = match form {
        0 => Some(0),
        _ => bodies(&input.labels)
            .find(|(_, _, body)| body[4..] == reference.name[..])
            .map(|(_, _, body)| u32_at(body, 0)),
    };

    match (number, address) {
        (14, _) => (room < 4).then(|| (format!("past end: {patch}, form {form}, {room}"), 2)),
        (15, None) => Some((format!("patch: {patch}, answer 15"), 8)),
        (0 | 16, Some(address)) => {
            let pc = u32_at(region, 0).wrapping_add(pending.offset);
            let destination = address.wrapping_add(reference.value as u32);
            let (leads, byte) = (leads(patch, pc, destination), destination % 4);
            let way = format!("form {form}, {leads}, byte {byte}");

            Some((format!("patch: {patch}, {way}, answer {number}"), 2))
        }
        _ => None,
    }
}

/// Where a patch leads: by the ends of a branch's distances and of a jump's page, or by the
/// destination.
fn leads(patch: u8, pc: u32, destination: u32) -> &'static str {
    let base = pc.wrapping_add(4);

    match patch {
        0 => match (destination >> 2) as i64 - (base >> 2) as i64 {
            -0x10002..=-0xfffe => "lower end",
            0xfffd..=0x10001 => "upper end",
            -0xfffd..=-2 => "back",
            -1 => "itself",
            0 => "next",
            1..=0xfffc => "on",
            _ => "far",
        },
        1 if (destination ^ base) >> 28 != 0 => "other page",
        1 if destination << 4 >> 6 == 0 => "page start",
        1 if !(destination << 4) >> 6 == 0 => "page end",
        _ if destination & 0x8000 != 0 => "lower half over 0x7fff",
        _ if destination < 0x8000 => "small",
        _ => "any",
    }
}

/// What the kept calls cover.
pub fn covered(chosen: &Chosen) -> String {
    let kinds: Vec<String> = (0..5)
        .map(|kind| {
            let patches = |number: u32| {
                let end = format!(", answer {number}");
                chosen.count(&format!("patch: {kind},"), &end)
            };
            let past_end = chosen.count(&format!("past end: {kind},"), "");

            format!("{}/{past_end}/{}/{}", patches(0), patches(15), patches(16))
        })
        .collect();

    format!(
        "patches of each kind, in accepted builds/refused by 14/15/16: {}\n",
        kinds.join(" ")
    )
}
