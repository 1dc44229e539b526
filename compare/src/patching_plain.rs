//! Steps and lines of patching, whole, written from document 02's P12 over the second build and the
//! second emit call: the side that the library is held to.

use crate::answer::Answer;
use crate::build_input::BuildInput;
use crate::line_input::{LineInput, NO_REGION};
use crate::patching_input::{Fixed, Line, Outcome, Patching, Said, Turn};
use crate::second_build::{entry_of, layout, patch, read, Lists, Refused};
use crate::second_line::{check, do_instruction, part};
use crate::second_list::Bytes;

pub fn turn(fixed: &Fixed, given: &Patching, turn: &Turn) -> Outcome {
    let mut after = given.clone();
    let said = match turn {
        Turn::Step => match step(fixed, given, &mut after) {
            Ok(said) => said,
            Err(refused) => Said::Answered(refused.answer()),
        },
        Turn::Line(line) => Said::Answered(append(line, given, &mut after)),
    };

    Outcome { said, after }
}

/// The lists of a build over the filled parts of the lent ones.
fn filled(labels: &[u8], entry: &[u8], given: &Patching) -> BuildInput {
    let filled = |buffer: &[u8], count: u32| match part(0, buffer, count) {
        Ok(list) => list.to_vec(),
        Err(_) => vec![],
    };

    BuildInput {
        labels: labels.to_vec(),
        entry: entry.to_vec(),
        regions: filled(&given.regions, given.fills[0]),
        pending: filled(&given.pending, given.fills[1]),
    }
}

/// Refusal 1 of the region and the pending list; buffers have a build's numbers.
fn lists<'a>(input: &'a BuildInput, given: &Patching) -> Result<Lists<'a>, Refused> {
    let regions = part(2, &given.regions, given.fills[0]);
    let pending = part(3, &given.pending, given.fills[1]);
    let read = read(input);

    // What an unread list would be blamed for does not count, but what stands before it does.
    for (number, faulty) in [(2, regions.err()), (3, pending.err())] {
        match (&read, faulty) {
            (Err(refused), Some(_)) if refused.a < number => break,
            (_, Some((buffer, place))) => return Err(layout(buffer, place)),
            _ => {}
        }
    }

    let lists = read?;
    // "the list's end for a missing record"
    match given.patches as usize > lists.patches.len() {
        true => Err(layout(3, given.fills[1] as usize)),
        false => Ok(lists),
    }
}

fn step(fixed: &Fixed, given: &Patching, after: &mut Patching) -> Result<Said, Refused> {
    let input = filled(&fixed.labels, &fixed.entry, given);
    let lists = lists(&input, given)?;
    part(4, &given.kept, 4 * lists.patches.len() as u32)
        .map_err(|(buffer, place)| layout(buffer, place))?;
    let entry = entry_of(&input, &lists)?;
    let done = given.patches as usize;

    match given.state {
        0 if done == lists.patches.len() => after.state = 1,
        0 => {
            let place = lists.patches[done];
            let patched = patch(fixed.job, &input, &lists, place, &mut after.regions);
            if let Err(refused) = patched {
                put_back(&input, &lists, done, after);
                return Err(refused);
            }
            let at = begin(&input, &lists, place);
            after.kept[4 * done..4 * done + 4].copy_from_slice(&given.regions[at..at + 4]);
            after.patches += 1;
            return Ok(Said::Patched(after.patches));
        }
        1 => {}
        // "and later steps answer the same"
        _ => {
            let mut image = given.regions.clone();
            for place in &lists.patches {
                patch(fixed.job, &input, &lists, *place, &mut image)?;
            }
        }
    }

    Ok(Said::Ended(entry))
}

/// Where the four bytes of a pending begin.
fn begin(input: &BuildInput, lists: &Lists, place: usize) -> usize {
    let region = &lists.regions[input.pending.number16(place + 4) as usize];

    region.begin + input.pending.number32(place + 6) as usize
}

/// "gives those bytes and lines back unpatched": the last patch first, as patches may overlap.
fn put_back(input: &BuildInput, lists: &Lists, done: usize, after: &mut Patching) {
    for number in (0..done).rev() {
        let place = lists.patches[number];
        let region = &lists.regions[input.pending.number16(place + 4) as usize];
        let at = begin(input, lists, place);

        // Only a record that no call left has counted one that ends past its region's data.
        if at + 4 <= region.begin + region.length {
            after.regions[at..at + 4].copy_from_slice(&after.kept[4 * number..4 * number + 4]);
        }
    }
    after.patches = 0;
    after.state = 2;
}

fn append(line: &Line, given: &Patching, after: &mut Patching) -> Answer {
    match emit(line, given, after) {
        Ok(answer) => answer,
        Err((a, b)) => Answer {
            number: 1,
            source: 0,
            index: 0,
            a,
            b: b as u32,
            last: line.position,
        },
    }
}

/// The emit call of a line with this region.
fn call(line: &Line, given: &Patching, region: u16, data: Vec<u8>, size: usize) -> LineInput {
    LineInput {
        tokens: line.tokens.clone(),
        mnemonic: line.mnemonic.clone(),
        descriptors: line.descriptors.clone(),
        data,
        pending: given.pending.clone(),
        breakpoints: given.breakpoints.clone(),
        counts: [size as u32, given.fills[1], given.fills[2]],
        position: line.position,
        region,
        address: 0,
    }
}

/// The answer of a line whose six buffers keep their layout; else the buffer and the place.
fn emit(line: &Line, given: &Patching, after: &mut Patching) -> Result<Answer, (u32, usize)> {
    let input = filled(&[], &[], given);
    let mut plain = call(line, given, NO_REGION, vec![], 0);

    // Tokens, mnemonic and descriptors come before the region list.
    let checked = check(&plain).map(|_| ());
    if let Err((0..=2, _)) = checked {
        checked?;
    }
    if line.region > 15 && line.region != NO_REGION {
        return Err((3, 0));
    }
    let bare = Patching {
        pending: vec![],
        fills: [given.fills[0], 0, 0],
        patches: 0,
        ..given.clone()
    };
    let regions = lists(&filled(&[], &[], &bare), &bare)
        .map_err(|refused| (3, refused.b as usize))?
        .regions
        .len();
    // "A line for an unlisted region gets refusal 1 for that list (b 0)."
    if line.region != NO_REGION && line.region as usize >= regions {
        return Err((3, 0));
    }
    let lists = lists(&input, given).map_err(|refused| (4, refused.b as usize))?;
    checked?;

    if line.region == NO_REGION {
        return Ok(do_instruction(line.job, &plain).answer);
    }

    let region = &lists.regions[line.region as usize];
    let end = region.begin + region.length;
    let fill = given.fills[0] as usize;
    plain.region = line.region;
    plain.address = region.address;
    plain.counts[0] = region.length as u32;
    // All that is free in the list's buffer is free behind the region's data.
    plain.data = [&given.regions[region.begin..end], &given.regions[fill..]].concat();
    let outcome = do_instruction(line.job, &plain);

    let last = given.patches.checked_sub(1);
    let below = last
        .is_some_and(|last| line.region < input.pending.number16(lists.patches[last as usize] + 4));
    if given.state != 0 || below {
        // "before 11": what has no fault of its own, and what has no room, is late.
        return Ok(match outcome.answer.number {
            0 | 11 | 12 => Answer {
                number: 29,
                source: line.mnemonic.number32(4),
                index: line.mnemonic.number32(8),
                a: 0,
                b: 0,
                last: outcome.answer.last,
            },
            _ => outcome.answer,
        });
    }

    if outcome.answer.number == 0 {
        let words = &outcome.data[region.length..outcome.counts[0] as usize];
        let mut list = [&given.regions[..end], words, &given.regions[end..fill]].concat();
        let size = (4 + outcome.counts[0]) as u16;
        list[region.begin - 8..region.begin - 6].copy_from_slice(&size.to_le_bytes());
        after.regions[..list.len()].copy_from_slice(&list);
        after.pending = outcome.pending;
        after.breakpoints = outcome.breakpoints;
        after.fills = [list.len() as u32, outcome.counts[1], outcome.counts[2]];
    }

    Ok(outcome.answer)
}
