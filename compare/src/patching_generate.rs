//! Generated scripts: a build's lists in buffers with room behind them, then steps, and lines between
//! them; damaged lists, short buffers and records of numbers that no call left too.

use crate::damage_build;
use crate::damage_line;
use crate::generate_build;
use crate::generate_job_line::pointed;
use crate::generate_line::well_formed;
use crate::generate_owners::put_owners;
use crate::job::Job;
use crate::line_input::NO_REGION;
use crate::patching_input::{Fixed, Line, Patching, Script, Turn};
use crate::random::Random;
use crate::records::{Label, Record};
use crate::tokens::SYMBOL;

const JOBS: [Job; 3] = [Job::Commit, Job::Manual, Job::Release6];

/// The fewest bytes of a pending record.
const PENDING: usize = 36;

pub fn generated(seed: u64, index: u64) -> Script {
    let mut random = Random::of(seed, index);
    let job = random.pick(&JOBS);
    let mut lists = generate_build::well_formed(&mut random, job);
    if random.one_in(4) {
        put_owners(&mut random, &mut lists);
    }
    let regions = lists.regions.len();
    let pendings = lists.pending.len();
    let names: Vec<Vec<u8>> = lists
        .labels
        .iter()
        .map(|record| Label::read(record.kind, &record.body).name)
        .collect();

    let damaged = random.one_in(8);
    let input = match damaged {
        true => damage_build::damaged(&mut random, lists),
        false => lists.write(),
    };
    let turns = turns(&mut random, regions, pendings, &names);
    let mut start = Patching {
        fills: [input.regions.len() as u32, input.pending.len() as u32, 0],
        regions: input.regions,
        pending: input.pending,
        breakpoints: vec![],
        kept: vec![],
        patches: 0,
        state: 0,
    };
    make_room(&mut random, &mut start);
    if random.one_in(6) {
        any_record(&mut random, &mut start, pendings);
    }

    Script {
        fixed: Fixed {
            job,
            labels: input.labels,
            entry: input.entry,
        },
        start,
        turns,
    }
}

/// Buffers with free bytes behind what they hold: mostly enough for the script's lines.
fn make_room(random: &mut Random, start: &mut Patching) {
    let room = match random.below(6) {
        0 => [random.below(30), random.below(250), random.below(60)],
        1 => [random.below(90), 800, 200],
        2 => [200, random.below(600), 200],
        _ => [200, 1_600, 300],
    };
    let buffers = [
        &mut start.regions,
        &mut start.pending,
        &mut start.breakpoints,
    ];

    for (buffer, room) in buffers.into_iter().zip(room) {
        // A buffer over the limit is left so.
        let room = room.min(65_536usize.saturating_sub(buffer.len()));
        buffer.extend(random.bytes(room));
    }
    let most = 4 * (start.pending.len() / PENDING);
    let kept = match random.below(10) {
        0 => random.below(most + 5),
        1 => random.pick(&[0, 7_280, 65_536, 65_537]),
        _ => most,
    };
    start.kept = random.bytes(kept);
}

/// A record of numbers that no call left: fill counts, patches or the state.
fn any_record(random: &mut Random, start: &mut Patching, pendings: usize) {
    for _ in 0..random.within(1, 2) {
        match random.below(4) {
            0 => {
                let part = random.below(3);
                let length = [
                    start.regions.len(),
                    start.pending.len(),
                    start.breakpoints.len(),
                ][part] as u32;
                let inside = random.below(length as usize + 1) as u32;
                start.fills[part] = random.pick(&[inside, 0, length, length + 1, 65_537, u32::MAX]);
            }
            1 => start.state = random.pick(&[1, 2, 3, 255, u32::MAX]),
            _ => {
                let some = random.below(pendings + 1) as u32;
                let all = pendings as u32;
                start.patches =
                    random.pick(&[some, some, all, all + 1, 1_000, 1_820, 65_536, u32::MAX]);
            }
        }
    }
}

/// Steps, with lines between them; at times more steps than it takes to end.
fn turns(random: &mut Random, regions: usize, pendings: usize, names: &[Vec<u8>]) -> Vec<Turn> {
    let steps = match random.below(3) {
        0 => random.below(pendings + 4),
        _ => pendings + random.below(12),
    };
    let lines = random.below(8);
    let mut turns: Vec<Turn> = random
        .shuffled(steps + lines)
        .into_iter()
        .map(|number| match number < steps {
            true => Turn::Step,
            false => Turn::Line(line(random, regions, names)),
        })
        .collect();
    for _ in 0..random.below(4) {
        turns.push(Turn::Step);
    }

    turns
}

fn line(random: &mut Random, regions: usize, names: &[Vec<u8>]) -> Line {
    let mut made = match random.one_in(4) {
        true => pointed(random),
        false => well_formed(random),
    };
    for token in &mut made.tokens {
        use_known_name(random, token, names);
    }
    let input = match random.one_in(10) {
        true => damage_line::damaged(random, made),
        false => made.write(),
    };
    let any = random.below(regions) as u16;
    let region = match random.below(12) {
        0 => random.pick(&[NO_REGION, regions as u16, 15, 16, 65_534]),
        1..=4 => regions as u16 - 1,
        _ => any,
    };

    Line {
        job: random.pick(&JOBS),
        tokens: input.tokens,
        mnemonic: input.mnemonic,
        descriptors: input.descriptors,
        position: input.position,
        region,
    }
}

/// Most symbols name a label of the table.
fn use_known_name(random: &mut Random, token: &mut Record, names: &[Vec<u8>]) {
    if token.kind == SYMBOL && !names.is_empty() && random.below(8) > 0 {
        token.body.truncate(8);
        token.body.extend(&names[random.below(names.len())]);
    }
}
