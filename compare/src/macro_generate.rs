//! Token lists with macros, drawn at random: calls with right and wrong counts, chains of up to twelve macros, damaged lists.

use crate::macro_input::MacroInput;
use crate::macro_plain;
use crate::random::Random;

const NAMES: [&[u8]; 14] = [
    b"a", b"b", b"ab", b"ba", b"m", b"mm", b"seam", b"step", b"lift", b"add", b"A", b"a1", b"b_",
    b"x",
];
const PARAMETERS: [&[u8]; 9] = [b"p", b"q", b"pp", b"r", b"s", b"a", b"t", b"u", b"P"];
const MOST: usize = 65536;

fn token(random: &mut Random, kind: u16, payload: &[u8]) -> Vec<u8> {
    let index = random.below(1000) as u32;
    let source = random.below(3) as u32;
    let mut record = ((8 + payload.len()) as u16).to_le_bytes().to_vec();
    record.extend(kind.to_le_bytes());
    record.extend(source.to_le_bytes());
    record.extend(index.to_le_bytes());
    record.extend(payload);

    record
}

/// Any token that may be an argument, or none: the parameters of a body are among them.
fn any(random: &mut Random, parameters: &[&[u8]]) -> Vec<u8> {
    if !parameters.is_empty() && random.one_in(2) {
        let name = random.pick(parameters);
        return token(random, 2, name);
    }

    match random.below(12) {
        0 => token(random, 0, b"note"),
        1 => token(random, 1, b"word"),
        2 => {
            let number = [random.below(32) as u8];
            token(random, 4, &number)
        }
        3 => {
            let number = random.u64().to_le_bytes();
            token(random, 5, &number)
        }
        4 => token(random, 7, b"text"),
        5 | 6 => {
            let name = random.pick(&NAMES);
            token(random, 8, name)
        }
        7 => {
            let kind = 9 + random.below(7) as u16;
            token(random, kind, b"")
        }
        _ => {
            let number = [random.below(32) as u8];
            token(random, 3, &number)
        }
    }
}

/// A macro's name and how many parameters it has.
type Known = (Vec<u8>, usize);

fn call(random: &mut Random, known: &Known, parameters: &[&[u8]]) -> Vec<u8> {
    let mut made = token(random, 8, &known.0);
    let count = match random.below(24) {
        0 => known.1 + 1,
        1 => known.1.saturating_sub(1),
        _ => known.1,
    };

    for _ in 0..count {
        if random.one_in(3) {
            made.extend(token(random, 11, b""));
        }
        if random.one_in(9) {
            made.extend(token(random, 0, b"c"));
        }
        let argument = loop {
            let drawn = any(random, parameters);
            if ![0, 11, 13].contains(&drawn[2]) {
                break drawn;
            }
        };
        made.extend(argument);
    }

    made
}

fn line(random: &mut Random, known: &[Known], parameters: &[&[u8]]) -> Vec<u8> {
    let mut made = vec![];

    while random.one_in(4) {
        if random.one_in(2) {
            made.extend(token(random, 0, b"c"));
        } else {
            let name = random.pick(&NAMES);
            made.extend(token(random, 8, name));
            made.extend(token(random, 12, b""));
        }
    }
    if !known.is_empty() && random.below(8) < 5 {
        let chosen = random.below(known.len());
        made.extend(call(random, &known[chosen], parameters));
    } else if !random.one_in(6) {
        if random.one_in(2) {
            made.extend(token(random, 8, b"addu"));
        }
        for _ in 0..random.below(5) {
            made.extend(any(random, parameters));
        }
    }

    made
}

fn lines(random: &mut Random, count: usize, known: &[Known], parameters: &[&[u8]]) -> Vec<u8> {
    let mut made = vec![];

    for number in 0..count {
        if number > 0 {
            made.extend(token(random, 13, b""));
        }
        made.extend(line(random, known, parameters));
    }

    made
}

fn record(name: &[u8], parameters: &[&[u8]], body: &[u8]) -> Vec<u8> {
    let mut inside = vec![name.len() as u8];
    inside.extend(name);
    inside.push(parameters.len() as u8);
    for parameter in parameters {
        inside.push(parameter.len() as u8);
        inside.extend(*parameter);
    }
    inside.extend(body);

    let mut record = (inside.len() as u16).to_le_bytes().to_vec();
    record.extend(40u16.to_le_bytes());
    record.extend(inside);

    record
}

/// Macros that mostly call those above; in a chain each calls the one above it.
fn macros(random: &mut Random) -> (Vec<u8>, Vec<Known>) {
    let chain = random.one_in(4);
    let count = match chain {
        true => random.within(8, 12),
        false => random.below(7),
    };
    let names = random.shuffled(NAMES.len());
    let mut made = vec![];
    let mut known: Vec<Known> = vec![];

    for number in 0..count {
        let name = match random.one_in(60) {
            true => random.pick(&NAMES),
            false => NAMES[names[number]],
        };
        let used = match (chain, random.one_in(9)) {
            (true, false) => 0,
            _ => random.pick(&[0, 0, 1, 1, 2, 2, 3, 8]),
        };
        let order = random.shuffled(PARAMETERS.len());
        let parameters: Vec<&[u8]> = order[..used].iter().map(|n| PARAMETERS[*n]).collect();
        let mut all = known.clone();
        if random.one_in(5) {
            all.push((name.to_vec(), used));
        }

        let body = match chain && number > 0 {
            true => {
                let mut body = call(random, &known[number - 1], &parameters);
                if random.one_in(6) {
                    body.extend(token(random, 13, b""));
                    body.extend(line(random, &all, &parameters));
                }
                body
            }
            false => {
                let count = random.below(4);
                lines(random, count, &all, &parameters)
            }
        };
        made.extend(record(name, &parameters, &body));
        known.push((name.to_vec(), used));
    }

    (made, known)
}

/// One byte more, less or other.
fn damage(random: &mut Random, list: &mut Vec<u8>) {
    let place = random.below(list.len());

    match random.below(4) {
        0 => list.truncate(place),
        1 => list.insert(place, random.u8()),
        _ if place < list.len() => list[place] = random.pick(&[0, 1, 2, 8, 13, 40, 64, 65, 255]),
        _ => list.push(0),
    }
}

pub fn generated(seed: u64, index: u64) -> MacroInput {
    let mut random = Random::of(seed, index);
    let (mut macros, known) = macros(&mut random);
    let count = random.below(7);
    let mut tokens = lines(&mut random, count, &known, &[]);

    if random.one_in(16) {
        damage(&mut random, &mut tokens);
    }
    if random.one_in(16) {
        damage(&mut random, &mut macros);
    }
    if random.one_in(200) {
        let filler = vec![0; MOST];
        tokens.extend(filler);
    }

    let room = match random.below(8) {
        0 => random.below(400),
        1..=3 => {
            let mut space = vec![0; MOST];
            let fill = macro_plain::write_into(&tokens, &macros, &mut space).last as usize;
            fill + 1 - random.below(3).min(fill + 1)
        }
        4 if random.one_in(20) => MOST + 1,
        _ => random.within(1000, MOST),
    };
    let out = random.bytes(room);

    MacroInput {
        tokens,
        macros,
        out,
    }
}
