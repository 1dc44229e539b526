//! Pseudo-instructions in the second implementation, as the Rust writes them out.

use crate::job::Job;
use crate::second_described::branch_on_one;
use crate::second_reader::Reader;
use crate::second_words::{
    func, held, load, load_label, one, op, then, with_immediate, Base, Begun, Word, Words, AT,
    BRANCH, RD, RS, RT,
};

/// The words of a pseudo-instruction, or none where the name is not one.
pub fn pseudo(job: Job, name: &[u8], reader: &mut Reader) -> Option<Words> {
    Some(match name {
        b"nop" => one(Begun::of(func(0))),
        b"abs" => abs(job, reader),
        b"neg" => two_registers(reader, |rd, s| {
            Begun::of(func(34)).field(RD, rd).field(RT, s)
        }),
        b"negu" => two_registers(reader, |rd, s| {
            Begun::of(func(35)).field(RD, rd).field(RT, s)
        }),
        b"not" => two_registers(reader, |rd, s| {
            Begun::of(func(39)).field(RD, rd).field(RS, s)
        }),
        b"move" => two_registers(reader, |rd, s| {
            Begun::of(func(33)).field(RD, rd).field(RS, s)
        }),
        b"li" => li(reader),
        b"la" => la(reader),
        b"b" => reader
            .label()
            .map(|label| vec![Begun::of(op(4)).patched(BRANCH, label)]),
        b"beqz" => branch_on_one(Begun::of(op(4)), reader),
        b"bnez" => branch_on_one(Begun::of(op(5)), reader),
        b"subi" => subtract(reader, op(8), func(32)),
        b"subiu" => subtract(reader, op(9), func(33)),
        b"seq" => equal(reader, true),
        b"sne" => equal(reader, false),
        _ => {
            // blt, bgt, ble, bge and sge, sgt, sle, with or without a last u.
            let plain = name.strip_suffix(b"u").unwrap_or(name);
            let less = func(if plain.len() < name.len() { 41 } else { 42 });

            match plain {
                b"blt" => compare_and_branch(reader, less, false, op(5)),
                b"bgt" => compare_and_branch(reader, less, true, op(5)),
                b"ble" => compare_and_branch(reader, less, true, op(4)),
                b"bge" => compare_and_branch(reader, less, false, op(4)),
                b"sge" => compare_and_set(reader, less, false, true),
                b"sgt" => compare_and_set(reader, less, true, false),
                b"sle" => compare_and_set(reader, less, true, true),
                _ => return None,
            }
        }
    })
}

fn two_registers(reader: &mut Reader, word: impl Fn(u64, u64) -> Begun) -> Words {
    let (rd, source) = (reader.register()?, reader.register()?);

    one(word(rd, source))
}

fn abs(job: Job, reader: &mut Reader) -> Words {
    let (rd, source) = (reader.register()?, reader.register()?);

    Ok(vec![
        job.first_of_abs(source),
        Begun::of(func(38))
            .field(RD, rd)
            .field(RT, AT)
            .field(RS, source)
            .done(),
        Begun::of(func(35))
            .field(RD, rd)
            .field(RT, AT)
            .field(RS, rd)
            .done(),
    ])
}

fn li(reader: &mut Reader) -> Words {
    let register = reader.register()?;

    Ok(load(reader.constant()?, register))
}

fn la(reader: &mut Reader) -> Words {
    let register = reader.register()?;

    Ok(load_label(reader.label()?, register))
}

/// "subi and subiu negate theirs first, wrapping."
fn subtract(reader: &mut Reader, base: Base, other: Base) -> Words {
    let (rt, rs) = (reader.register()?, reader.register()?);
    let constant = 0u64.wrapping_sub(reader.constant()?);

    with_immediate(base, Some(other), rt, rs, constant)
}

fn flip(register: u64) -> Word {
    Begun::of(op(14))
        .field(RT, register)
        .field(RS, register)
        .immediate(1)
        .done()
}

fn equal(reader: &mut Reader, flipped: bool) -> Words {
    let (rd, rs) = (reader.register()?, reader.register()?);
    let (rt, mut words) = held(reader.value()?);

    words.push(
        Begun::of(func(35))
            .field(RD, rd)
            .field(RS, rs)
            .field(RT, rt)
            .done(),
    );
    words.push(Begun::of(func(41)).field(RD, rd).field(RT, rd).done());

    then(words, flipped.then(|| flip(rd)))
}

fn compare_and_branch(reader: &mut Reader, less: Base, swapped: bool, branch: Base) -> Words {
    let first = reader.register()?;
    let value = reader.value()?;
    let label = reader.label()?;
    let (second, words) = held(value);
    let (rs, rt) = if swapped {
        (second, first)
    } else {
        (first, second)
    };
    let compare = Begun::of(less).field(RS, rs).field(RT, rt).field(RD, AT);

    then(
        words,
        [
            compare.done(),
            Begun::of(branch).field(RS, AT).patched(BRANCH, label),
        ],
    )
}

fn compare_and_set(reader: &mut Reader, less: Base, swapped: bool, flipped: bool) -> Words {
    let (rd, first) = (reader.register()?, reader.register()?);
    let (second, mut words) = held(reader.value()?);
    let (rs, rt) = if swapped {
        (second, first)
    } else {
        (first, second)
    };

    words.push(
        Begun::of(less)
            .field(RD, rd)
            .field(RS, rs)
            .field(RT, rt)
            .done(),
    );

    then(words, flipped.then(|| flip(rd)))
}
