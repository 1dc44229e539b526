//! Lines by descriptor in the second implementation: what each encoding reads and writes, as the
//! Rust has it.

use crate::job::{Job, Seen};
use crate::second_reader::{Reader, Stop};
use crate::second_words::{
    func, held, one, reach, then, with_immediate, Base, Begun, Words, BRANCH, JUMP, RD, RS, RT, SA,
};

/// The words of a line that a descriptor's fields (its body's first eight bytes) describe. The
/// job's own refusals come "after the line's last operand is read, before 9".
pub fn described(job: Job, fields: &[u8], reader: &mut Reader) -> Words {
    let mut seen = Seen::default();
    let words = encoded(job, fields, reader, &mut seen);

    match (&words, job.refusal(Base(fields[0], fields[1]), &seen)) {
        (Err(stop), _) if stop.number < 9 => words,
        (_, None) => words,
        (_, Some(number)) => Err(Stop {
            number,
            location: None,
            a: 0,
            b: 0,
        }),
    }
}

fn encoded(job: Job, fields: &[u8], reader: &mut Reader, seen: &mut Seen) -> Words {
    let base = job.base(Base(fields[0], fields[1]), fields[2]);
    let begun = Begun::of(base);
    let size = job.size_code(fields[3]);
    let flag = fields[4] as u64;

    match fields[2] {
        0 => {
            let (rd, rs) = (reader.register()?, reader.register()?);
            let (rt, words) = held(reader.value()?);
            then(
                words,
                [begun.field(RD, rd).field(RS, rs).field(RT, rt).done()],
            )
        }
        1 => {
            let (rd, rt) = (reader.register()?, reader.register()?);
            let rs = reader.register()?;
            one(begun.field(RD, rd).field(RS, rs).field(RT, rt))
        }
        2 => one(begun.field(RS, reader.register()?)),
        3 => one(begun.field(RD, reader.register()?)),
        4 => {
            let (first, second) = (reader.register()?, reader.register()?);
            match reader.optional_value() {
                None => one(begun.field(RS, first).field(RT, second)),
                Some(value) => {
                    seen.third_input = true;
                    let (rt, words) = held(value);
                    let mflo = Begun::of(func(18)).field(RD, first);
                    then(
                        words,
                        [begun.field(RS, second).field(RT, rt).done(), mflo.done()],
                    )
                }
            }
        }
        5 => {
            let (rd, rt) = (reader.register()?, reader.register()?);
            let amount = reader.constant()?;
            seen.amount = Some(amount);
            one(begun.field(RD, rd).field(RT, rt).field(SA, amount % 256))
        }
        6 | 11 => branch_on_one(begun, reader),
        7 => {
            let (rt, rs) = (reader.register()?, reader.register()?);
            let other = (fields[5] == 1).then_some(Base(fields[6], fields[7]));
            with_immediate(base, other, rt, rs, reader.constant()?)
        }
        8 => {
            let rt = reader.register()?;
            one(begun.field(RT, rt).immediate(reader.constant()?))
        }
        9 => Ok(vec![begun.patched(JUMP, reader.label()?)]),
        10 => {
            let rs = reader.register()?;
            let value = reader.value()?;
            let label = reader.label()?;
            let (rt, words) = held(value);
            then(
                words,
                [begun.field(RS, rs).field(RT, rt).patched(BRANCH, label)],
            )
        }
        12 => one(begun),
        13 | 14 => {
            let rt = if fields[2] == 13 {
                reader.register()?
            } else {
                reader.fp_register()?
            };
            let (rs, immediate, words) = reach(reader.address()?);
            then(
                words,
                [begun
                    .field(RS, rs)
                    .field(RT, rt)
                    .immediate(immediate)
                    .done()],
            )
        }
        15 | 16 => {
            let (fd, fs) = (reader.fp_register()?, reader.fp_register()?);
            let begun = begun.field(SA, fd).field(RD, fs);
            let begun = match fields[2] {
                15 => begun.field(RT, reader.fp_register()?),
                _ => begun,
            };
            one(begun.field(RS, size))
        }
        17 => {
            let (fd, fs) = (reader.fp_register()?, reader.fp_register()?);
            let code = code(reader, seen)? + flag;
            one(begun
                .field(SA, fd)
                .field(RD, fs)
                .field(RT, code)
                .field(RS, size))
        }
        18 => {
            let code = code(reader, seen)?;
            let (fs, ft) = (reader.fp_register()?, reader.fp_register()?);
            one(begun
                .field(SA, code)
                .field(RD, fs)
                .field(RT, ft)
                .field(RS, size))
        }
        19 => {
            let (t, s) = match flag {
                1 => (reader.fp_register()?, reader.register()?),
                _ => (reader.register()?, reader.fp_register()?),
            };
            one(begun.field(RT, t).field(RD, s))
        }
        _ => {
            let code = code(reader, seen)? + flag;
            Ok(vec![begun.field(RT, code).patched(BRANCH, reader.label()?)])
        }
    }
}

/// A condition code as it is written: its low eight bits, times four in eight bits.
fn code(reader: &mut Reader, seen: &mut Seen) -> Result<u64, Stop> {
    let code = reader.code()?;
    seen.code = Some(code);

    Ok(code % 256 * 4 % 256)
}

pub fn branch_on_one(begun: Begun, reader: &mut Reader) -> Words {
    let rs = reader.register()?;

    Ok(vec![begun.field(RS, rs).patched(BRANCH, reader.label()?)])
}
