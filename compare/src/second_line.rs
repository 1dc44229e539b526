//! A second emit call, whole, written apart from the model and the Rust: the other side of a
//! --self run. It walks the buffers in order and stops at the first fault.

use crate::answer::Answer;
use crate::job::Job;
use crate::line_input::{LineInput, LineOutcome};
use crate::second_described::described;
use crate::second_list::{reference_size_ok, text_ok, walk, Bytes, Walk};
use crate::second_pseudo::pseudo;
use crate::second_reader::{Label, Reader, Stop};
use crate::second_words::{form, Word};

pub fn do_instruction(job: Job, input: &LineInput) -> LineOutcome {
    let mut outcome = LineOutcome {
        answer: Answer::accepted(0),
        counts: input.counts,
        data: input.data.to_vec(),
        pending: input.pending.to_vec(),
        breakpoints: input.breakpoints.to_vec(),
    };
    outcome.answer = match line(job, input, &mut outcome) {
        Ok(answer) | Err(answer) => answer,
    };

    outcome
}

/// The accepted answer, the outcome's buffers grown; or a refusal, the buffers as they were.
fn line(job: Job, input: &LineInput, outcome: &mut LineOutcome) -> Result<Answer, Answer> {
    let given = input.position;
    let early = |number, a, b: usize| Answer {
        number,
        source: 0,
        index: 0,
        a,
        b: b as u32,
        last: given,
    };
    let [tokens, _, descriptors] =
        check(input).map_err(|(buffer, place)| early(1, buffer, place))?;

    let name = |place: usize| {
        let end = place + 4 + input.descriptors.number16(place) as usize;
        &input.descriptors[place + 12..end]
    };
    for (count, later) in descriptors.iter().enumerate() {
        if descriptors[..count]
            .iter()
            .any(|earlier| name(*earlier) == name(*later))
        {
            return Err(early(2, 2, *later));
        }
    }

    let lowered = input.mnemonic[12..].to_ascii_lowercase();
    let source = input.mnemonic.number32(4);
    let index = input.mnemonic.number32(8);
    let mut reader = Reader::new(&input.tokens, &tokens, given as usize);

    let words = match descriptors.iter().find(|place| name(**place) == lowered) {
        Some(place) => described(job, &input.descriptors[place + 4..place + 12], &mut reader),
        None => match pseudo(job, &lowered, &mut reader) {
            Some(words) => words,
            None => {
                return Err(Answer {
                    number: 3,
                    source,
                    index,
                    a: 0,
                    b: 0,
                    last: given,
                })
            }
        },
    };

    let last = reader.at.min(reader.length()) as u32;
    let refuse = |number, a, b| Answer {
        number,
        source,
        index,
        a,
        b,
        last,
    };
    let words = words.map_err(
        |Stop {
             number,
             location,
             a,
             b,
         }| {
            let (source, index) = location.unwrap_or((source, index));
            Answer {
                number,
                source,
                index,
                a,
                b,
                last,
            }
        },
    )?;

    if input.region == 65535 {
        return Err(refuse(10, 0, 0));
    }

    // Refusal 11: "Region address plus data length before some word exceeds 2^32-1".
    for count in 0..words.len() as u64 {
        let length = input.counts[0] as u64 + 4 * count;
        if input.address as u64 + length > 0xffff_ffff {
            return Err(refuse(11, input.address, length as u32));
        }
    }

    let [data, pending, breakpoints] = additions(input, source, index, &words);
    let fits = |count: u32, added: &[u8], room: usize| count as usize + added.len() <= room;

    if !fits(input.counts[0], &data, input.data.len()) || !fits(input.counts[0], &data, 65_528) {
        return Err(refuse(12, 0, 0));
    }
    if !fits(input.counts[1], &pending, input.pending.len()) {
        return Err(refuse(12, 1, 0));
    }
    if !fits(input.counts[2], &breakpoints, input.breakpoints.len()) {
        return Err(refuse(12, 2, 0));
    }

    append(&mut outcome.data, &mut outcome.counts[0], &data);
    append(&mut outcome.pending, &mut outcome.counts[1], &pending);
    append(
        &mut outcome.breakpoints,
        &mut outcome.counts[2],
        &breakpoints,
    );

    Ok(Answer {
        a: form(&words),
        ..Answer::accepted(last)
    })
}

fn append(buffer: &mut [u8], count: &mut u32, added: &[u8]) {
    for byte in added {
        buffer[*count as usize] = *byte;
        *count += 1;
    }
}

/// The bytes that the words add to data, pending and breakpoints.
fn additions(input: &LineInput, source: u32, index: u32, words: &[Word]) -> [Vec<u8>; 3] {
    let mut data = vec![];
    let mut pending = vec![];
    let mut pcs = vec![];

    for word in words {
        let offset = input.counts[0] + data.len() as u32;

        pcs.extend((input.address + offset).to_le_bytes());
        if let Some((kind, label)) = &word.patch {
            let (form, value, location, name) = match label {
                Label::Constant(constant) => (0, *constant, (0, 0), &[][..]),
                Label::Name {
                    text,
                    location,
                    added,
                } => (1, *added, *location, &text[..]),
            };

            pending.extend((32 + name.len() as u16).to_le_bytes());
            pending.extend(36u16.to_le_bytes());
            pending.extend(input.region.to_le_bytes());
            for number in [offset, source, index] {
                pending.extend(number.to_le_bytes());
            }
            pending.extend([*kind, form]);
            pending.extend(value.to_le_bytes());
            pending.extend(location.0.to_le_bytes());
            pending.extend(location.1.to_le_bytes());
            pending.extend(name);
        }
        data.extend(word.bits.to_le_bytes());
    }

    let mut breakpoints = vec![8 + pcs.len() as u8, 0, 37, 0];
    breakpoints.extend(source.to_le_bytes());
    breakpoints.extend(index.to_le_bytes());
    breakpoints.extend(pcs);

    [data, pending, breakpoints]
}

/// Refusal 1 over the six buffers in argument order: the buffer and the place, or the record
/// places of the first three.
pub fn check(input: &LineInput) -> Result<[Vec<usize>; 3], (u32, usize)> {
    let tokens = whole(
        0,
        walk(&input.tokens, |place, length, kind| {
            let payload = length.wrapping_sub(8);
            length >= 8
                && match kind {
                    3 | 4 => payload == 1 && input.tokens[place + 12] <= 31,
                    5 | 6 => payload == 8,
                    0 | 1 | 2 | 7 | 8 => {
                        payload <= 64
                            && (kind != 8 || payload > 0)
                            && text_ok(&input.tokens, place + 12, payload)
                    }
                    9..=15 => payload == 0,
                    _ => false,
                }
        }),
    )?;

    let mnemonic = whole(
        1,
        walk(&input.mnemonic, |place, length, kind| {
            place == 0
                && kind == 32
                && length >= 8
                && length <= 24
                && text_ok(&input.mnemonic, place + 12, length - 8)
        }),
    )?;
    if mnemonic.is_empty() {
        return Err((1, 0));
    }

    let descriptors = whole(
        2,
        walk(&input.descriptors, |place, length, kind| {
            kind == 33
                && length >= 9
                && length <= 24
                && text_ok(&input.descriptors, place + 12, length - 8)
                && fields_ok(&input.descriptors[place + 4..place + 12])
        }),
    )?;

    if input.region >= 16 && input.region < 65535 {
        return Err((3, 0));
    }
    part(3, &input.data, input.counts[0])?;

    let pending = part(4, &input.pending, input.counts[1])?;
    whole(
        4,
        walk(pending, |place, length, kind| {
            kind == 36
                && length >= 32
                && pending.number16(place + 4) < 16
                && pending[place + 18] <= 4
                && reference_size_ok(pending, place + 19, length - 15)
        }),
    )?;

    let breakpoints = part(5, &input.breakpoints, input.counts[2])?;
    whole(
        5,
        walk(breakpoints, |_, length, kind| {
            kind == 37 && length >= 12 && length <= 28 && length % 4 == 0
        }),
    )?;

    Ok([tokens, mnemonic, descriptors])
}

fn whole(buffer: u32, walk: Walk) -> Result<Vec<usize>, (u32, usize)> {
    match walk {
        Walk::Whole(places) => Ok(places),
        Walk::Fault(place) => Err((buffer, place)),
    }
}

/// The filled part of a buffer.
pub fn part(number: u32, buffer: &[u8], count: u32) -> Result<&[u8], (u32, usize)> {
    if buffer.len() > 65_536 {
        return Err((number, 65_536));
    }

    buffer.get(..count as usize).ok_or((number, buffer.len()))
}

/// A descriptor's fields; one that the encoding has no use for is 0.
fn fields_ok(fields: &[u8]) -> bool {
    let encoding = fields[2];
    // The greatest size, flag and presence that each encoding may have.
    let (size, flag, present) = match encoding {
        7 => (0, 0, 1),
        15 | 16 | 18 => (2, 0, 0),
        17 => (2, 1, 0),
        19 | 20 => (0, 1, 0),
        0..=20 => (0, 0, 0),
        _ => return false,
    };

    fields[0] < 6
        && fields[3] <= size
        && fields[4] <= flag
        && fields[5] <= present
        && (if fields[5] == 1 {
            fields[6] < 6
        } else {
            fields[6] == 0 && fields[7] == 0
        })
}
