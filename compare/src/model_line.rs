//! Refusals 1, 2 and 12 of an emit call, from document 01 alone: the Rust takes no record lists
//! and grows its own vectors.

use crate::answer::Answer;
use crate::line_input::{LineInput, NO_REGION};
use crate::model::is_pending;
use crate::model_list::{is_name, Faults, List, LIMIT};

const TOKENS: u32 = 0;
const MNEMONIC: u32 = 1;
const DESCRIPTORS: u32 = 2;
const DATA: u32 = 3;
const PENDING: u32 = 4;
const BREAKPOINTS: u32 = 5;

/// "data would exceed 65,528 bytes"
const DATA_LIMIT: usize = 65_528;

/// "The body is a location, then a payload. Registers carry one byte, 0 to 31; IntegerLiteral
/// carries eight; FloatLiteral carries eight bytes, the bits of an f64; the four texts carry 0
/// to 64 bytes; Symbol carries 1 to 64; the rest none."
fn is_token(kind: u16, body: &[u8]) -> bool {
    let Some((_, payload)) = body.split_at_checked(8) else {
        return false;
    };

    match kind {
        0 | 1 | 2 | 7 => is_name(payload, 0..=64),
        3 | 4 => payload.len() == 1 && payload[0] < 32,
        5 | 6 => payload.len() == 8,
        8 => is_name(payload, 1..=64),
        9..=15 => payload.is_empty(),
        _ => false,
    }
}

/// "Mnemonic (exactly one in its list): location, then 0 to 16 bytes".
fn is_mnemonic(body: &[u8]) -> bool {
    body.len() >= 8 && is_name(&body[8..], 0..=16)
}

/// "Descriptor: opcode class (0 to 5 in `Opcode` order), key, encoding (0 to 20 in `Encoding`
/// order), size (0 Single, 1 Double, 2 Word), flag, alternative present, its class, its key, one
/// byte each, then a name of 1 to 16 bytes. Flags are 0 or 1. A field that the encoding has no
/// use for is 0."
fn is_descriptor(body: &[u8]) -> bool {
    let Some((fields, name)) = body.split_first_chunk::<8>() else {
        return false;
    };
    let [class, _, encoding, size, flag, present, other_class, other_key] = *fields;

    let sizes = if (15..=18).contains(&encoding) {
        0..=2
    } else {
        0..=0
    };
    let flags = if [17, 19, 20].contains(&encoding) {
        0..=1
    } else {
        0..=0
    };
    let alternative = match present {
        0 => other_class == 0 && other_key == 0,
        1 => encoding == 7 && other_class <= 5,
        _ => false,
    };

    class <= 5
        && encoding <= 20
        && sizes.contains(&size)
        && flags.contains(&flag)
        && alternative
        && is_name(name, 1..=16)
}

/// "Breakpoint: location, then one 4-byte pc a word"; a line gives one to five words.
fn is_breakpoint(body: &[u8]) -> bool {
    [12, 16, 20, 24, 28].contains(&body.len())
}

/// The filled part of a buffer, where neither the buffer nor the count is over its limit. "the
/// limit, such a buffer's records being unread": of two limits the lesser.
pub fn filled<'a>(buffer: &'a [u8], count: u32, number: u32, faults: &mut Faults) -> &'a [u8] {
    if buffer.len() > LIMIT {
        faults.add(number, LIMIT);
    }
    if count as usize > buffer.len() {
        faults.add(number, buffer.len());
    }
    if buffer.len() > LIMIT || count as usize > buffer.len() {
        return &[];
    }

    &buffer[..count as usize]
}

/// Refusal 1 with the least a, then the least b; else refusal 2 with the least b.
pub fn refusal_of_lists(input: &LineInput) -> Option<Answer> {
    let mut faults = Faults::new();

    List::of_kinds(&input.tokens, TOKENS, is_token, &mut faults);

    // "the list's end for a missing record"
    if input.mnemonic.is_empty() {
        faults.add(MNEMONIC, 0);
    }
    List::of(&input.mnemonic, MNEMONIC, 32, is_mnemonic, &mut faults).at_most(1, &mut faults);

    let descriptors = List::of(
        &input.descriptors,
        DESCRIPTORS,
        33,
        is_descriptor,
        &mut faults,
    );

    // "The selected number is 0 to 15, or 65535 for none; another is refusal 1 for the data
    // buffer, b 0."
    if input.region > 15 && input.region != NO_REGION {
        faults.add(DATA, 0);
    }
    filled(&input.data, input.counts[0], DATA, &mut faults);

    // "in an emit call a pending needs 0 to 15"
    let pending = filled(&input.pending, input.counts[1], PENDING, &mut faults);
    List::of(
        pending,
        PENDING,
        36,
        |body| is_pending(body, 16),
        &mut faults,
    );

    let breakpoints = filled(
        &input.breakpoints,
        input.counts[2],
        BREAKPOINTS,
        &mut faults,
    );
    List::of(breakpoints, BREAKPOINTS, 37, is_breakpoint, &mut faults);

    // "1 to 3 return the starting one as given."
    let refusal = |number, a, b| Answer {
        number,
        source: 0,
        index: 0,
        a,
        b,
        last: input.position,
    };

    if let Some((a, b)) = faults.least() {
        return Some(refusal(1, a, b));
    }

    descriptors
        .least_repeat(|_, body| body[8..].to_vec())
        .map(|place| refusal(2, DESCRIPTORS, place))
}

/// Refusal 12's a for additions of these many bytes: "0, 1, 2, the first short".
pub fn first_short(input: &LineInput, added: [usize; 3]) -> Option<u32> {
    let room = [
        input.data.len().min(DATA_LIMIT),
        input.pending.len(),
        input.breakpoints.len(),
    ];

    (0..3)
        .find(|part| input.counts[*part] as usize + added[*part] > room[*part])
        .map(|part| part as u32)
}
