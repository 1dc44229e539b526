//! The unchanged Rust `BinaryBuilder::build`, asked through record lists.

use crate::answer::{Answer, NO_ENTRY};
use crate::assembler::assembler_util::AssemblerError;
use crate::assembler::assembler_util::AssemblerReason::{JumpOutOfRange, UnknownLabel};
use crate::assembler::binary::{AddressLabel, Binary, BinarySection, NamedLabel, RawRegion};
use crate::assembler::binary_builder::{
    BinaryBuilder, BinaryBuilderLabel, BinaryBuilderRegion, InstructionLabel, InstructionLabelKind,
};
use crate::assembler::lexer::Location;
use crate::build_input::{BuildInput, BuildOutcome};
use crate::model;
use crate::owners;
use crate::records::{bodies, u32_at, Pending, Reference};
use std::panic::{catch_unwind, set_hook, take_hook, AssertUnwindSafe};
use std::sync::atomic::{AtomicBool, Ordering};

/// Whether the Rust is being asked: its panic is then an answer, and not printed.
static ASKING: AtomicBool = AtomicBool::new(false);

pub fn keep_its_panics_quiet() {
    let usual = take_hook();

    set_hook(Box::new(move |panic| {
        if !ASKING.load(Ordering::Relaxed) {
            usual(panic);
        }
    }));
}

/// What documents 01 and 02 expect of a build call: refusals 1 and 2 by the model, the rest by the
/// Rust, of labels with owners on names that need none.
pub fn expected(input: &BuildInput) -> BuildOutcome {
    match model::refusal_of_lists(input) {
        Some(refusal) => input.refused(refusal),
        None => judge(&owners::renamed(input)),
    }
}

/// The Rust's outcome for lists to which refusals 1 and 2 are not due, all labels being for all.
pub fn judge(input: &BuildInput) -> BuildOutcome {
    let builder = builder(input);
    let entry_is_unknown = match &builder.entry {
        Some(AddressLabel::Label(label)) => !builder.labels.contains_key(&label.name),
        _ => false,
    };

    ASKING.store(true, Ordering::Relaxed);
    let built = catch_unwind(AssertUnwindSafe(|| builder.build()));
    ASKING.store(false, Ordering::Relaxed);

    match built {
        Ok(Ok(binary)) => accepted(input, &binary),
        Ok(Err(error)) => input.refused(refusal(&error, entry_is_unknown)),
        // Every patch before the one that panics was read and accepted, so that one is the
        // first, in patch order, to end past its region's data.
        Err(_) => {
            let (source, index) = model::first_past_end(input).expect("the Rust panicked");

            input.refused(Answer {
                number: 14,
                source,
                index,
                a: 0,
                b: 0,
                last: NO_ENTRY,
            })
        }
    }
}

fn accepted(input: &BuildInput, binary: &Binary) -> BuildOutcome {
    let mut regions = input.regions.clone();

    for ((place, _, body), region) in bodies(&input.regions).zip(&binary.regions) {
        regions[place + 4..place + body.len()].copy_from_slice(&region.data);
    }

    BuildOutcome {
        answer: Answer::accepted(binary.entry),
        regions,
    }
}

fn refusal(error: &AssemblerError, entry_is_unknown: bool) -> Answer {
    let location = error.location.expect("the build's errors have locations");
    let (number, a, b) = match error.reason {
        // The entry is resolved before any patch.
        UnknownLabel(_) if entry_is_unknown => (13, 0, 0),
        UnknownLabel(_) => (15, 0, 0),
        JumpOutOfRange(destination, pc) => (16, destination, pc),
        _ => panic!("no build error: {error:?}"),
    };

    Answer {
        number,
        source: location.source as u32,
        index: location.index as u32,
        a,
        b,
        last: NO_ENTRY,
    }
}

/// The builder that the four lists describe, whose labels are for all.
pub fn builder(input: &BuildInput) -> BinaryBuilder {
    let mut builder = BinaryBuilder::new();

    for (_, _, body) in bodies(&input.labels) {
        builder
            .labels
            .insert(text(body[4..].to_vec()), u32_at(body, 0));
    }

    for (_, _, body) in bodies(&input.entry) {
        builder.entry = Some(address_label(Reference::read(body)));
    }

    for (_, _, body) in bodies(&input.regions) {
        builder.regions.push(BinaryBuilderRegion {
            raw: RawRegion {
                flags: BinarySection::Text.into(),
                address: u32_at(body, 0),
                data: body[4..].to_vec(),
            },
            labels: vec![],
        });
    }

    for (_, _, body) in bodies(&input.pending) {
        let pending = Pending::read(body);
        let label = BinaryBuilderLabel {
            offset: pending.offset as usize,
            location: location(pending.source, pending.index),
            label: InstructionLabel {
                kind: label_kind(pending.patch),
                label: address_label(pending.reference),
            },
        };

        builder.regions[pending.region as usize].labels.push(label);
    }

    builder
}

fn location(source: u32, index: u32) -> Location {
    Location {
        source: source as usize,
        index: index as usize,
    }
}

fn text(bytes: Vec<u8>) -> String {
    String::from_utf8(bytes).unwrap()
}

fn address_label(reference: Reference) -> AddressLabel {
    match reference.form {
        0 => AddressLabel::Constant(reference.value),
        _ => AddressLabel::Label(NamedLabel {
            location: location(reference.source, reference.index),
            offset: reference.value,
            name: text(reference.name),
        }),
    }
}

fn label_kind(patch: u8) -> InstructionLabelKind {
    match patch {
        0 => InstructionLabelKind::Branch,
        1 => InstructionLabelKind::Jump,
        2 => InstructionLabelKind::Lower,
        3 => InstructionLabelKind::Upper,
        _ => InstructionLabelKind::Full,
    }
}
