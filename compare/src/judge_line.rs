//! The unchanged Rust `do_instruction`, asked through record lists.

use crate::answer::Answer;
use crate::assembler::assembler_util::{AssemblerError, AssemblerReason};
use crate::assembler::binary::{AddressLabel, BinarySection, RawRegion};
use crate::assembler::binary_builder::InstructionLabelKind::{Branch, Full, Jump, Lower, Upper};
use crate::assembler::binary_builder::{BinaryBuilder, BinaryBuilderLabel, BinaryBuilderRegion};
use crate::assembler::cursor::LexerCursor;
use crate::assembler::emit::do_instruction;
use crate::assembler::instructions::{Encoding, Instruction, Opcode, Size};
use crate::assembler::lexer::{Location, StrippedKind, SymbolName, Token, TokenKind};
use crate::assembler::registers::{FPRegisterSlot, RegisterSlot};
use crate::job::Job;
use crate::line_input::{LineInput, LineOutcome, NO_REGION};
use crate::model_line;
use crate::records::{bodies, kind, u32_at, u64_at, write, Pending, Record, Reference};
use crate::second_line;
use num::FromPrimitive;
use std::collections::HashMap;
use std::str::from_utf8;

/// What document 01 expects of an emit call: refusals 1, 2 and 12 by the model, the rest by the
/// Rust.
pub fn expected(input: &LineInput) -> LineOutcome {
    match model_line::refusal_of_lists(input) {
        Some(refusal) => input.refused(refusal),
        None => judge(input),
    }
}

/// The Rust's outcome for lists to which refusals 1 and 2 are not due.
fn judge(input: &LineInput) -> LineOutcome {
    let tokens: Vec<Token> = bodies(&input.tokens)
        .map(|(_, kind, body)| token(kind, body))
        .collect();
    let instructions: Vec<Instruction> = bodies(&input.descriptors)
        .map(|(_, _, body)| instruction(body))
        .collect();
    let map: HashMap<&str, &Instruction> = instructions
        .iter()
        .map(|instruction| (instruction.name, instruction))
        .collect();
    let (_, _, mnemonic) = bodies(&input.mnemonic).next().unwrap();
    let start = location(mnemonic);

    let mut cursor = LexerCursor::new(&tokens);
    cursor.set_position(input.position as usize);
    let mut builder = builder(input);

    let result = do_instruction(text(&mnemonic[8..]), start, &mut cursor, &mut builder, &map);

    // "the smaller of the Rust's index and the list's length"
    let position = cursor.get_position().min(tokens.len()) as u32;

    match result {
        Ok(()) => accepted(input, start, &builder, position),
        Err(error) => input.refused(refusal(input, &error, position)),
    }
}

pub fn builder(input: &LineInput) -> BinaryBuilder {
    let mut builder = BinaryBuilder::new();

    if input.region != NO_REGION {
        builder.regions.push(BinaryBuilderRegion {
            raw: RawRegion {
                flags: BinarySection::Text.into(),
                address: input.address,
                data: input.data[..input.counts[0] as usize].to_vec(),
            },
            labels: vec![],
        });
        builder.state.indices.insert(builder.state.mode, 0);
    }

    builder
}

fn accepted(input: &LineInput, start: Location, builder: &BinaryBuilder, last: u32) -> LineOutcome {
    let region = &builder.regions[0];
    let words = &region.raw.data[input.counts[0] as usize..];
    let pending: Vec<Record> = region
        .labels
        .iter()
        .map(|label| pending(input.region, label).record())
        .collect();
    let breakpoints: Vec<Record> = builder
        .breakpoints
        .iter()
        .map(|breakpoint| {
            let mut body = location_bytes(breakpoint.location);
            body.extend(breakpoint.pcs.iter().flat_map(|pc| pc.to_le_bytes()));

            Record {
                kind: kind::BREAKPOINT,
                body,
            }
        })
        .collect();
    let added = [words.to_vec(), write(&pending), write(&breakpoints)];

    if let Some(a) = model_line::first_short(input, [0, 1, 2].map(|part: usize| added[part].len()))
    {
        let Location { source, index } = start;

        return input.refused(Answer {
            number: 12,
            source: source as u32,
            index: index as u32,
            a,
            b: 0,
            last,
        });
    }

    // The Rust has no report of how a constant was loaded: the second implementation gives it.
    let loaded = second_line::do_instruction(Job::Commit, input).answer.a;
    let mut outcome = input.refused(Answer {
        a: loaded,
        ..Answer::accepted(last)
    });
    let lent = [
        &mut outcome.data,
        &mut outcome.pending,
        &mut outcome.breakpoints,
    ];

    for (part, buffer) in lent.into_iter().enumerate() {
        let end = input.counts[part] as usize + added[part].len();

        buffer[input.counts[part] as usize..end].copy_from_slice(&added[part]);
        outcome.counts[part] = end as u32;
    }

    outcome
}

fn pending(region: u16, label: &BinaryBuilderLabel) -> Pending {
    Pending {
        region,
        offset: label.offset as u32,
        source: label.location.source as u32,
        index: label.location.index as u32,
        patch: match label.label.kind {
            Branch => 0,
            Jump => 1,
            Lower => 2,
            Upper => 3,
            Full => 4,
        },
        reference: match &label.label.label {
            AddressLabel::Constant(value) => Reference::constant(*value),
            AddressLabel::Label(name) => Reference {
                form: 1,
                value: name.offset,
                source: name.location.source as u32,
                index: name.location.index as u32,
                name: name.name.clone().into_bytes(),
            },
        },
    }
}

fn refusal(input: &LineInput, error: &AssemblerError, position: u32) -> Answer {
    let kind = |met: &StrippedKind| met.clone() as u32;
    let (number, a, b) = match &error.reason {
        AssemblerReason::UnknownInstruction(_) => (3, 0, 0),
        AssemblerReason::EndOfFile => (4, 0, 0),
        AssemblerReason::ExpectedRegister(met) => (5, kind(met), 0),
        AssemblerReason::ExpectedConstant(met) => (6, kind(met), 0),
        AssemblerReason::ExpectedLabel(met) => (7, kind(met), 0),
        AssemblerReason::ExpectedRightBrace(met) => (8, kind(met), 0),
        AssemblerReason::ConstantOutOfRange(least, most) => (9, *least as u32, *most as u32),
        AssemblerReason::MissingRegion => (10, 0, 0),
        AssemblerReason::OverwriteEdge(address, count) => (11, *address, count.unwrap() as u32),
        reason => panic!("no error of a line: {reason:?}"),
    };
    let location = error
        .location
        .expect("do_instruction gives every error a location");

    Answer {
        number,
        source: location.source as u32,
        index: location.index as u32,
        a,
        b,
        // "1 to 3 return the starting one as given."
        last: if number == 3 {
            input.position
        } else {
            position
        },
    }
}

pub fn location(body: &[u8]) -> Location {
    Location {
        source: u32_at(body, 0) as usize,
        index: u32_at(body, 4) as usize,
    }
}

fn location_bytes(location: Location) -> Vec<u8> {
    [location.source as u32, location.index as u32]
        .map(u32::to_le_bytes)
        .concat()
}

pub fn text(bytes: &[u8]) -> &str {
    from_utf8(bytes).unwrap()
}

pub fn token(kind: u16, body: &[u8]) -> Token<'_> {
    let payload = &body[8..];
    let kind = match kind {
        0 => TokenKind::Comment(text(payload)),
        1 => TokenKind::Directive(text(payload)),
        2 => TokenKind::Parameter(text(payload)),
        3 => TokenKind::Register(RegisterSlot::from_u8(payload[0]).unwrap()),
        4 => TokenKind::FPRegister(FPRegisterSlot::from_u8(payload[0]).unwrap()),
        5 => TokenKind::IntegerLiteral(u64_at(payload, 0)),
        6 => TokenKind::FloatLiteral(f64::from_bits(u64_at(payload, 0))),
        7 => TokenKind::StringLiteral(text(payload).to_string()),
        8 => TokenKind::Symbol(SymbolName::Slice(text(payload))),
        9 => TokenKind::Plus,
        10 => TokenKind::Minus,
        11 => TokenKind::Comma,
        12 => TokenKind::Colon,
        13 => TokenKind::NewLine,
        14 => TokenKind::LeftBrace,
        _ => TokenKind::RightBrace,
    };

    Token {
        location: location(body),
        kind,
    }
}

fn opcode(class: u8, key: u8) -> Opcode {
    match class {
        0 => Opcode::Op(key),
        1 => Opcode::Func(key),
        2 => Opcode::Special(key),
        3 => Opcode::Algebra(key),
        4 => Opcode::Cop1(key),
        _ => Opcode::Cop1I(key),
    }
}

pub fn instruction(body: &[u8]) -> Instruction<'_> {
    let size = match body[3] {
        0 => Size::Single,
        1 => Size::Double,
        _ => Size::Word,
    };
    let flag = body[4] == 1;
    let alternative = (body[5] == 1).then(|| opcode(body[6], body[7]));

    Instruction {
        name: text(&body[8..]),
        opcode: opcode(body[0], body[1]),
        encoding: match body[2] {
            0 => Encoding::Register,
            1 => Encoding::RegisterShift,
            2 => Encoding::Source,
            3 => Encoding::Destination,
            4 => Encoding::Inputs,
            5 => Encoding::Sham,
            6 => Encoding::SpecialBranch,
            7 => Encoding::Immediate(alternative),
            8 => Encoding::LoadImmediate,
            9 => Encoding::Jump,
            10 => Encoding::Branch,
            11 => Encoding::BranchZero,
            12 => Encoding::Parameterless,
            13 => Encoding::Offset,
            14 => Encoding::FPOffset,
            15 => Encoding::FP3Register(size),
            16 => Encoding::FP2Register(size),
            17 => Encoding::FPMove(size, flag),
            18 => Encoding::FPCond(size),
            19 => Encoding::FPCrossMove(flag),
            _ => Encoding::FPBranch(flag),
        },
    }
}
