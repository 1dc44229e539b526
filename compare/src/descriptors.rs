//! Descriptor records: the Rust's own table, and made-up ones of every class and encoding.

use crate::assembler::instructions::{Encoding, Instruction, Opcode, Size, INSTRUCTIONS};
use crate::operands::PSEUDO;
use crate::random::Random;
use crate::records::{kind, Record};
use std::sync::OnceLock;

pub fn record(fields: [u8; 8], name: &[u8]) -> Record {
    Record {
        kind: kind::DESCRIPTOR,
        body: [&fields, name].concat(),
    }
}

/// The Rust's table as records. Of two entries of one name its map keeps the later.
pub fn table() -> &'static [Record] {
    static TABLE: OnceLock<Vec<Record>> = OnceLock::new();

    TABLE.get_or_init(|| {
        let mut records: Vec<Record> = vec![];

        for instruction in &INSTRUCTIONS {
            let made = of_instruction(instruction);

            records.retain(|record| record.body[8..] != made.body[8..]);
            records.push(made);
        }

        records
    })
}

fn class_and_key(opcode: &Opcode) -> [u8; 2] {
    match opcode {
        Opcode::Op(key) => [0, *key],
        Opcode::Func(key) => [1, *key],
        Opcode::Special(key) => [2, *key],
        Opcode::Algebra(key) => [3, *key],
        Opcode::Cop1(key) => [4, *key],
        Opcode::Cop1I(key) => [5, *key],
    }
}

fn of_instruction(instruction: &Instruction) -> Record {
    let mut fields = [0; 8];
    let size = |size: &Size| *size as u8;

    [fields[0], fields[1]] = class_and_key(&instruction.opcode);
    fields[2] = match &instruction.encoding {
        Encoding::Register => 0,
        Encoding::RegisterShift => 1,
        Encoding::Source => 2,
        Encoding::Destination => 3,
        Encoding::Inputs => 4,
        Encoding::Sham => 5,
        Encoding::SpecialBranch => 6,
        Encoding::Immediate(alternative) => {
            if let Some(opcode) = alternative {
                fields[5] = 1;
                [fields[6], fields[7]] = class_and_key(opcode);
            }
            7
        }
        Encoding::LoadImmediate => 8,
        Encoding::Jump => 9,
        Encoding::Branch => 10,
        Encoding::BranchZero => 11,
        Encoding::Parameterless => 12,
        Encoding::Offset => 13,
        Encoding::FPOffset => 14,
        Encoding::FP3Register(format) => {
            fields[3] = size(format);
            15
        }
        Encoding::FP2Register(format) => {
            fields[3] = size(format);
            16
        }
        Encoding::FPMove(format, flag) => {
            [fields[3], fields[4]] = [size(format), *flag as u8];
            17
        }
        Encoding::FPCond(format) => {
            fields[3] = size(format);
            18
        }
        Encoding::FPCrossMove(flag) => {
            fields[4] = *flag as u8;
            19
        }
        Encoding::FPBranch(flag) => {
            fields[4] = *flag as u8;
            20
        }
    };

    record(fields, instruction.name.as_bytes())
}

/// A descriptor with any class, key and encoding, and a name of 1 to 16 bytes: at times that of
/// a pseudo-instruction, before which it goes.
pub fn made_up(random: &mut Random) -> Record {
    let mut fields = [0; 8];

    fields[0] = random.below(6) as u8;
    fields[1] = random.u8();
    // Immediate more often: refusal 9 needs one without an alternative, and the table has none.
    fields[2] = if random.one_in(6) {
        7
    } else {
        random.below(21) as u8
    };
    if (15..=18).contains(&fields[2]) {
        fields[3] = random.below(3) as u8;
    }
    if [17, 19, 20].contains(&fields[2]) {
        fields[4] = random.below(2) as u8;
    }
    if fields[2] == 7 && random.one_in(2) {
        fields[5..].copy_from_slice(&[1, random.below(6) as u8, random.u8()]);
    }

    let name = match random.below(4) {
        0 => random.pick(&PSEUDO).0.as_bytes().to_vec(),
        1 => (0..random.pick(&[1, 15, 16]))
            .map(|_| random.pick(b"xyz.~ "))
            .collect(),
        _ => (0..random.within(1, 6))
            .map(|_| random.pick(b"abcdeABC.1"))
            .collect(),
    };

    record(fields, &name)
}
