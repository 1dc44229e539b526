//! A plain interpreter of a dry run's eighteen instructions, from document 02 (P10) and the manual.

use crate::answer::Answer;
use crate::dry_run_input::{RunInput, RunOutcome, REGISTER_BYTES};
use crate::model_list::{Faults, List};
use crate::records::u32_at;

/// Why a run stops, in the order in which it is looked at.
#[derive(Clone, Copy)]
pub enum Stop {
    Allowance,
    Pc,
    Word,
    Overflow,
}

struct Region<'a> {
    address: u32,
    data: &'a [u8],
}

struct State {
    pc: u32,
    registers: [u32; 32],
}

/// "A whole word is any four bytes of one region; where regions overlap, the lowest number having
/// that word is read."
fn word(regions: &[Region], pc: u32) -> Option<u32> {
    regions.iter().find_map(|region| {
        let offset = pc.wrapping_sub(region.address) as usize;
        let bytes = region.data.get(offset..offset + 4)?;
        Some(u32::from_le_bytes(bytes.try_into().unwrap()))
    })
}

impl State {
    fn set(&mut self, register: u32, value: u32) {
        if register != 0 {
            self.registers[register as usize] = value;
        }
    }

    fn step(&mut self, word: u32) -> Result<(), Stop> {
        let (rs, rt, rd, sa) = (
            word >> 21 & 31,
            word >> 16 & 31,
            word >> 11 & 31,
            word >> 6 & 31,
        );
        let (s, t) = (self.registers[rs as usize], self.registers[rt as usize]);
        let half = word & 0xffff;
        let signed = half as u16 as i16 as i32;
        let next = self.pc.wrapping_add(4);
        let branch = next.wrapping_add((signed as u32) << 2);
        let sum = |n: i32| (s as i32).checked_add(n).ok_or(Stop::Overflow);

        let mut to = next;
        match (word >> 26, word & 63) {
            _ if word == 0 => {}
            (0, 3) if rs == 0 => self.set(rd, (t as i32 >> sa) as u32),
            (0, 32) if sa == 0 => self.set(rd, sum(t as i32)? as u32),
            (0, 33) if sa == 0 => self.set(rd, s.wrapping_add(t)),
            (0, 34) if sa == 0 => {
                let difference = (s as i32).checked_sub(t as i32).ok_or(Stop::Overflow)?;
                self.set(rd, difference as u32)
            }
            (0, 35) if sa == 0 => self.set(rd, s.wrapping_sub(t)),
            (0, 38) if sa == 0 => self.set(rd, s ^ t),
            (0, 39) if sa == 0 => self.set(rd, !(s | t)),
            (0, 42) if sa == 0 => self.set(rd, ((s as i32) < t as i32) as u32),
            (0, 43) if sa == 0 => self.set(rd, (s < t) as u32),
            (2, _) => to = next & 0xf000_0000 | (word & 0x03ff_ffff) << 2,
            (4, _) if s == t => to = branch,
            (5, _) if s != t => to = branch,
            (4 | 5, _) => {}
            (8, _) => self.set(rt, sum(signed)? as u32),
            (9, _) => self.set(rt, s.wrapping_add(signed as u32)),
            (13, _) => self.set(rt, s | half),
            (14, _) => self.set(rt, s ^ half),
            (15, _) if rs == 0 => self.set(rt, half << 16),
            _ => return Err(Stop::Word),
        }
        self.pc = to;

        Ok(())
    }

    fn run(&mut self, regions: &[Region], allowance: u32) -> (Stop, u32) {
        for steps in 0..allowance {
            let Some(word) = word(regions, self.pc) else {
                return (Stop::Pc, steps);
            };
            if let Err(stop) = self.step(word) {
                return (stop, steps);
            }
        }

        (Stop::Allowance, allowance)
    }
}

fn refused(input: &RunInput, number: u32, b: u32) -> RunOutcome {
    RunOutcome {
        answer: Answer {
            number,
            b,
            ..Answer::accepted(input.pc)
        },
        registers: input.registers.clone(),
    }
}

/// The outcome of a whole call.
pub fn dry_run(input: &RunInput) -> RunOutcome {
    let mut faults = Faults::new();
    let list = List::of(&input.regions, 0, 35, |body| body.len() >= 4, &mut faults);
    list.at_most(16, &mut faults);
    if input.regions.is_empty() {
        faults.add(0, 0);
    }
    if let Some((_, place)) = faults.least() {
        return refused(input, 1, place);
    }

    let regions: Vec<Region> = list
        .records
        .iter()
        .map(|(_, _, body)| Region {
            address: u32_at(body, 0),
            data: &body[4..],
        })
        .collect();
    if input.pc % 4 != 0 || word(&regions, input.pc).is_none() {
        return refused(input, 28, 0);
    }

    let mut state = State {
        pc: input.pc,
        registers: [0; 32],
    };
    for (number, register) in state.registers.iter_mut().enumerate().skip(1) {
        *register = u32_at(&input.registers, 4 * number);
    }
    let (stop, steps) = state.run(&regions, input.allowance);

    let mut registers = input.registers.clone();
    registers[..REGISTER_BYTES].copy_from_slice(&state.registers.map(u32::to_le_bytes).concat());

    RunOutcome {
        answer: Answer {
            a: stop as u32,
            b: steps,
            ..Answer::accepted(state.pc)
        },
        registers,
    }
}
