//! The words of the second implementation: bases, field writes and the loading of constants and
//! labels, from document 01's section on words.

use crate::second_reader::{Address, Label, Stop, Value};

/// A word and, where the builder is to patch it, the patch kind and the label; and whether it is
/// there to load a constant.
pub struct Word {
    pub bits: u32,
    pub patch: Option<(u8, Label)>,
    pub loads: bool,
}

pub type Words = Result<Vec<Word>, Stop>;

pub const AT: u64 = 1;
pub const BRANCH: u8 = 0;
pub const JUMP: u8 = 1;
const LOWER: u8 = 2;
const UPPER: u8 = 3;

/// Places of the five-bit fields.
pub const SA: u32 = 6;
pub const RD: u32 = 11;
pub const RT: u32 = 16;
pub const RS: u32 = 21;

/// A descriptor's opcode or one written out in the Rust: class and key.
#[derive(Clone, Copy)]
pub struct Base(pub u8, pub u8);

pub const fn op(key: u8) -> Base {
    Base(0, key)
}

pub const fn func(key: u8) -> Base {
    Base(1, key)
}

/// A word begun from its base and written field by field; a write clears five bits and then
/// adds every bit of its value, so that a value over 31 spills upward.
#[derive(Clone, Copy)]
pub struct Begun(u32);

impl Begun {
    /// "Bases: Op key×2^26; Func key; Special key×2^16 + 2^26; Algebra key + 28×2^26; Cop1 key +
    /// 17×2^26 (keys modulo 64); Cop1I key×2^21 + 17×2^26 (modulo 32)."
    pub fn of(Base(class, key): Base) -> Begun {
        let key = key as u32 % 64;

        Begun(match class {
            0 => key * (1 << 26),
            1 => key,
            2 => key * (1 << 16) + (1 << 26),
            3 => key + 28 * (1 << 26),
            4 => key + 17 * (1 << 26),
            _ => key % 32 * (1 << 21) + 17 * (1 << 26),
        })
    }

    pub fn field(self, place: u32, value: u64) -> Begun {
        Begun(self.0 & !(31 << place) | (value as u32) << place)
    }

    pub fn immediate(self, value: u64) -> Begun {
        Begun(self.0 / 0x10000 * 0x10000 + (value % 0x10000) as u32)
    }

    pub fn done(self) -> Word {
        Word {
            bits: self.0,
            patch: None,
            loads: false,
        }
    }

    pub fn patched(self, kind: u8, label: Label) -> Word {
        Word {
            bits: self.0,
            patch: Some((kind, label)),
            loads: false,
        }
    }
}

/// "Loading a constant takes its low 32 bits. Read signed, -32,768 to 32,767 gives addiu.
/// Otherwise lui if the upper half is nonzero, then ori if the lower is."
pub fn load(constant: u64, register: u64) -> Vec<Word> {
    let mut words = loading(constant, register);
    words.iter_mut().for_each(|word| word.loads = true);

    words
}

fn loading(constant: u64, register: u64) -> Vec<Word> {
    let low = constant as u32;
    let (upper, lower) = (low as u64 >> 16, low as u64 & 0xffff);

    if low < 0x8000 || low >= 0xffff_8000 {
        return vec![Begun::of(op(9)).field(RT, register).immediate(lower).done()];
    }

    let mut words = vec![];
    if upper > 0 {
        words.push(
            Begun::of(op(15))
                .field(RT, register)
                .immediate(upper)
                .done(),
        );
    }
    if lower > 0 {
        let from = if upper > 0 { register } else { 0 };
        let ori = Begun::of(op(13)).field(RT, register).field(RS, from);
        words.push(ori.immediate(lower).done());
    }

    words
}

/// How a line's constant is loaded, from the words that load it: 0 none, 1 addiu, 2 ori, 3 lui,
/// 4 both halves.
pub fn form(words: &[Word]) -> u32 {
    let loading: Vec<&Word> = words.iter().filter(|word| word.loads).collect();

    match loading[..] {
        [] => 0,
        [word] => match word.bits >> 26 {
            9 => 1,
            13 => 2,
            _ => 3,
        },
        _ => 4,
    }
}

/// The register that holds a value, and the words that put it there.
pub fn held(value: Value) -> (u64, Vec<Word>) {
    match value {
        Value::Register(register) => (register, vec![]),
        Value::Literal(constant) => (AT, load(constant, AT)),
    }
}

pub fn load_label(label: Label, register: u64) -> Vec<Word> {
    if let Label::Constant(constant) = label {
        return load(constant, register);
    }
    let lui = Begun::of(op(15)).field(RT, register);
    let ori = Begun::of(op(13)).field(RT, register).field(RS, register);

    vec![lui.patched(UPPER, label.clone()), ori.patched(LOWER, label)]
}

fn fits(constant: u64) -> bool {
    (-32_768..=32_767).contains(&(constant as i64))
}

/// The base register and immediate of an access, and the words before it.
pub fn reach(address: Address) -> (u64, u64, Vec<Word>) {
    match address {
        Address::Based(Label::Constant(constant), base) if fits(constant) => {
            (base, constant, vec![])
        }
        Address::Based(label, base) => {
            let mut words = load_label(label, AT);
            words.push(
                Begun::of(func(32))
                    .field(RD, AT)
                    .field(RS, AT)
                    .field(RT, base)
                    .done(),
            );
            (AT, 0, words)
        }
        Address::Label(label) => (AT, 0, load_label(label, AT)),
    }
}

pub fn then(mut words: Vec<Word>, last: impl IntoIterator<Item = Word>) -> Words {
    words.extend(last);
    Ok(words)
}

pub fn one(word: Begun) -> Words {
    Ok(vec![word.done()])
}

pub fn with_immediate(base: Base, other: Option<Base>, rt: u64, rs: u64, constant: u64) -> Words {
    if fits(constant) {
        return one(Begun::of(base)
            .field(RS, rs)
            .field(RT, rt)
            .immediate(constant));
    }

    match other {
        Some(other) => {
            let last = Begun::of(other).field(RS, rs).field(RD, rt).field(RT, AT);
            then(load(constant, AT), [last.done()])
        }
        None => Err(Stop {
            number: 9,
            location: None,
            a: (-8000i32) as u32,
            b: 32767,
        }),
    }
}
