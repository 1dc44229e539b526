//! Operand reading of the second implementation: by token numbers, from document 01's section on
//! tokens. `at` is the position; it may run past the end, as the answer takes the smaller.

use crate::second_list::Bytes;

pub struct Token {
    pub kind: u16,
    pub location: (u32, u32),
    /// The number that the token carries: a register, or an integer's 64 bits.
    pub number: u64,
    pub text: Vec<u8>,
}

/// A refusal while an operand is read. Without a location it takes the mnemonic's.
pub struct Stop {
    pub number: u32,
    pub location: Option<(u32, u32)>,
    pub a: u32,
    pub b: u32,
}

pub enum Value {
    Register(u64),
    Literal(u64),
}

#[derive(Clone)]
pub enum Label {
    Constant(u64),
    Name {
        text: Vec<u8>,
        location: (u32, u32),
        added: u64,
    },
}

pub enum Address {
    /// A label alone.
    Label(Label),
    /// A label and the register in braces behind it.
    Based(Label, u64),
}

const REGISTER: u16 = 3;
const FP_REGISTER: u16 = 4;
const INTEGER: u16 = 5;
const SYMBOL: u16 = 8;
const PLUS: u16 = 9;
const MINUS: u16 = 10;
const NEW_LINE: u16 = 13;
const LEFT_BRACE: u16 = 14;
const RIGHT_BRACE: u16 = 15;

pub struct Reader {
    tokens: Vec<Token>,
    pub at: usize,
}

impl Reader {
    /// A reader of the token records at `places`.
    pub fn new(list: &[u8], places: &[usize], at: usize) -> Reader {
        let tokens = places
            .iter()
            .map(|place| {
                let kind = list.number16(place + 2);
                let payload = &list[place + 12..place + 4 + list.number16(*place) as usize];

                Token {
                    kind,
                    location: (list.number32(place + 4), list.number32(place + 8)),
                    number: match kind {
                        REGISTER | FP_REGISTER => payload[0] as u64,
                        INTEGER => payload.number64(0),
                        _ => 0,
                    },
                    text: payload.to_vec(),
                }
            })
            .collect();

        Reader { tokens, at }
    }

    pub fn length(&self) -> usize {
        self.tokens.len()
    }

    /// "Operand reading passes over Comment and Comma only": the first number from `from` on
    /// that is neither.
    fn solid(&self, from: usize) -> usize {
        (from..self.tokens.len())
            .find(|number| !matches!(self.tokens[*number].kind, 0 | 11))
            .unwrap_or(from.max(self.tokens.len()))
    }

    fn kind_at(&self, number: usize) -> Option<u16> {
        self.tokens.get(number).map(|token| token.kind)
    }

    /// The number of the next solid token; reading goes on behind it.
    fn take(&mut self) -> Result<usize, Stop> {
        let number = self.solid(self.at);
        self.at = number + 1;

        match number < self.tokens.len() {
            true => Ok(number),
            false => Err(Stop {
                number: 4,
                location: None,
                a: 0,
                b: 0,
            }),
        }
    }

    /// Refusal 5 to 8 at a token: its location "unless that is NewLine".
    fn met(&self, refusal: u32, number: usize) -> Stop {
        let token = &self.tokens[number];
        let location = (token.kind != NEW_LINE).then_some(token.location);

        Stop {
            number: refusal,
            location,
            a: token.kind as u32,
            b: 0,
        }
    }

    fn take_kind(&mut self, kind: u16, refusal: u32) -> Result<u64, Stop> {
        let number = self.take()?;

        match self.tokens[number].kind == kind {
            true => Ok(self.tokens[number].number),
            false => Err(self.met(refusal, number)),
        }
    }

    pub fn register(&mut self) -> Result<u64, Stop> {
        self.take_kind(REGISTER, 5)
    }

    pub fn fp_register(&mut self) -> Result<u64, Stop> {
        self.take_kind(FP_REGISTER, 5)
    }

    /// A condition code takes no sign.
    pub fn code(&mut self) -> Result<u64, Stop> {
        self.take_kind(INTEGER, 6)
    }

    /// The integer that begins at token `number`, and the position behind it. "A sign must be
    /// followed by an IntegerLiteral; negation wraps at 64 bits."
    fn integer(&self, number: usize) -> Option<(u64, usize)> {
        let token = &self.tokens[number];

        if token.kind == INTEGER {
            return Some((token.number, number + 1));
        }
        if token.kind != PLUS && token.kind != MINUS {
            return None;
        }

        let second = self.solid(number + 1);
        if self.kind_at(second) != Some(INTEGER) {
            return None;
        }
        let value = self.tokens[second].number;

        Some((
            if token.kind == PLUS {
                value
            } else {
                0u64.wrapping_sub(value)
            },
            second + 1,
        ))
    }

    pub fn value(&mut self) -> Result<Value, Stop> {
        let number = self.take()?;

        if let Some((value, behind)) = self.integer(number) {
            self.at = behind;
            return Ok(Value::Literal(value));
        }

        match self.tokens[number].kind {
            REGISTER => Ok(Value::Register(self.tokens[number].number)),
            _ => Err(self.met(5, number)),
        }
    }

    /// The third operand of Inputs, if one is there. Comments and commas are passed even where
    /// it is not.
    pub fn optional_value(&mut self) -> Option<Value> {
        self.at = self.solid(self.at);
        let token = self.tokens.get(self.at)?;

        if token.kind == REGISTER {
            let register = token.number;
            self.at += 1;
            return Some(Value::Register(register));
        }

        let (value, behind) = self.integer(self.at)?;
        self.at = behind;

        Some(Value::Literal(value))
    }

    pub fn constant(&mut self) -> Result<u64, Stop> {
        let number = self.take()?;
        let (value, behind) = self.integer(number).ok_or_else(|| self.met(6, number))?;
        self.at = behind;

        Ok(value)
    }

    /// "A label is a number, or a Symbol with an optional Plus and constant."
    pub fn label(&mut self) -> Result<Label, Stop> {
        let number = self.take()?;
        self.label_at(number)
    }

    fn label_at(&mut self, number: usize) -> Result<Label, Stop> {
        if let Some((value, behind)) = self.integer(number) {
            self.at = behind;
            return Ok(Label::Constant(value));
        }
        if self.tokens[number].kind != SYMBOL {
            return Err(self.met(7, number));
        }

        let plus = self.solid(self.at);
        let mut added = 0;
        if self.kind_at(plus) == Some(PLUS) {
            self.at = plus + 1;
            added = self.constant()?;
        }
        let token = &self.tokens[number];

        Ok(Label::Name {
            text: token.text.clone(),
            location: token.location,
            added,
        })
    }

    /// "In `get_offset_or_label` a label error is dropped when the next token is LeftBrace, and
    /// the offset is then 0."
    pub fn address(&mut self) -> Result<Address, Stop> {
        let number = self.take()?;
        let label = self.label_at(number);

        self.at = self.solid(self.at);
        if self.kind_at(self.at) != Some(LEFT_BRACE) {
            return label.map(Address::Label);
        }

        self.at += 1;
        let base = self.register()?;
        self.take_kind(RIGHT_BRACE, 8)?;

        Ok(Address::Based(label.unwrap_or(Label::Constant(0)), base))
    }
}
