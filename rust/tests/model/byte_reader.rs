//! Units read a second way: handed over byte by byte, none looked at twice or ahead. Only the unit's length is told at the start, since a
//! length that reaches past the unit is refused at its own last byte.
use super::answers::{Parameters, UnitParts};
use super::refusals::refuse_if;

/// What the next byte is.
#[derive(Clone, Copy)]
enum State {
    /// Version, protocol ID and reserved bit.
    First,
    Count,
    LwcHigh,
    LwcLow,
    LscHigh,
    LscLow,
    Type,
    /// A byte of the length, in type 1 or not.
    Length {
        coding: bool,
    },
    /// A byte of the value, in type 1 or not.
    Value {
        coding: bool,
    },
    Symbol,
}

/// A number, of which so many bytes came.
#[derive(Default)]
struct Number {
    bytes: usize,
    value: u32,
}

impl Number {
    /// The number, if this byte is its last.
    fn byte(&mut self, byte: u8) -> Result<Option<usize>, u8> {
        let last = byte & 0x80 == 0;
        self.bytes += 1;
        refuse_if(self.bytes == 1 && byte == 0x80 || self.bytes == 5 && !last, 19)?;
        // Only a fifth group can be too much for 32 bits.
        self.value = self.value.checked_mul(128).ok_or(19)? | u32::from(byte & 0x7F);
        Ok(last.then(|| std::mem::take(self).value as usize))
    }
}

/// What is known after the bytes so far.
struct ByteReader {
    state: State,
    length: usize,
    /// Bytes of the unit still to come.
    left: usize,
    extensions_left: usize,
    value_left: usize,
    number: Number,
    /// Numbers of type 1 that are finished.
    finished: usize,
    numbers: [usize; 4],
    parts: UnitParts,
}

impl ByteReader {
    fn new(length: usize) -> ByteReader {
        ByteReader {
            state: State::First,
            length,
            left: length,
            extensions_left: 0,
            value_left: 0,
            number: Number::default(),
            finished: 0,
            numbers: [0; 4],
            parts: UnitParts { protocol: 0, count: 0, lwc: 0, lsc: 0, symbol: 0, coding: None },
        }
    }

    /// The unit's next byte, unless it is refused.
    fn byte(&mut self, byte: u8) -> Result<(), u8> {
        self.left -= 1;
        let value = usize::from(byte);
        self.state = match self.state {
            State::First => {
                refuse_if(byte & 0xF1 != 0x10, 5)?;
                self.parts.protocol = value >> 1 & 7;
                State::Count
            }
            State::Count => {
                refuse_if(byte == 0, 5)?;
                self.parts.count = value;
                self.extensions_left = value;
                State::LwcHigh
            }
            State::LwcHigh => {
                self.parts.lwc = value << 8;
                State::LwcLow
            }
            State::LwcLow => {
                self.parts.lwc |= value;
                State::LscHigh
            }
            State::LscHigh => {
                self.parts.lsc = value << 8;
                State::LscLow
            }
            State::LscLow => {
                self.parts.lsc |= value;
                State::Type
            }
            State::Type => {
                let coding = byte == 1;
                refuse_if(byte == 0 || byte == 255 || coding && self.parts.coding.is_some(), 20)?;
                State::Length { coding }
            }
            State::Length { coding } => match self.number.byte(byte)? {
                None => self.state,
                Some(length) => {
                    refuse_if(length > self.left, 6)?;
                    self.value_left = length;
                    self.value_or_next(coding)?
                }
            },
            State::Value { coding } => {
                self.value_left -= 1;
                if coding {
                    self.coding_byte(byte)?;
                }
                self.value_or_next(coding)?
            }
            State::Symbol => State::Symbol,
        };
        Ok(())
    }

    fn coding_byte(&mut self, byte: u8) -> Result<(), u8> {
        refuse_if(self.finished == 4, 20)?;
        if let Some(number) = self.number.byte(byte)? {
            self.numbers[self.finished] = number;
            self.finished += 1;
        }
        Ok(())
    }

    /// Goes on with the value, or after it.
    fn value_or_next(&mut self, coding: bool) -> Result<State, u8> {
        if self.value_left > 0 {
            return Ok(State::Value { coding });
        }
        if coding {
            refuse_if(self.finished < 4, 20)?;
            let [w, k, n, seed] = self.numbers;
            self.parts.coding = Some(Parameters { w, k, n, seed });
        }
        self.extensions_left -= 1;
        if self.extensions_left > 0 {
            return Ok(State::Type);
        }
        self.parts.symbol = self.length - self.left;
        Ok(State::Symbol)
    }

    /// What was read, if the unit may end here.
    fn end(self) -> Result<UnitParts, u8> {
        match self.state {
            State::Symbol => Ok(self.parts),
            State::Type | State::Length { .. } | State::Value { .. } => Err(6),
            _ => Err(5),
        }
    }
}

/// A refusal and the index of the byte that decided it; the unit's length if its end did.
pub struct Refused {
    pub number: u8,
    pub at: usize,
}

/// As `read`, with the byte that decides.
pub fn decide(unit: &[u8]) -> Result<UnitParts, Refused> {
    let mut reader = ByteReader::new(unit.len());
    for (at, &byte) in unit.iter().enumerate() {
        reader.byte(byte).map_err(|number| Refused { number, at })?;
    }
    reader.end().map_err(|number| Refused { number, at: unit.len() })
}

/// What a unit says by itself, or 5, 6, 19 or 20.
pub fn read(unit: &[u8]) -> Result<UnitParts, u8> {
    decide(unit).map_err(|refused| refused.number)
}
