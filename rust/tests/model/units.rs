//! Units, read with a cursor and written by appending.
use super::answers::{Parameters, UnitParts};
use super::refusals::refuse_if;
use super::{Code, Fault};

struct Cursor<'a> {
    rest: &'a [u8],
    /// The number due where the bytes end: 6 in a unit, 20 in type 1's value.
    at_end: u8,
    fault: Fault,
}

impl<'a> Cursor<'a> {
    fn part(&mut self, length: usize) -> Result<&'a [u8], u8> {
        refuse_if(length > self.rest.len(), self.at_end)?;
        let (part, rest) = self.rest.split_at(length);
        self.rest = rest;
        Ok(part)
    }

    fn byte(&mut self) -> Result<u8, u8> {
        Ok(self.part(1)?[0])
    }

    /// In its shortest form, at most five bytes and at most 4,294,967,295.
    fn sdnv(&mut self) -> Result<usize, u8> {
        let mut value = 0u64;
        for place in 1..=5 {
            let byte = self.byte().map_err(|number| self.cut_before(place).unwrap_or(number))?;
            refuse_if(byte == 0x80 && self.zero_refused(place), 19)?;
            value = value * 128 + u64::from(byte % 128);
            if byte < 128 {
                refuse_if(value > 4_294_967_295, 19)?;
                return Ok(value as usize);
            }
        }
        Err(if self.fault == Fault::TooLongSaid6 { 6 } else { 19 })
    }

    /// Whether a zero group that isn't the last is refused at this place of a number: only at the first.
    fn zero_refused(&self, place: usize) -> bool {
        match self.fault {
            Fault::LeadingZerosRead => false,
            Fault::ZeroInsideRefused => true,
            _ => place == 1,
        }
    }

    /// What a fault says where the bytes end before this place of a number.
    fn cut_before(&self, place: usize) -> Option<u8> {
        match self.fault {
            Fault::CutAfterFourSaid19 if place == 5 => Some(19),
            Fault::CutByValueSaid6 if place > 1 => Some(6),
            _ => None,
        }
    }

    /// One extension; its coding parameters if it is of type 1, which may not come again.
    fn extension(&mut self, came: bool) -> Result<Option<Parameters>, u8> {
        let kind = self.byte()?;
        let second = kind == 1 && came;
        refuse_if(kind == 0 || kind == 255 || second && self.fault != Fault::SecondType1Read, 20)?;
        let length = self.sdnv()?;
        let value = self.part(length)?;
        let parameters = if kind == 1 { Some(self.parameters(value)?) } else { None };
        refuse_if(second, 20)?;
        Ok(parameters)
    }

    /// Exactly four numbers.
    fn parameters(&self, value: &[u8]) -> Result<Parameters, u8> {
        let mut value = Cursor { rest: value, at_end: 20, fault: self.fault };
        let parameters = Parameters { w: value.sdnv()?, k: value.sdnv()?, n: value.sdnv()?, seed: value.sdnv()? };
        let more = !value.rest.is_empty();
        if more && self.fault == Fault::FifthNumberRead {
            value.sdnv()?;
        }
        refuse_if(more, 20)?;
        Ok(parameters)
    }

    /// So many extensions.
    fn extensions(&mut self, count: usize) -> Result<Option<Parameters>, u8> {
        let mut coding = None;
        for _ in 0..count {
            coding = self.extension(coding.is_some())?.or(coding);
        }
        Ok(coding)
    }
}

/// What a unit says by itself, or 5, 6, 19 or 20.
pub fn read(unit: &[u8], fault: Fault) -> Result<UnitParts, u8> {
    let &[first, count, lwc_high, lwc_low, lsc_high, lsc_low, ref rest @ ..] = unit else { return Err(5) };
    refuse_if(first / 16 != 1 || first % 2 != 0 || count == 0, 5)?;
    let mut cursor = Cursor { rest, at_end: 6, fault };
    let coding = cursor.extensions(count.into())?;
    Ok(UnitParts {
        protocol: usize::from(first % 16 / 2),
        count: count.into(),
        lwc: u16::from_be_bytes([lwc_high, lwc_low]).into(),
        lsc: u16::from_be_bytes([lsc_high, lsc_low]).into(),
        symbol: unit.len() - cursor.rest.len(),
        coding,
    })
}

/// The unit of one symbol, for numbers that fit their fields.
pub fn write(code: &Code, w: usize, protocol: usize, lsc: usize, lwc: usize, symbol: &[u8]) -> Vec<u8> {
    let value = [w, code.k, code.n, 0].map(sdnv).concat();
    let mut unit = vec![0x10 | (protocol as u8) << 1, 1];
    unit.extend((lwc as u16).to_be_bytes());
    unit.extend((lsc as u16).to_be_bytes());
    unit.push(1);
    unit.extend(sdnv(value.len()));
    unit.extend(value);
    unit.extend(symbol);
    unit
}

/// The shortest SDNV of a number.
pub fn sdnv(value: usize) -> Vec<u8> {
    let mut groups = vec![(value % 128) as u8];
    let mut rest = value / 128;
    while rest > 0 {
        groups.push((rest % 128) as u8 | 0x80);
        rest /= 128;
    }
    groups.reverse();
    groups
}
