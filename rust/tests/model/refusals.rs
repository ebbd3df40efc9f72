//! Which condition applies first, for any numbers and lengths.
use super::{tiles, units, Code, Fault};

/// A block's numbers, which every call is handed.
#[derive(Clone, Copy, Debug)]
pub struct Record {
    pub code: usize,
    pub w: usize,
    pub protocol: usize,
    pub lsc: usize,
    /// So many information symbols are sent. Those from here to k - 1 are idle.
    pub fill: usize,
}

/// An admitted unit.
pub struct Admitted {
    pub position: usize,
    pub symbol: Vec<u8>,
}

pub fn refuse_if(condition: bool, number: u8) -> Result<(), u8> {
    if condition {
        Err(number)
    } else {
        Ok(())
    }
}

/// Two refusals, the first of which is due; or the second, if a fault exchanges them.
fn in_order(first: Result<(), u8>, second: Result<(), u8>, exchanged: bool) -> Result<(), u8> {
    if exchanged {
        second.and(first)
    } else {
        first.and(second)
    }
}

impl Record {
    /// 1 and 2.
    pub fn code_and_width(&self) -> Result<&'static Code, u8> {
        let code = Code::of_number(self.code).ok_or(1)?;
        refuse_if(self.w == 0 || self.w > 1024, 2)?;
        Ok(code)
    }

    /// 1 to 3.
    pub fn code_to_label(&self) -> Result<&'static Code, u8> {
        let code = self.code_and_width()?;
        refuse_if(self.lsc == 0 || self.lsc >= 65535 || self.protocol > 7, 3)?;
        Ok(code)
    }

    /// 13, then 4 unless all lengths are exact.
    pub fn fill_and_length(&self, code: &Code, exact: bool, fault: Fault) -> Result<(), u8> {
        let fill = refuse_if(self.fill == 0 || self.fill > code.k, 13);
        in_order(fill, refuse_if(!exact, 4), fault == Fault::FillAfterLength)
    }

    /// Whether so many bytes are fill symbols, for a fill that may be any.
    pub fn is_information(&self, bytes: usize) -> bool {
        self.fill.checked_mul(self.w) == Some(bytes)
    }

    /// 1, 2, 15, 13, 4, 16 and 17, for so many joined bytes of tiles of these lengths, and an output of so many.
    pub fn with_tiles(&self, bytes: usize, lengths: &[usize], out: usize, fault: Fault) -> Result<(), u8> {
        let code = self.code_and_width()?;
        let fill_and_length = self.fill_and_length(code, self.is_information(out), fault);
        in_order(refuse_if(self.w < 5, 15), fill_and_length, fault == Fault::NarrowAfterFill)?;
        let overfull = match fault {
            Fault::OverfullByBytes => bytes > self.fill * (self.w - 4),
            _ => tiles::rows(self.w, lengths, fault) > self.fill as u128,
        };
        let empty = lengths.contains(&0) && fault != Fault::EmptyTileTaken;
        let sum = match fault {
            Fault::SumWraps => lengths.iter().fold(0, |sum: usize, &length| sum.wrapping_add(length)) as u128,
            _ => lengths.iter().map(|&length| length as u128).sum(),
        };
        in_order(refuse_if(empty || sum != bytes as u128, 16), refuse_if(overfull, 17), fault == Fault::OverfullFirst)
    }

    /// 1, 2, 3, 13 and 4, for the lengths of a block's buffers.
    pub fn with_buffers(&self, symbols: usize, marks: usize, fault: Fault) -> Result<&'static Code, u8> {
        let code = self.code_to_label()?;
        self.fill_and_length(code, symbols == code.n * self.w && marks == code.n, fault)?;
        Ok(code)
    }

    /// The same, for the lengths of a block's and the work buffers.
    pub fn with_work(&self, [symbols, marks, words, bytes]: [usize; 4], fault: Fault) -> Result<&'static Code, u8> {
        let code = self.code_to_label()?;
        let block = symbols == code.n * self.w && marks == code.n;
        self.fill_and_length(code, block && words == code.work_words() && bytes == code.m * self.w, fault)?;
        Ok(code)
    }

    /// Whether a position is idle.
    pub fn is_idle(&self, code: &Code, position: usize, fault: Fault) -> bool {
        match fault {
            Fault::PositionKIdle => self.fill <= position && position <= code.k,
            Fault::LastSentIdle => self.fill <= position + 1 && position < code.k,
            _ => self.fill <= position && position < code.k,
        }
    }

    /// 9, 14 and 10, for an LWC and the length of a symbol.
    pub fn sent_position(&self, code: &Code, lwc: usize, symbol: usize, fault: Fault) -> Result<usize, u8> {
        let position = code.position(lwc, fault).ok_or(9)?;
        let idle = refuse_if(self.is_idle(code, position, fault), 14);
        in_order(idle, refuse_if(symbol != self.w, 10), fault == Fault::IdleAfterSymbol)?;
        Ok(position)
    }

    /// 5 to 10, 14, 19 and 20, for a record that is not refused.
    pub fn admit(&self, code: &Code, unit: &[u8], fault: Fault) -> Result<Admitted, u8> {
        let parts = units::read(unit, fault)?;
        let coding = parts.coding.ok_or(7)?;
        refuse_if([coding.w, coding.k, coding.n, coding.seed] != [self.w, code.k, code.n, 0], 7)?;
        refuse_if(parts.lsc != self.lsc || parts.protocol != self.protocol, 8)?;
        let symbol = unit[parts.symbol..].to_vec();
        let position = self.sent_position(code, parts.lwc, symbol.len(), fault)?;
        Ok(Admitted { position, symbol })
    }
}
