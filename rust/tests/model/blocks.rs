//! A block as a list of calls: all follows from the units admitted so far and the last verdict.
use super::answers::{Report, Taken};
use super::refusals::{refuse_if, Record};
use super::{closing, Code, Fault};

pub struct Block {
    record: Record,
    code: &'static Code,
    fault: Fault,
    /// The symbol of the first admitted unit of each position.
    kept: Vec<Option<Vec<u8>>>,
    symbols: Vec<u8>,
    marks: Vec<u8>,
}

impl Block {
    pub fn open(record: Record, fault: Fault) -> Result<Block, u8> {
        let code = record.code_to_label()?;
        record.fill_and_length(code, true, fault)?;
        Ok(Block { record, code, fault, kept: vec![None; code.n], symbols: vec![0; code.n * record.w], marks: vec![0; code.n] })
    }

    pub fn take(&mut self, unit: &[u8]) -> Result<Taken, u8> {
        let unit = self.record.admit(self.code, unit, self.fault)?;
        match &self.kept[unit.position] {
            Some(symbol) if *symbol == unit.symbol => Ok(Taken::Repeated),
            Some(_) => Err(12),
            None => {
                self.symbols[unit.position * self.record.w..][..self.record.w].copy_from_slice(&unit.symbol);
                self.marks[unit.position] = 1;
                self.kept[unit.position] = Some(unit.symbol);
                Ok(Taken::Kept)
            }
        }
    }

    /// With work buffers of so many words and bytes.
    pub fn close(&mut self, words: usize, bytes: usize) -> Result<Report, u8> {
        refuse_if(words != self.code.work_words() || bytes != self.code.m * self.record.w, 4)?;
        let heard: Vec<Option<&[u8]>> = self.kept.iter().map(Option::as_deref).collect();
        let outcome = closing::close(self.record, self.code, &heard, self.fault);
        self.symbols = outcome.symbols;
        self.marks = outcome.marks;
        Ok(outcome.report)
    }

    /// All symbol bytes after the calls so far.
    pub fn symbols(&self) -> &[u8] {
        &self.symbols
    }

    /// All marks after the calls so far.
    pub fn marks(&self) -> &[u8] {
        &self.marks
    }
}
