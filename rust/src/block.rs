//! A block on the ground, with its buffers.
#[cfg(feature = "alloc")]
use alloc::{vec, vec::Vec};
use core::fmt;

use crate::calls::{self, Buffers};
#[cfg(feature = "alloc")]
use crate::Work;
use crate::{Closed, Mark, Missing, Record, Refusal, Taken};

/// A block on the ground: its record, and two buffers, symbols and marks, which it owns (`Block`) or borrows (`Block<&mut [u8]>`; any two types
/// that lend their bytes will do).
///
/// Units are taken in any order and any number of times. A block may be closed more than once, with more units taken in between. Positions
/// count from 0: position i holds the symbol of LWC i + 1, information symbols first. What a close recovered comes from its answer,
/// [`Closed`], and from nowhere else. Of a [short block](Record#a-short-block) the positions from fill to k - 1 are idle: neither heard nor
/// missing.
///
/// ```
/// use lipvezor::{Block, Code, Codeword, Record, Refusal, Taken, Work};
///
/// # fn main() -> Result<(), Refusal> {
/// let record = Record::new(Code::C1, 2).with_protocol(1).with_lsc(7);
/// let sent = Codeword::encode(record, [0x5A; 1024])?;
/// let mut block = Block::open(record)?;
/// for lwc in sent.lwcs().skip(2).rev() {
///     assert_eq!(block.take(&sent.unit(lwc)?)?, Taken::Kept);
/// }
/// assert_eq!(block.take(&sent.unit(3)?)?, Taken::Repeated);
/// assert!(block.missing().eq([0, 1]));
///
/// let other = Codeword::encode(record.with_lsc(8), [0x5A; 1024])?;
/// assert_eq!(block.take(&other.unit(1)?), Err(Refusal::Foreign));
///
/// let closed = block.close(&mut Work::of(record))?;
/// assert_eq!(closed.to_string(), "whole: heard 766, filled 2, left 0");
/// assert_eq!(closed.information(), Some(sent.information()));
/// # Ok(())
/// # }
/// ```
///
/// With lent buffers nothing is allocated:
///
/// ```
/// use lipvezor::{Block, Code, Record, Verdict};
///
/// # fn main() -> Result<(), lipvezor::Refusal> {
/// const W: usize = 2;
/// let (mut symbols, mut marks) = ([0; 768 * W], [0; 768]);
/// let (mut words, mut bytes) = ([0; 256 * 13], [0; 256 * W]);
/// let mut block = Block::open_in(Record::new(Code::C1, W), &mut symbols, &mut marks)?;
/// let closed = block.close_with(&mut words, &mut bytes)?;
/// assert_eq!(closed.verdict(), Verdict::Ambiguous);
/// # Ok(())
/// # }
/// ```
#[derive(Clone, PartialEq, Eq)]
pub struct Block<#[cfg(feature = "alloc")] S = Vec<u8>, #[cfg(not(feature = "alloc"))] S, M = S> {
    record: Record,
    symbols: S,
    marks: M,
}

#[cfg(feature = "alloc")]
impl Block {
    /// Opens a block with buffers of its own, of exactly the sizes that it needs.
    ///
    /// Refusals: code, width, label, fill. For a code or width that is refused no symbol bytes are allocated.
    pub fn open(record: Record) -> Result<Block, Refusal> {
        Block::open_in(record, vec![0; record.symbol_bytes()], vec![0; record.n()])
    }
}

impl<S: AsRef<[u8]> + AsMut<[u8]>, M: AsRef<[u8]> + AsMut<[u8]>> Block<S, M> {
    /// Opens a block in given buffers: [`Record::symbol_bytes`] bytes for the symbols and [`Record::n`] for the marks. What they held is
    /// overwritten.
    ///
    /// Refusals: code, width, label, fill, length.
    pub fn open_in(record: Record, mut symbols: S, mut marks: M) -> Result<Block<S, M>, Refusal> {
        calls::open(&record, &mut Buffers::new(symbols.as_mut(), marks.as_mut()))?;
        Ok(Block { record, symbols, marks })
    }

    /// Takes one unit, without its CRC-32. Only a kept one changes the block; its symbol may take the place of a filled one.
    ///
    /// Refusals: header, extension, number, extension kind, parameters, foreign, position, idle, symbol, conflict.
    #[inline]
    pub fn take(&mut self, unit: &[u8]) -> Result<Taken, Refusal> {
        calls::take(&self.record, &mut Buffers::new(self.symbols.as_mut(), self.marks.as_mut()), unit)
    }

    /// Closes the block: each missing symbol that the heard ones determine is filled. The answer has the verdict, and the bytes that it allows.
    ///
    /// Refusals: length, if the work buffers were made for less than this block needs.
    #[cfg(feature = "alloc")]
    pub fn close(&mut self, work: &mut Work) -> Result<Closed<'_>, Refusal> {
        let (words, bytes) = work.parts(self.record);
        self.close_with(words, bytes)
    }

    /// Closes the block with lent work buffers, of exactly [`Record::work_words`] words and [`Record::work_bytes`] bytes. They may hold
    /// anything, and are all 0 after a verdict.
    ///
    /// Refusals: length.
    pub fn close_with(&mut self, words: &mut [u64], bytes: &mut [u8]) -> Result<Closed<'_>, Refusal> {
        let (symbols, marks) = (self.symbols.as_mut(), self.marks.as_mut());
        let report = calls::close(&self.record, &mut Buffers::new(symbols, marks), words, bytes)?;
        Ok(Closed::new(self.record, report, symbols, marks))
    }

    /// The block's numbers.
    #[must_use]
    pub fn record(&self) -> Record {
        self.record
    }

    /// Sets the fill. The units of a block do not carry it, so a receiver may have to open the block as a full one, and learn only later, at the
    /// latest before the close that counts, that it is short. What was taken stays. From then on calls answer, and a close leaves, what they would if the
    /// block had been opened with this fill, if that is not larger than the one before: that is proved. A larger one does not bring back units that
    /// were refused as idle; they have to come again.
    ///
    /// Symbols that were heard at positions that are idle by it no longer count, and are gone after the next close. The answer is how many these
    /// are: if any, then the fill is too small, or a unit was changed on the way.
    ///
    /// ```
    /// use lipvezor::{Block, Code, Codeword, Record, Refusal, Work};
    ///
    /// # fn main() -> Result<(), Refusal> {
    /// let full = Record::new(Code::C1, 1);
    /// let sent = Codeword::encode(full.with_fill(100), [7; 100])?;
    /// let mut block = Block::open(full)?;
    /// for unit in sent.units()?.skip(50) {
    ///     block.take(&unit)?;
    /// }
    /// let mut work = Work::of(full);
    /// assert_eq!(block.close(&mut work)?.information(), None);
    ///
    /// assert_eq!(block.set_fill(100)?, 0);
    /// let closed = block.close(&mut work)?;
    /// assert_eq!(closed.to_string(), "whole: heard 306, filled 50, left 0");
    /// assert_eq!(closed.information(), Some(&[7; 100][..]));
    ///
    /// assert_eq!(block.set_fill(513), Err(Refusal::Fill));
    /// # Ok(())
    /// # }
    /// ```
    ///
    /// # A fill that is not the sender's
    ///
    /// *Too large*: positions that the sender has idle are missing here. Nothing wrong is given out, but less is filled: a block that would have
    /// closed whole may be ambiguous.
    ///
    /// *Too small*: positions that the sender did send are taken for zeros, and their units are refused with [`Refusal::Idle`]. Where the zeros
    /// contradict the other symbols, the block is inconsistent; where they do not, it is whole or ambiguous, **and wrong**. So a fill that is
    /// not certain must rather be too large.
    ///
    /// Refusals: fill. The block then keeps the one that it had.
    pub fn set_fill(&mut self, fill: usize) -> Result<usize, Refusal> {
        let record = self.record.with_fill(fill);
        // its code and W are not refused
        if record.information_bytes() == 0 {
            return Err(Refusal::Fill);
        }
        let heard = self.idle_and_heard(record);
        self.record = record;
        Ok(heard)
    }

    /// How many positions were heard that another record has idle, and this block does not.
    fn idle_and_heard(&self, other: Record) -> usize {
        other.idle().filter(|&position| self.mark(position) == Some(Mark::Heard)).count()
    }

    /// What is at a position; `None` where it is idle, and beyond the block. A mark does not say that a symbol was sent so: only a verdict does.
    #[must_use]
    pub fn mark(&self, position: usize) -> Option<Mark> {
        let mark = *self.marks.as_ref().get(position)?;
        Mark::try_from(mark).ok().filter(|_| !self.record.is_idle(position))
    }

    /// The positions that are missing, in order: neither heard, nor filled by the last close, nor idle.
    pub fn missing(&self) -> Missing<'_> {
        Missing::new(self.record, self.marks.as_ref())
    }

    /// The raw buffers: all symbols one after the other, as they came or were filled, and a byte for each position, its [`Mark`]. Those of idle
    /// positions say nothing; after an open or a close they are 0.
    ///
    /// Not for the recovered bytes: those are [`Closed`]'s. Neither a mark nor a byte here says whether a symbol may be used; that takes the
    /// verdict of a close after which no unit was kept. After [`Verdict::Inconsistent`](crate::Verdict::Inconsistent) none of these bytes may
    /// be, although all information symbols may be marked as heard.
    #[must_use]
    pub fn raw_buffers(&self) -> (&[u8], &[u8]) {
        (self.symbols.as_ref(), self.marks.as_ref())
    }

    /// The raw buffers, symbols and marks, to use them for another block. What [`Block::raw_buffers`] says of their bytes holds here too.
    #[must_use]
    pub fn into_raw_buffers(self) -> (S, M) {
        (self.symbols, self.marks)
    }
}

impl<S, M> fmt::Debug for Block<S, M> {
    fn fmt(&self, f: &mut fmt::Formatter<'_>) -> fmt::Result {
        f.debug_struct("Block").field("record", &self.record).finish_non_exhaustive()
    }
}

#[cfg(test)]
mod lent_tests {
    use super::*;
    use crate::{Code, Codeword, Verdict, MAX_UNIT_BYTES};

    #[test]
    fn there_and_back_without_an_allocator() {
        const W: usize = 2;
        let record = Record::new(Code::C1, W).with_protocol(2).with_lsc(65_534);
        let information: [u8; 512 * W] = core::array::from_fn(|i| (i * 31 % 253) as u8);
        let mut parity = [0xEE; 256 * W];
        let sent = Codeword::encode_in(record, &information, &mut parity).unwrap();
        let (mut symbols, mut marks) = ([0xEE; 768 * W], [0xEE; 768]);
        let mut block = Block::open_in(record, &mut symbols, &mut marks).unwrap();
        let mut buffer = [0; MAX_UNIT_BYTES];
        let unit = &mut buffer[..record.unit_bytes()];
        for lwc in sent.lwcs().filter(|lwc| lwc % 4 != 1) {
            sent.write_unit(lwc, unit).unwrap();
            assert_eq!(block.take(unit), Ok(Taken::Kept));
        }
        assert!(block.missing().eq((0..768).step_by(4)));
        let (mut words, mut bytes) = ([!0; 256 * 13], [0xEE; 256 * W]);
        let closed = block.close_with(&mut words, &mut bytes).unwrap();
        let report = closed.report();
        assert_eq!((report.verdict, report.heard, report.filled, report.left), (Verdict::Whole, 576, 192, 0));
        let Closed::Whole(whole) = closed else { panic!("{closed:?}") };
        assert_eq!((whole.information(), whole.parity()), (&information[..], sent.parity()));
        assert!(words.iter().all(|&x| x == 0) && bytes.iter().all(|&x| x == 0));
        let (symbols, marks) = block.into_raw_buffers();
        assert_eq!((&symbols[..512 * W], marks[0], marks[1]), (&information[..], 2, 1));
    }
}

#[cfg(all(test, feature = "alloc"))]
mod tests {
    use super::*;
    use crate::{Code, Codeword};

    #[test]
    fn a_borrowing_block_does_as_an_owning_one() {
        let record = Record::new(Code::C1, 3).with_protocol(2).with_lsc(65_534);
        let sent = Codeword::encode(record, (0..1536).map(|i| (i * 7 % 251) as u8).collect::<Vec<u8>>()).unwrap();
        let (mut symbols, mut marks) = (vec![0xEE; 768 * 3], vec![0xEE; 768]);
        let mut owning = Block::open(record).unwrap();
        let mut borrowing = Block::open_in(record, &mut symbols[..], &mut marks[..]).unwrap();
        assert_eq!(owning.raw_buffers(), borrowing.raw_buffers());
        for unit in sent.units().unwrap().step_by(2).chain(sent.units().unwrap().skip(300).take(200)) {
            assert_eq!(owning.take(&unit), borrowing.take(&unit));
        }
        let (mut words, mut bytes) = (vec![!0; record.work_words()], vec![0xEE; record.work_bytes()]);
        let mut work = Work::of(record);
        let closed = owning.close(&mut work);
        assert_eq!(closed, borrowing.close_with(&mut words, &mut bytes));
        assert_eq!(closed.unwrap().report().heard, 484);
        assert!(words.iter().all(|&x| x == 0) && bytes.iter().all(|&x| x == 0));
        let (lent_symbols, lent_marks) = borrowing.into_raw_buffers();
        let (own_symbols, own_marks) = owning.into_raw_buffers();
        assert_eq!((&own_symbols[..], &own_marks[..]), (&*lent_symbols, &*lent_marks));
    }

    #[test]
    fn buffers_of_other_sizes_are_refused() {
        let record = Record::new(Code::C1, 1);
        for (symbols, marks) in [(767, 768), (769, 768), (768, 767), (768, 769), (0, 768), (768, 0), (3072, 3072)] {
            let (mut symbols, mut marks) = (vec![0xEE; symbols], vec![0xEE; marks]);
            assert_eq!(Block::open_in(record, &mut symbols, &mut marks).unwrap_err(), Refusal::Length);
            assert!(symbols.iter().chain(&marks).all(|&x| x == 0xEE));
        }
        let mut block = Block::open(record).unwrap();
        let (words, bytes) = (record.work_words(), record.work_bytes());
        for (words, bytes) in [(words - 1, bytes), (words + 1, bytes), (words, bytes - 1), (words, bytes + 1), (0, 0)] {
            assert_eq!(block.close_with(&mut vec![0; words], &mut vec![0; bytes]), Err(Refusal::Length));
        }
        assert_eq!(block.close(&mut Work::of(Record::new(Code::from_number(0), 1))), Err(Refusal::Length));
        assert_eq!(block.close(&mut Work::of(Record::new(Code::C1, 0))), Err(Refusal::Length));
    }

    #[test]
    fn numbers_of_any_size_are_refused_without_buffers() {
        for code in [0, 3, 255, usize::MAX].map(Code::from_number) {
            assert_eq!(Block::open(Record::new(code, 1)).unwrap_err(), Refusal::Code);
            let all = Record::new(code, usize::MAX).with_protocol(usize::MAX).with_lsc(usize::MAX);
            assert_eq!(Block::open(all).unwrap_err(), Refusal::Code);
        }
        for w in [0, 1025, 1 << 32, usize::MAX / 3072, usize::MAX] {
            for &code in Code::ALL {
                assert_eq!(Block::open(Record::new(code, w).with_protocol(usize::MAX).with_lsc(0)).unwrap_err(), Refusal::Width);
            }
        }
        for (protocol, lsc) in [(8, 1), (usize::MAX, 1), (0, 0), (0, 65_535), (0, usize::MAX)] {
            let record = Record::new(Code::C1, 1).with_protocol(protocol).with_lsc(lsc);
            assert_eq!([512, 0].map(|fill| Block::open(record.with_fill(fill)).unwrap_err()), [Refusal::Label; 2]);
        }
        for fill in [0, 513, usize::MAX] {
            let record = Record::new(Code::C1, 1).with_fill(fill);
            assert_eq!(Block::open(record).unwrap_err(), Refusal::Fill);
            // before the length
            assert_eq!(Block::open_in(record, &mut [][..], &mut [][..]).unwrap_err(), Refusal::Fill);
        }
    }

    #[test]
    fn idle_positions_are_neither_heard_nor_missing() {
        let record = Record::new(Code::C1, 1).with_fill(100);
        let full = Codeword::encode(Record::new(Code::C1, 1), [7; 512]).unwrap();
        let sent = Codeword::encode(record, [7; 100]).unwrap();
        let mut block = Block::open(record).unwrap();
        for lwc in [101, 102, 511, 512] {
            assert_eq!(block.take(&full.unit(lwc).unwrap()), Err(Refusal::Idle));
        }
        let idle = |block: &Block| (100..512).all(|position| block.mark(position).is_none());
        assert!(
            idle(&block)
                && block.missing().eq((0..100).chain(512..768))
                && block.missing().rev().eq((512..768).rev().chain((0..100).rev()))
        );
        for unit in sent.units().unwrap().skip(10) {
            block.take(&unit).unwrap();
        }
        assert!(idle(&block) && block.missing().eq(0..10));
        let mut work = Work::of(record);
        let closed = block.close(&mut work).unwrap();
        let Closed::Whole(whole) = closed else { panic!("{closed:?}") };
        assert_eq!((whole.information(), whole.parity()), (sent.information(), sent.parity()));
        assert_eq!(whole.report().heard + whole.report().filled, 356);
        assert!((0..768).all(|position| whole.symbol_at(position).is_none() == (100..512).contains(&position)));
        assert!(idle(&block) && block.missing().next().is_none());
        assert_eq!((block.mark(99), block.mark(512)), (Some(Mark::Heard), Some(Mark::Heard)));
        assert!(block.raw_buffers().1[100..512].iter().all(|&mark| mark == 0));
    }

    /// A block that learns its fill late does as one that was opened with it.
    #[test]
    fn a_fill_may_be_set_after_units_were_taken() {
        let full = Record::new(Code::C1, 2);
        let sent = Codeword::encode(full.with_fill(300), (0..600).map(|i| (i % 251) as u8).collect::<Vec<u8>>()).unwrap();
        let mut work = Work::of(full);
        for early in [0, 1, 100, 400] {
            let (mut late, mut told) = (Block::open(full).unwrap(), Block::open(full.with_fill(300)).unwrap());
            // a unit that the sender of the short block does not send
            let other = Codeword::encode(full, [9; 1024]).unwrap().unit(301).unwrap();
            assert_eq!((late.take(&other), told.take(&other)), (Ok(Taken::Kept), Err(Refusal::Idle)));
            for (i, unit) in sent.units().unwrap().enumerate().skip(100) {
                if i == early + 100 {
                    let _ = late.close(&mut work).unwrap();
                    assert_eq!((late.set_fill(510), late.set_fill(300), late.set_fill(300)), (Ok(0), Ok(1), Ok(0)));
                    assert_eq!((late.mark(300), late.record()), (None, told.record()));
                    assert!(late.missing().eq(told.missing()));
                }
                assert_eq!(late.take(&unit), told.take(&unit));
            }
            assert_eq!(late.set_fill(300), Ok(0));
            assert_eq!(late.take(&other), Err(Refusal::Idle));
            assert_eq!(late.close(&mut work), told.close(&mut Work::of(full)));
            assert_eq!(late.close(&mut work).unwrap().information(), Some(sent.information()));
            assert!(late == told);
        }
    }

    #[test]
    fn a_fill_that_is_refused_is_not_set() {
        for &code in Code::ALL {
            let mut block = Block::open(Record::new(code, 1).with_fill(7)).unwrap();
            for fill in [0, code.k() + 1, usize::MAX] {
                assert_eq!((block.set_fill(fill), block.record().fill()), (Err(Refusal::Fill), 7));
            }
            for fill in [1, code.k() - 1, code.k()] {
                assert_eq!((block.set_fill(fill), block.record().fill()), (Ok(0), fill));
            }
        }
    }

    #[test]
    fn a_block_shows_marks_and_what_is_missing() {
        let record = Record::new(Code::C1, 1);
        let sent = Codeword::encode(record, (0..512).map(|i| i as u8).collect::<Vec<u8>>()).unwrap();
        let mut block = Block::open(record).unwrap();
        for lwc in 2..=512 {
            block.take(&sent.unit(lwc).unwrap()).unwrap();
        }
        assert!(block.missing().eq((0..1).chain(512..768)));
        assert!(block.missing().rev().eq((0..1).chain(512..768).rev()));
        assert_eq!([0, 511].map(|position| block.mark(position)), [Some(Mark::Missing), Some(Mark::Heard)]);
        assert_eq!([768, 769, usize::MAX].map(|beyond| block.mark(beyond)), [None; 3]);
        // the sum of all information symbols
        block.take(&sent.unit(768).unwrap()).unwrap();
        assert!(block.close(&mut Work::of(record)).unwrap().information().is_some());
        assert_eq!((block.mark(0), block.missing().next()), (Some(Mark::Filled), None));
    }
}
