//! The work buffers of a close.
use alloc::vec;
use alloc::vec::Vec;
use core::fmt;

use crate::Record;

/// The two work buffers of a close. One `Work` serves any number of blocks, one after the other: those of the code and W that it was made for,
/// and all that need less; made for C2 and the largest W, blocks of every code and W. [`Work::grow`] makes it serve more.
///
/// ```
/// use lipvezor::{Block, Code, Record, Refusal, Verdict, Work};
///
/// # fn main() -> Result<(), Refusal> {
/// let record = Record::new(Code::C1, 4);
/// let mut work = Work::of(record);
/// for lsc in 1..=3 {
///     let mut block = Block::open(record.with_lsc(lsc))?;
///     assert_eq!(block.close(&mut work)?.verdict(), Verdict::Ambiguous);
/// }
///
/// let mut wider = Block::open(Record::new(Code::C1, 5))?;
/// assert_eq!(wider.close(&mut work), Err(Refusal::Length));
/// work.grow(wider.record());
/// assert_eq!(wider.close(&mut work)?.verdict(), Verdict::Ambiguous);
/// # Ok(())
/// # }
/// ```
#[derive(Clone, Default)]
pub struct Work {
    words: Vec<u64>,
    bytes: Vec<u8>,
}

impl Work {
    /// Buffers for blocks of a record's code and W. For a code or W that is refused they are empty.
    #[must_use]
    pub fn of(record: Record) -> Work {
        let (words, bytes) = sizes(record);
        Work { words: vec![0; words], bytes: vec![0; bytes] }
    }

    /// Makes the buffers longer, where that is needed to serve blocks of a record's code and W as well.
    pub fn grow(&mut self, record: Record) {
        let (words, bytes) = sizes(record);
        self.words.resize(words.max(self.words.len()), 0);
        self.bytes.resize(bytes.max(self.bytes.len()), 0);
    }

    /// As much of the two as a block needs, or all there is.
    pub(crate) fn parts(&mut self, record: Record) -> (&mut [u64], &mut [u8]) {
        let (words, bytes) = sizes(record);
        let (words, bytes) = (words.min(self.words.len()), bytes.min(self.bytes.len()));
        (&mut self.words[..words], &mut self.bytes[..bytes])
    }
}

/// Words and bytes for blocks of a record's code and W; 0 and 0 if one of these is refused.
fn sizes(record: Record) -> (usize, usize) {
    match record.work_bytes() {
        0 => (0, 0),
        bytes => (record.work_words(), bytes),
    }
}

impl fmt::Debug for Work {
    fn fmt(&self, f: &mut fmt::Formatter<'_>) -> fmt::Result {
        f.debug_struct("Work").field("words", &self.words.len()).field("bytes", &self.bytes.len()).finish()
    }
}

#[cfg(test)]
mod tests {
    use super::*;
    use crate::{Block, Code, Refusal};

    #[test]
    fn one_work_serves_smaller_blocks() {
        let mut work = Work::of(Record::new(Code::C2, 1024));
        for &code in Code::ALL {
            for w in [1, 1024] {
                let mut block = Block::open(Record::new(code, w)).unwrap();
                assert_eq!(block.close(&mut work).unwrap().report().heard, 0);
            }
        }
        let mut c2 = Block::open(Record::new(Code::C2, 1)).unwrap();
        assert_eq!(c2.close(&mut Work::of(Record::new(Code::C1, 1024))), Err(Refusal::Length));
    }

    #[test]
    fn a_work_grows_and_never_shrinks() {
        let mut work = Work::default();
        let sizes = |work: &Work| (work.words.len(), work.bytes.len());
        work.grow(Record::new(Code::C1, 100));
        assert_eq!(sizes(&work), (256 * 13, 256 * 100));
        work.grow(Record::new(Code::C2, 1));
        assert_eq!(sizes(&work), (1024 * 49, 256 * 100));
        work.grow(Record::new(Code::C2, 1025));
        work.grow(Record::new(Code::from_number(255), 1));
        assert_eq!(sizes(&work), (1024 * 49, 256 * 100));
    }

    #[test]
    fn for_numbers_that_are_refused_it_is_empty() {
        for (code, w) in [(Code::from_number(0), 1), (Code::C1, 0), (Code::C2, 1025), (Code::C2, usize::MAX / 1024)] {
            let work = Work::of(Record::new(code, w));
            assert_eq!((work.words.capacity(), work.bytes.capacity()), (0, 0));
        }
    }
}
