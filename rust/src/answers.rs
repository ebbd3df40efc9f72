//! What take and close answer.
use core::fmt;

use crate::Refusal;

/// What take did with a unit that it did not refuse.
///
/// ```
/// use lipvezor::{Block, Code, Codeword, Record, Taken};
///
/// # fn main() -> Result<(), lipvezor::Refusal> {
/// let record = Record::new(Code::C1, 1);
/// let unit = Codeword::encode(record, [0; 512])?.unit(1)?;
/// let mut block = Block::open(record)?;
/// assert_eq!(block.take(&unit)?, Taken::Kept);
/// assert_eq!(block.take(&unit)?, Taken::Repeated);
/// # Ok(())
/// # }
/// ```
#[non_exhaustive]
#[derive(Clone, Copy, Debug, PartialEq, Eq, Hash)]
pub enum Taken {
    /// The symbol is kept: its position is heard from now on.
    Kept,
    /// Heard before with the same bytes; nothing changed.
    Repeated,
}

impl fmt::Display for Taken {
    fn fmt(&self, f: &mut fmt::Formatter<'_>) -> fmt::Result {
        f.pad(match self {
            Taken::Kept => "kept",
            Taken::Repeated => "repeated",
        })
    }
}

/// How many codewords agree with the symbols heard.
///
/// ```
/// use lipvezor::{calls, Block, Code, Record, Verdict, Work};
///
/// # fn main() -> Result<(), lipvezor::Refusal> {
/// // C2's last parity symbol is zero in every codeword; a unit brings another there
/// let record = Record::new(Code::C2, 1);
/// let mut unit = vec![0; record.unit_bytes()];
/// calls::write(&record, 3072, &[1], &mut unit)?;
/// let mut block = Block::open(record)?;
/// block.take(&unit)?;
/// let closed = block.close(&mut Work::of(record))?;
/// assert_eq!(closed.verdict(), Verdict::Inconsistent);
/// assert_eq!(closed.verdict().to_string(), "inconsistent");
/// # Ok(())
/// # }
/// ```
#[non_exhaustive]
#[derive(Clone, Copy, Debug, PartialEq, Eq, Hash)]
pub enum Verdict {
    /// Just one: every symbol is there.
    Whole,
    /// Two or more: the symbols on which they all agree are filled.
    Ambiguous,
    /// None: a symbol was heard that was not sent. Nothing is filled.
    Inconsistent,
}

impl fmt::Display for Verdict {
    fn fmt(&self, f: &mut fmt::Formatter<'_>) -> fmt::Result {
        f.pad(match self {
            Verdict::Whole => "whole",
            Verdict::Ambiguous => "ambiguous",
            Verdict::Inconsistent => "inconsistent",
        })
    }
}

/// What close found: its verdict, and how many positions were heard, how many it filled, and how many are left missing. The three counts add up
/// to fill + m, which is n for a full block: idle positions are not counted.
///
/// ```
/// use lipvezor::{Block, Code, Record, Work};
///
/// # fn main() -> Result<(), lipvezor::Refusal> {
/// let record = Record::new(Code::C2, 8);
/// let report = Block::open(record)?.close(&mut Work::of(record))?.report();
/// assert_eq!(report.heard + report.filled + report.left, record.sent());
/// assert_eq!(report.to_string(), "ambiguous: heard 0, filled 1, left 3071");
/// # Ok(())
/// # }
/// ```
#[must_use]
#[non_exhaustive]
#[derive(Clone, Copy, Debug, PartialEq, Eq, Hash)]
pub struct Report {
    /// The verdict.
    pub verdict: Verdict,
    /// Positions that were heard.
    pub heard: usize,
    /// Positions that this close filled.
    pub filled: usize,
    /// Positions that are left missing.
    pub left: usize,
}

impl fmt::Display for Report {
    fn fmt(&self, f: &mut fmt::Formatter<'_>) -> fmt::Result {
        write!(f, "{}: heard {}, filled {}, left {}", self.verdict, self.heard, self.filled, self.left)
    }
}

/// What a block has at a position. An idle position has no mark: it is neither heard nor missing. (As a byte of the raw buffers it is 0.)
///
/// ```
/// use lipvezor::{Block, Code, Mark, Record, Refusal, Work};
///
/// # fn main() -> Result<(), Refusal> {
/// // In every codeword of C2 the last parity symbol is zero, so close fills it although nothing was heard.
/// let record = Record::new(Code::C2, 1);
/// let mut block = Block::open(record)?;
/// let _ = block.close(&mut Work::of(record))?;
/// assert_eq!(block.mark(3070), Some(Mark::Missing));
/// assert_eq!(block.mark(3071), Some(Mark::Filled));
/// assert_eq!(block.mark(3072), None);
/// assert!(block.mark(0).is_some_and(Mark::is_missing));
///
/// // as a byte of a block's marks
/// assert_eq!(Mark::try_from(2), Ok(Mark::Filled));
/// assert_eq!(Mark::try_from(255), Err(Refusal::Mark));
/// assert_eq!(u8::from(Mark::Heard), 1);
/// # Ok(())
/// # }
/// ```
#[non_exhaustive]
#[derive(Clone, Copy, Debug, PartialEq, Eq, Hash)]
#[repr(u8)]
pub enum Mark {
    /// No unit brought the symbol, and no close filled it.
    Missing = 0,
    /// Taken from a unit.
    Heard = 1,
    /// Filled by close.
    Filled = 2,
}

impl Mark {
    /// Whether no symbol is there: none was heard, and the last close filled none.
    #[inline]
    #[must_use]
    pub const fn is_missing(self) -> bool {
        match self {
            Mark::Missing => true,
            Mark::Heard | Mark::Filled => false,
        }
    }

    /// Whether the last close filled the position.
    #[inline]
    #[must_use]
    pub const fn is_filled(self) -> bool {
        match self {
            Mark::Filled => true,
            Mark::Missing | Mark::Heard => false,
        }
    }
}

/// The mark of a byte. Refuses one that is no mark, with [`Refusal::Mark`].
impl TryFrom<u8> for Mark {
    type Error = Refusal;

    #[inline]
    fn try_from(byte: u8) -> Result<Mark, Refusal> {
        match byte {
            0 => Ok(Mark::Missing),
            1 => Ok(Mark::Heard),
            2 => Ok(Mark::Filled),
            _ => Err(Refusal::Mark),
        }
    }
}

impl From<Mark> for u8 {
    fn from(mark: Mark) -> u8 {
        mark as u8
    }
}

impl fmt::Display for Mark {
    fn fmt(&self, f: &mut fmt::Formatter<'_>) -> fmt::Result {
        f.pad(match self {
            Mark::Missing => "missing",
            Mark::Heard => "heard",
            Mark::Filled => "filled",
        })
    }
}

#[cfg(all(test, feature = "alloc"))]
mod tests {
    use alloc::string::ToString;

    use super::*;

    #[test]
    fn a_mark_is_its_byte() {
        for byte in 0..=u8::MAX {
            match Mark::try_from(byte) {
                Ok(mark) => assert_eq!((u8::from(mark), mark.is_missing(), mark.is_filled()), (byte, byte == 0, byte == 2)),
                Err(refusal) => assert!(refusal == Refusal::Mark && byte > 2),
            }
        }
    }

    #[test]
    fn answers_are_shown_in_words() {
        assert_eq!([Mark::Missing, Mark::Heard, Mark::Filled].map(|mark| mark.to_string()), ["missing", "heard", "filled"]);
        assert_eq!([Taken::Kept, Taken::Repeated].map(|taken| taken.to_string()), ["kept", "repeated"]);
        let verdicts = [Verdict::Whole, Verdict::Ambiguous, Verdict::Inconsistent];
        assert_eq!(verdicts.map(|verdict| verdict.to_string()), ["whole", "ambiguous", "inconsistent"]);
        let report = Report { verdict: Verdict::Whole, heard: 668, filled: 100, left: 0 };
        assert_eq!(report.to_string(), "whole: heard 668, filled 100, left 0");
    }
}
