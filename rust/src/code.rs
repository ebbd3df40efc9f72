//! The codes.
use core::fmt;

use crate::{ffi, Refusal};

/// A code, by its number. It has k information symbols in a block, m parity symbols and n = k + m in all.
///
/// | code | k | m | n | rate k / n | loss |
/// |---|---|---|---|---|---|
/// | [`C1`](Code::C1) | 512 | 256 | 768 | 2/3 | 27 % |
/// | [`C4`](Code::C4) | 512 | 128 | 640 | 4/5 | 15 % |
/// | [`C7`](Code::C7) | 512 | 64 | 576 | 8/9 | 7 % |
/// | [`C2`](Code::C2) | 2,048 | 1,024 | 3,072 | 2/3 | 30 % |
/// | [`C5`](Code::C5) | 2,048 | 512 | 2,560 | 4/5 | 17 % |
/// | [`C8`](Code::C8) | 2,048 | 256 | 2,304 | 8/9 | 9 % |
///
/// Loss: if each unit is lost with this probability, independently of the others, at most about 1 block in 1,000 does not close whole.
///
/// # Which one
///
/// *The rate* says how much of what is sent is information. A higher one sends less parity and fills fewer losses: a block of which more than m
/// units are lost never closes whole, and that is a third of them at rate 2/3, a fifth at 4/5 and a ninth at 8/9.
///
/// *Of two codes with the same rate*, the one with k 2,048 comes closer to that limit, as the share of units lost varies less from block to block
/// where a block has more of them. The one with k 512 takes a quarter of the memory, and a fifteenth of the [work words](Code::work_words); and
/// its block can be closed after a quarter of the units.
///
/// Sender and receiver need not agree beforehand: a unit says its k and n, and a [`Receiver`](crate::Receiver) takes blocks of all codes. What tells
/// codes with the same k apart is n, and a block of one code refuses the units of another.
///
/// ```
/// use lipvezor::{Block, Code, Codeword, Record, Refusal, Work};
///
/// # fn main() -> Result<(), Refusal> {
/// // The highest rate at which a fifteenth of the units may be lost, with room for twice as many, in blocks of 512 symbols.
/// let code = [Code::C7, Code::C4, Code::C1].into_iter().find(|code| code.m() >= 2 * code.n() / 15).unwrap();
/// assert_eq!((code, code.n(), code.k(), code.m()), (Code::C4, 640, 512, 128));
///
/// let sent = Codeword::encode(Record::new(code, 2), [0x5A; 1024])?;
/// let mut block = Block::open(sent.record())?;
/// for lwc in sent.lwcs().filter(|lwc| lwc % 15 != 0) {
///     block.take(&sent.unit(lwc)?)?;
/// }
/// assert_eq!(block.close(&mut Work::of(sent.record()))?.to_string(), "whole: heard 598, filled 42, left 0");
///
/// let mut other = Block::open(Record::new(Code::C1, 2))?;
/// assert_eq!(other.take(&sent.unit(1)?), Err(Refusal::Parameters));
/// # Ok(())
/// # }
/// ```
///
/// # Numbers
///
/// They are the standard's; its C3, C6 and C9 are not here. [`Code::from_number`] takes any number: a call that is handed one that is no code's
/// answers [`Refusal::Code`], and the sizes below are 0 for it. `Code::try_from` refuses it at once. Sizes that depend on W are
/// [`Record`](crate::Record)'s.
///
/// ```
/// use lipvezor::{Code, Refusal};
///
/// assert_eq!(Code::of(2048, 2560), Some(Code::C5));
/// assert_eq!(Code::try_from(5), Ok(Code::C5));
/// assert_eq!(Code::C5.to_string(), "C5");
///
/// assert_eq!(Code::from_number(3).n(), 0);
/// assert_eq!(Code::try_from(3), Err(Refusal::Code));
/// ```
#[derive(Clone, Copy, Debug, PartialEq, Eq, PartialOrd, Ord, Hash)]
#[repr(transparent)]
pub struct Code(usize);

impl Code {
    /// k 512, m 256, n 768: rate 2/3.
    pub const C1: Code = Code(1);
    /// k 2048, m 1024, n 3072: rate 2/3.
    pub const C2: Code = Code(2);
    /// k 512, m 128, n 640: rate 4/5.
    pub const C4: Code = Code(4);
    /// k 2048, m 512, n 2560: rate 4/5.
    pub const C5: Code = Code(5);
    /// k 512, m 64, n 576: rate 8/9.
    pub const C7: Code = Code(7);
    /// k 2048, m 256, n 2304: rate 8/9.
    pub const C8: Code = Code(8);
    /// The codes that no call refuses.
    pub const ALL: &'static [Code] = &[Code::C1, Code::C2, Code::C4, Code::C5, Code::C7, Code::C8];

    /// The code of a number, which may be any: calls refuse what is no code's.
    #[inline]
    #[must_use]
    pub const fn from_number(number: usize) -> Code {
        Code(number)
    }

    /// Its number, as in the C header.
    #[inline]
    #[must_use]
    pub const fn number(self) -> usize {
        self.0
    }

    /// The code with these k and n, as a unit's [`Parameters`](crate::Parameters) have them.
    #[must_use]
    pub fn of(k: usize, n: usize) -> Option<Code> {
        Code::ALL.iter().copied().find(|code| (code.k(), code.n()) == (k, n))
    }

    /// Symbols of a block.
    #[inline]
    #[must_use]
    pub fn n(self) -> usize {
        ffi::n(self.0)
    }

    /// Information symbols.
    #[inline]
    #[must_use]
    pub fn k(self) -> usize {
        ffi::k(self.0)
    }

    /// Parity symbols.
    #[inline]
    #[must_use]
    pub fn m(self) -> usize {
        ffi::m(self.0)
    }

    /// 64-bit words of close's first work buffer.
    #[inline]
    #[must_use]
    pub fn work_words(self) -> usize {
        ffi::work_words(self.0)
    }
}

/// Refuses a number that is no code's, with [`Refusal::Code`].
impl TryFrom<usize> for Code {
    type Error = Refusal;

    fn try_from(number: usize) -> Result<Code, Refusal> {
        Code::ALL.iter().copied().find(|code| code.0 == number).ok_or(Refusal::Code)
    }
}

impl From<Code> for usize {
    fn from(code: Code) -> usize {
        code.0
    }
}

/// `C1`; where the number is no code's, `code 255`.
impl fmt::Display for Code {
    fn fmt(&self, f: &mut fmt::Formatter<'_>) -> fmt::Result {
        match *self {
            Code::C1 => f.pad("C1"),
            Code::C2 => f.pad("C2"),
            Code::C4 => f.pad("C4"),
            Code::C5 => f.pad("C5"),
            Code::C7 => f.pad("C7"),
            Code::C8 => f.pad("C8"),
            Code(number) => write!(f, "code {number}"),
        }
    }
}

#[cfg(all(test, feature = "alloc"))]
mod tests {
    use alloc::format;
    use alloc::string::ToString;

    use super::*;

    /// Numbers that are no code's, the standard's others among them.
    const OTHERS: [usize; 9] = [0, 3, 6, 9, 10, 255, 257, (1 << 32) + 1, usize::MAX];

    #[test]
    fn codes_are_those_of_table_4_1() {
        let rows = Code::ALL.iter().map(|code| (code.number(), code.n(), code.k(), code.m()));
        let due =
            [(1, 768, 512, 256), (2, 3072, 2048, 1024), (4, 640, 512, 128), (5, 2560, 2048, 512), (7, 576, 512, 64), (8, 2304, 2048, 256)];
        assert!(rows.eq(due));
    }

    #[test]
    fn a_code_is_found_by_k_and_n() {
        for &code in Code::ALL {
            assert_eq!(Code::of(code.k(), code.n()), Some(code));
            for &other in Code::ALL {
                assert_eq!(Code::of(code.k(), other.n()).is_some(), other.k() == code.k());
            }
        }
        for (k, n) in [(0, 0), (511, 768), (512, 769), (768, 512), (16_384, 24_576), (usize::MAX, usize::MAX)] {
            assert_eq!(Code::of(k, n), None, "{k} {n}");
        }
    }

    #[test]
    fn a_number_is_a_code_or_refused() {
        for &code in Code::ALL {
            assert_eq!((Code::try_from(code.number()), Code::from_number(code.number())), (Ok(code), code));
        }
        for number in OTHERS {
            assert_eq!(Code::try_from(number), Err(Refusal::Code));
            let code = Code::from_number(number);
            assert_eq!((code.number(), usize::from(code)), (number, number));
            assert_eq!((code.n(), code.k(), code.m(), code.work_words()), (0, 0, 0, 0));
        }
    }

    #[test]
    fn a_code_is_shown_by_its_name() {
        for &code in Code::ALL {
            assert_eq!(code.to_string(), format!("C{}", code.number()));
            assert_eq!(format!("{code:>4}|{code:<4}"), format!("  {code}|{code}  "));
        }
        for number in OTHERS {
            assert_eq!(Code::from_number(number).to_string(), format!("code {number}"));
        }
    }
}
