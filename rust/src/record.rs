//! A block's numbers.
use core::fmt;
use core::ops::Range;

use crate::{calls, ffi, version, Code, Lwcs};

/// A block's numbers: its code, the bytes of a symbol, its protocol ID, its LSC and its fill. Any may be put here; a call refuses those that do
/// not fit. The sizes are 0 for a code or W that is refused; [`Record::n`], [`Record::k`], [`Record::m`] and [`Record::work_words`] depend on the
/// code alone.
///
/// ```
/// use lipvezor::{Code, Record};
///
/// let record = Record::new(Code::C1, 16).with_protocol(1).with_lsc(7);
/// assert_eq!((record.code(), record.w(), record.protocol(), record.lsc()), (Code::C1, 16, 1, 7));
/// assert_eq!(record.to_string(), "C1, W 16, protocol 1, LSC 7");
/// assert_eq!(record.information_bytes(), 512 * 16);
///
/// // protocol ID 0, LSC 1 and fill k where none is named
/// assert_eq!(Record::new(Code::C1, 16), record.with_protocol(0).with_lsc(1).with_fill(512));
///
/// // a W that is refused
/// assert_eq!(Record::new(Code::C1, 1025).information_bytes(), 0);
/// ```
///
/// # A short block
///
/// A block whose information is less than k symbols, such as the last one of a scene, is not filled up with zeros that are then sent. Its fill
/// says how many information symbols it has, 1 to k. Positions fill to k - 1, that is LWC fill + 1 to k, are idle: zero for encoding and closing,
/// and never sent. Positions and LWCs of all others stay as they are, so the parity symbols have LWC k + 1 to n, whatever the fill.
///
/// ```
/// use lipvezor::{Code, Record};
///
/// let record = Record::new(Code::C1, 16);
/// assert_eq!((record.fill(), record.information_bytes(), record.sent()), (512, 512 * 16, 768));
///
/// // 1,000 bytes are 63 symbols of 16 bytes, the last one padded
/// let last = record.with_fill(1000usize.div_ceil(record.w()));
/// assert_eq!((last.fill(), last.information_bytes(), last.sent()), (63, 1008, 63 + 256));
/// assert!(last.lwcs().eq((1..=63).chain(513..=768)));
/// assert!(!last.is_idle(62) && last.is_idle(63) && last.is_idle(511) && !last.is_idle(512));
/// assert_eq!(last.to_string(), "C1, W 16, protocol 0, LSC 1, fill 63");
/// ```
///
/// A unit does not carry the fill: sender and receiver must both know it, from the scene's length or by other means. See
/// [`Block::set_fill`](crate::Block::set_fill) for a receiver that learns it late, and for what happens where the two differ.
// Laid out as lipvezor_block of the header, and lent as it is.
#[repr(C)]
#[derive(Clone, Copy, Debug, PartialEq, Eq, Hash)]
pub struct Record {
    code: Code,
    w: usize,
    protocol: usize,
    lsc: usize,
    fill: usize,
}

impl Record {
    /// The numbers of a full block of a code and W, that is of fill k, with protocol ID 0 and LSC 1.
    ///
    /// # Panics
    ///
    /// If the archive is of another version than the crate, by the first two numbers: its records have other lengths.
    #[inline]
    #[must_use]
    pub fn new(code: Code, w: usize) -> Record {
        version::check();
        Record { code, w, protocol: 0, lsc: 1, fill: code.k() }
    }

    /// The same with another protocol ID.
    #[inline]
    #[must_use]
    pub fn with_protocol(self, protocol: usize) -> Record {
        Record { protocol, ..self }
    }

    /// The same with another LSC.
    #[inline]
    #[must_use]
    pub fn with_lsc(self, lsc: usize) -> Record {
        Record { lsc, ..self }
    }

    /// The same with another fill, for a block of less than k information symbols.
    #[inline]
    #[must_use]
    pub fn with_fill(self, fill: usize) -> Record {
        Record { fill, ..self }
    }

    /// The code.
    #[inline]
    #[must_use]
    pub fn code(self) -> Code {
        self.code
    }

    /// W, the bytes of a symbol: 1 to 1,024.
    #[inline]
    #[must_use]
    pub fn w(self) -> usize {
        self.w
    }

    /// The protocol ID: 0 to 7.
    #[inline]
    #[must_use]
    pub fn protocol(self) -> usize {
        self.protocol
    }

    /// The block's number: 1 to 65,534.
    #[inline]
    #[must_use]
    pub fn lsc(self) -> usize {
        self.lsc
    }

    /// The fill, the information symbols that are sent: 1 to k.
    #[inline]
    #[must_use]
    pub fn fill(self) -> usize {
        self.fill
    }

    /// Whether a position is idle: from fill to k - 1. It is zero, and no unit is sent for it.
    #[inline]
    #[must_use]
    pub fn is_idle(self, position: usize) -> bool {
        self.idle().contains(&position)
    }

    /// The idle positions.
    #[inline]
    pub(crate) fn idle(self) -> Range<usize> {
        self.fill..self.k()
    }

    /// The LWCs of the units that are sent, in order: 1 to fill, and k + 1 to n. There are [`Record::sent`] of them.
    #[inline]
    pub fn lwcs(self) -> Lwcs {
        Lwcs::of(self)
    }

    /// The units that are sent of the block: fill + m; 0 for a code or fill that is refused.
    #[inline]
    #[must_use]
    pub fn sent(self) -> usize {
        self.lwcs().len()
    }

    /// Symbols of the block, idle ones too, and bytes of its marks.
    #[inline]
    #[must_use]
    pub fn n(self) -> usize {
        self.code.n()
    }

    /// Information symbols, idle ones too: the largest fill.
    #[inline]
    #[must_use]
    pub fn k(self) -> usize {
        self.code.k()
    }

    /// Parity symbols.
    #[inline]
    #[must_use]
    pub fn m(self) -> usize {
        self.code.m()
    }

    /// Bytes of the information, fill * W; 0 for a fill that is refused, too.
    #[inline]
    #[must_use]
    pub fn information_bytes(self) -> usize {
        ffi::information_bytes(self.code.number(), self.w, self.fill)
    }

    /// Bytes of the parity.
    #[inline]
    #[must_use]
    pub fn parity_bytes(self) -> usize {
        ffi::parity_bytes(self.code.number(), self.w)
    }

    /// Bytes of all symbols, idle ones too.
    #[inline]
    #[must_use]
    pub fn symbol_bytes(self) -> usize {
        ffi::symbol_bytes(self.code.number(), self.w)
    }

    /// Bytes of a unit.
    #[inline]
    #[must_use]
    pub fn unit_bytes(self) -> usize {
        ffi::unit_bytes(self.code.number(), self.w)
    }

    /// The rows that tiles of these lengths need, in symbols of this W: see [`calls::rows_needed`]. With this fill a block is the shortest that
    /// holds the tiles; where it is above k, they need more than one block. Code and fill do not count.
    ///
    /// ```
    /// use lipvezor::{Code, Record};
    ///
    /// let full = Record::new(Code::C1, 64);
    /// let record = full.with_fill(full.rows_needed(&[1000, 60, 61]));
    /// assert_eq!(record.fill(), 17 + 1 + 2); // rows of up to 60 bytes
    /// assert_eq!(record.sent(), 20 + 256); // of a full block 768
    /// ```
    #[inline]
    #[must_use]
    pub fn rows_needed(self, lengths: &[usize]) -> usize {
        calls::rows_needed(self.w, lengths)
    }

    /// 64-bit words of close's first work buffer.
    #[inline]
    #[must_use]
    pub fn work_words(self) -> usize {
        self.code.work_words()
    }

    /// Bytes of close's second work buffer.
    #[inline]
    #[must_use]
    pub fn work_bytes(self) -> usize {
        ffi::work_bytes(self.code.number(), self.w)
    }
}

/// `C1, W 16, protocol 1, LSC 7`; and `, fill 63`, if the block is not full.
impl fmt::Display for Record {
    fn fmt(&self, f: &mut fmt::Formatter<'_>) -> fmt::Result {
        write!(f, "{}, W {}, protocol {}, LSC {}", self.code, self.w, self.protocol, self.lsc)?;
        if self.fill == self.k() {
            return Ok(());
        }
        write!(f, ", fill {}", self.fill)
    }
}

#[cfg(test)]
mod tests {
    use core::mem::{offset_of, size_of};

    use super::*;
    use crate::{MAX_UNIT_BYTES, MAX_WIDTH};

    #[test]
    fn a_record_is_laid_out_as_the_header_has_it() {
        let word = size_of::<usize>();
        let places = [
            offset_of!(Record, code),
            offset_of!(Record, w),
            offset_of!(Record, protocol),
            offset_of!(Record, lsc),
            offset_of!(Record, fill),
        ];
        assert_eq!((places, size_of::<Record>()), ([0, word, 2 * word, 3 * word, 4 * word], 5 * word));
    }

    #[test]
    fn each_number_stands_in_its_place() {
        let record = Record::new(Code::C2, 3).with_lsc(4).with_protocol(5).with_fill(6);
        assert_eq!((record.code(), record.w(), record.protocol(), record.lsc(), record.fill()), (Code::C2, 3, 5, 4, 6));
    }

    #[cfg(feature = "alloc")]
    #[test]
    fn a_record_is_shown_in_words() {
        use alloc::string::ToString;

        assert_eq!(Record::new(Code::C2, 3).with_lsc(4).with_protocol(5).to_string(), "C2, W 3, protocol 5, LSC 4");
        assert_eq!(Record::new(Code::from_number(255), 0).to_string(), "code 255, W 0, protocol 0, LSC 1");
        for (fill, due) in [(0, ", fill 0"), (1, ", fill 1"), (2047, ", fill 2047"), (2048, ""), (2049, ", fill 2049")] {
            let full = Record::new(Code::C2, 3);
            assert_eq!(full.with_fill(fill).to_string(), full.to_string() + due);
        }
    }

    #[test]
    fn a_block_is_full_unless_a_fill_is_named() {
        for &code in Code::ALL {
            let record = Record::new(code, 5);
            assert_eq!((record.fill(), record.information_bytes(), record.sent()), (code.k(), code.k() * 5, code.n()));
            assert!(record.lwcs().eq(1..=code.n()));
            assert!([0, code.k() - 1, code.k(), code.n(), usize::MAX].iter().all(|&position| !record.is_idle(position)));
        }
        assert_eq!(Record::new(Code::from_number(3), 1).fill(), 0);
    }

    #[test]
    fn positions_from_fill_to_k_are_idle() {
        for &code in Code::ALL {
            let (n, k, m) = (code.n(), code.k(), code.m());
            for fill in [1, 2, k / 2, k - 2, k - 1] {
                let record = Record::new(code, 7).with_fill(fill);
                assert_eq!((record.information_bytes(), record.sent()), (fill * 7, fill + m));
                assert!(record.lwcs().eq((1..=fill).chain(k + 1..=n)));
                assert!((0..n + 2).all(|position| record.is_idle(position) == (fill <= position && position < k)));
                // only the information's size changes
                let sizes = [record.n(), record.k(), record.m(), record.parity_bytes(), record.symbol_bytes(), record.unit_bytes()];
                assert_eq!(sizes, [n, k, m, m * 7, n * 7, 21]);
                assert_eq!((record.work_words(), record.work_bytes()), (code.work_words(), m * 7));
            }
            for fill in [0, k + 1, n, usize::MAX / 7, usize::MAX] {
                let record = Record::new(code, 7).with_fill(fill);
                assert_eq!((record.fill(), record.information_bytes(), record.sent()), (fill, 0, 0));
                assert_eq!((record.lwcs().next(), record.lwcs().next_back()), (None, None));
                assert_eq!(record.symbol_bytes(), n * 7);
            }
        }
        let none = Record::new(Code::from_number(3), 1);
        assert_eq!([0, 1, 512].map(|fill| none.with_fill(fill).sent()), [0; 3]);
    }

    #[test]
    fn each_tile_has_rows_of_its_own() {
        let rows = |w: usize, lengths: &[usize]| {
            // neither code nor fill counts
            let records = [Record::new(Code::C1, w), Record::new(Code::C8, w).with_fill(1), Record::new(Code::from_number(3), w)];
            let rows = records[0].rows_needed(lengths);
            assert!(records.iter().all(|record| record.rows_needed(lengths) == rows));
            rows
        };
        for w in 5..=MAX_WIDTH {
            let room = w - 4;
            assert_eq!(rows(w, &[]), 0);
            assert_eq!([1, room, room + 1, 9 * room, 9 * room + 1].map(|length| rows(w, &[length])), [1, 1, 2, 9, 10]);
            assert_eq!(rows(w, &[1, room, 2 * room, 1]), 5);
            // refused where they are packed
            assert_eq!((rows(w, &[0]), rows(w, &[0, 1, 0])), (0, 1));
            assert_eq!(rows(w, &[usize::MAX]), usize::MAX.div_ceil(room));
            assert_eq!((rows(w, &[usize::MAX; MAX_WIDTH]), rows(w, &[usize::MAX - 1; MAX_WIDTH])), (usize::MAX, usize::MAX));
        }
        assert_eq!(
            (rows(5, &[usize::MAX, 1]), rows(5, &[1, usize::MAX]), rows(5, &[usize::MAX - 1, 1])),
            (usize::MAX, usize::MAX, usize::MAX)
        );
        assert_eq!((rows(5, &[usize::MAX - 2, 1]), rows(6, &[usize::MAX, usize::MAX])), (usize::MAX - 1, usize::MAX));
        for w in [0, 1, 2, 3, 4, MAX_WIDTH + 1, usize::MAX] {
            assert_eq!((rows(w, &[]), rows(w, &[1]), rows(w, &[usize::MAX, 5])), (0, 0, 0));
        }
    }

    #[test]
    fn sizes_are_0_where_code_or_width_is_refused() {
        let sizes = |record: Record| {
            [record.information_bytes(), record.parity_bytes(), record.symbol_bytes(), record.unit_bytes(), record.work_bytes()]
        };
        for &code in Code::ALL {
            for w in [1, 127, 128, MAX_WIDTH] {
                let record = Record::new(code, w);
                assert_eq!([record.n(), record.k(), record.m(), record.work_words()], [code.n(), code.k(), code.m(), code.work_words()]);
                assert_eq!(record.information_bytes() + record.parity_bytes(), record.symbol_bytes());
                assert!(!sizes(record).contains(&0));
            }
            for w in [0, MAX_WIDTH + 1, usize::MAX / 1024, usize::MAX] {
                assert_eq!(sizes(Record::new(code, w)), [0; 5]);
                assert_eq!(Record::new(code, w).n(), code.n());
            }
            assert_eq!((1..=MAX_WIDTH).map(|w| Record::new(code, w).unit_bytes()).max(), Some(MAX_UNIT_BYTES));
        }
        for number in [0, 3, 255, usize::MAX] {
            let record = Record::new(Code::from_number(number), 1);
            assert_eq!(sizes(record), [0; 5]);
            assert_eq!([record.n(), record.k(), record.m(), record.work_words()], [0; 4]);
        }
    }
}
