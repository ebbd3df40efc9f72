//! The archive's calls, one to one, over slices of any length. [`Codeword`](crate::Codeword) and [`Block`](crate::Block) are more convenient,
//! and give out no byte that a verdict does not allow; here the caller sees to that.
//!
//! A refused call has changed none of its slices.
//!
//! ```
//! use lipvezor::{calls, Code, Record, Refusal, Taken, Verdict};
//!
//! # fn main() -> Result<(), Refusal> {
//! let record = Record::new(Code::C1, 1).with_protocol(1).with_lsc(7);
//!
//! // encode, and write the unit of LWC 5
//! let (information, mut parity) = ([3; 512], [0; 256]);
//! calls::encode(&record, &information, &mut parity)?;
//! let mut symbol = [0; 1];
//! calls::show(&record, &information, &parity, 5, &mut symbol)?;
//! let mut unit = vec![0; record.unit_bytes()];
//! calls::write(&record, 5, &symbol, &mut unit)?;
//!
//! // open, take, close
//! let (mut symbols, mut marks) = ([0; 768], [0; 768]);
//! let mut buffers = calls::Buffers::new(&mut symbols, &mut marks);
//! calls::open(&record, &mut buffers)?;
//! assert_eq!(calls::take(&record, &mut buffers, &unit)?, Taken::Kept);
//! let (mut words, mut bytes) = (vec![0; record.work_words()], vec![0; record.work_bytes()]);
//! let report = calls::close(&record, &mut buffers, &mut words, &mut bytes)?;
//! assert_eq!((report.verdict, symbols[4], marks[4]), (Verdict::Ambiguous, 3, 1));
//! # Ok(())
//! # }
//! ```
use crate::{ffi, version, Parameters, Record, Refusal, Report, Taken, Unit, Verdict};

#[doc(inline)]
pub use crate::ffi::Buffers;

const NO_OTHER: &str = "the archive answers no other number";

#[inline]
fn done(number: u8) -> Result<(), Refusal> {
    #[cold]
    fn refusal(number: u8) -> Refusal {
        Refusal::from_number(number).expect(NO_OTHER)
    }

    match number {
        0 => Ok(()),
        number => Err(refusal(number)),
    }
}

/// The archive's version: first number * 10000 + second * 100 + third.
///
/// ```
/// let version = lipvezor::calls::version();
/// println!("{}.{}.{}", version / 10_000, version / 100 % 100, version % 100);
/// ```
#[inline]
#[must_use]
pub fn version() -> usize {
    ffi::version()
}

/// The rows that tiles of these lengths need: the sum of length / (W - 4), each rounded up. It is 0 for a W that [`pack`] refuses, below 5 or above
/// 1,024. A length of 0, which it refuses too, counts no row. Where the sum is above `usize::MAX`, it is `usize::MAX`.
///
/// ```
/// use lipvezor::calls::rows_needed;
///
/// assert_eq!(rows_needed(16, &[1, 12, 13, 100]), 1 + 1 + 2 + 9);
/// assert_eq!(rows_needed(4, &[1]), 0);
/// assert_eq!(rows_needed(5, &[usize::MAX, 1]), usize::MAX);
/// ```
///
/// # Panics
///
/// As [`Record::new`], if the archive is of another version.
#[inline]
#[must_use]
pub fn rows_needed(w: usize, lengths: &[usize]) -> usize {
    version::check();
    ffi::rows_needed(w, lengths)
}

/// Packs tiles into [rows](crate::Packer#rows), an output of [`Record::information_bytes`] bytes, which is the information for [`encode`]. The
/// tiles' bytes lie one after the other in `tiles`, and `lengths` has the bytes of each. Every byte of the output is written: without tiles all
/// become 0. Of the record only code, W and fill count.
///
/// Refusals: code, width, narrow, fill, length (of the output), tiles, overfull.
///
/// ```
/// use lipvezor::{calls, Code, Record, Refusal};
///
/// # fn main() -> Result<(), Refusal> {
/// // a tile of 5 bytes and one of 3, in rows of 4 + 3 bytes
/// let (tiles, lengths) = ([1, 2, 3, 4, 5, 6, 7, 8], [5, 3]);
/// let record = Record::new(Code::C1, 7).with_fill(4);
/// let mut information = [0xEE; 4 * 7];
/// calls::pack(&record, &tiles, &lengths, &mut information)?;
/// assert_eq!(information[..7], [0, 2, 0, 3, 1, 2, 3]); // goes on in row 2
/// assert_eq!(information[7..14], [0, 0, 0, 2, 4, 5, 0]); // ends
/// assert_eq!(information[14..21], [0, 0, 0, 3, 6, 7, 8]);
/// assert_eq!(information[21..], [0; 7]);
///
/// let mut shorter = [0xEE; 2 * 7];
/// assert_eq!(calls::pack(&record.with_fill(2), &tiles, &lengths, &mut shorter), Err(Refusal::Overfull));
/// assert_eq!(calls::pack(&record, &tiles, &[5, 4], &mut information), Err(Refusal::Tiles));
/// # Ok(())
/// # }
/// ```
#[inline]
pub fn pack(record: &Record, tiles: &[u8], lengths: &[usize], out: &mut [u8]) -> Result<(), Refusal> {
    done(ffi::pack(record, tiles, lengths, out))
}

/// The parity of [`Record::information_bytes`] bytes, into [`Record::parity_bytes`] bytes. Of the record only code, W and fill count.
///
/// Refusals: code, width, fill, length.
#[inline]
pub fn encode(record: &Record, information: &[u8], parity: &mut [u8]) -> Result<(), Refusal> {
    done(ffi::encode(record, information, parity))
}

/// The symbol of an LWC, copied from the encoder's two buffers to an output of W bytes. Of the record only code, W and fill count.
///
/// Refusals: code, width, fill, length (of any of the three), position, idle.
#[inline]
pub fn show(record: &Record, information: &[u8], parity: &[u8], lwc: usize, out: &mut [u8]) -> Result<(), Refusal> {
    done(ffi::show(record, information, parity, lwc, out))
}

/// The unit of one symbol of W bytes, into an output of [`Record::unit_bytes`] bytes. The output may begin at any address; wide symbols are
/// written fastest where it is a multiple of 16, as a `Vec`'s mostly is.
///
/// Refusals: code, width, label, fill, length (of the output), position, idle, symbol.
#[inline]
pub fn write(record: &Record, lwc: usize, symbol: &[u8], out: &mut [u8]) -> Result<(), Refusal> {
    done(ffi::write(record, lwc, symbol, out))
}

/// What a unit says by itself, whatever block it is of. Take reads units too: this call is for seeing which block a unit is of.
///
/// Refusals: header; extension, number, extension kind, by the first byte that can't be accepted.
///
/// # Panics
///
/// As [`Record::new`], if the archive is of another version.
#[inline]
pub fn read(unit: &[u8]) -> Result<Unit<'_>, Refusal> {
    version::check();
    let mut parts = ffi::Parts::default();
    done(ffi::read(unit, &mut parts))?;
    let ffi::Parts { protocol, count, lwc, lsc, symbol, coding, w, k, n, seed } = parts;
    let coding = (coding == 1).then_some(Parameters { w, k, n, seed });
    Ok(Unit { protocol, count, lwc, lsc, symbol: &unit[symbol..], coding })
}

/// Opens a block: all symbol bytes and marks become 0.
///
/// Refusals: code, width, label, fill, length.
#[inline]
pub fn open(record: &Record, buffers: &mut Buffers<'_>) -> Result<(), Refusal> {
    done(ffi::open(record, buffers))
}

/// Takes one unit. Only a kept one changes the block: its symbol stands at position LWC - 1, with mark 1.
///
/// Refusals: all but narrow, tiles and overfull.
#[inline]
pub fn take(record: &Record, buffers: &mut Buffers<'_>, unit: &[u8]) -> Result<Taken, Refusal> {
    let mut taken = ffi::Taken::default();
    done(ffi::take(record, buffers, unit, &mut taken))?;
    match taken.result {
        1 => Ok(Taken::Kept),
        2 => Ok(Taken::Repeated),
        _ => unreachable!("{NO_OTHER}"),
    }
}

/// Closes a block: fills each missing symbol that the heard ones determine. After a verdict the idle positions have zero bytes and mark 0,
/// whatever they had before. The work buffers, of [`Record::work_words`] words and
/// [`Record::work_bytes`] bytes, may hold anything, and are all 0 after a verdict.
///
/// Refusals: code, width, label, fill, length, mark.
#[inline]
pub fn close(record: &Record, buffers: &mut Buffers<'_>, words: &mut [u64], bytes: &mut [u8]) -> Result<Report, Refusal> {
    let mut report = ffi::Report::default();
    done(ffi::close(record, buffers, words, bytes, &mut report))?;
    let verdict = match report.verdict {
        1 => Verdict::Whole,
        2 => Verdict::Ambiguous,
        3 => Verdict::Inconsistent,
        _ => unreachable!("{NO_OTHER}"),
    };
    Ok(Report { verdict, heard: report.heard, filled: report.filled, left: report.left })
}

#[cfg(test)]
mod tests {
    use super::*;
    use crate::Code;

    /// Tiles of 1, 2, 3 and 4 bytes, in rows of 2.
    const TILES: [u8; 10] = [1, 2, 2, 3, 3, 3, 4, 4, 4, 4];
    const LENGTHS: [usize; 4] = [1, 2, 3, 4];

    #[test]
    fn tiles_are_packed_without_an_allocator() {
        let record = Record::new(Code::C1, 6).with_fill(8);
        let mut information = [0xEE; 8 * 6];
        assert_eq!(pack(&record, &TILES, &LENGTHS, &mut information), Ok(()));
        let rows = [
            [0, 0, 0, 1, 1, 0],
            [0, 0, 0, 2, 2, 2],
            [0, 4, 0, 2, 3, 3],
            [0, 0, 0, 1, 3, 0],
            [0, 6, 0, 2, 4, 4],
            [0, 0, 0, 2, 4, 4],
            [0; 6],
            [0; 6],
        ];
        assert!(information.iter().eq(rows.iter().flatten()));
        assert_eq!(encode(&record, &information, &mut [0; 256 * 6]), Ok(()));
        assert_eq!(pack(&record, &[], &[], &mut information), Ok(()));
        assert_eq!(information, [0; 8 * 6]);
    }

    #[test]
    fn what_can_not_be_packed_is_refused() {
        let good = Record::new(Code::C1, 6).with_fill(6);
        let refusal = |record: &Record, tiles: &[u8], lengths: &[usize], length: usize| {
            let mut out = [0xEE; 64];
            let refusal = pack(record, tiles, lengths, &mut out[..length]).unwrap_err();
            assert_eq!(out, [0xEE; 64]);
            refusal
        };
        assert_eq!(refusal(&Record::new(Code::from_number(3), 0), &[], &[0], 0), Refusal::Code);
        assert_eq!([0, 1025].map(|w| refusal(&Record::new(Code::C1, w).with_fill(0), &[], &[0], 0)), [Refusal::Width; 2]);
        assert_eq!([1, 4].map(|w| refusal(&Record::new(Code::C1, w).with_fill(0), &[], &[0], 0)), [Refusal::Narrow; 2]);
        assert_eq!([0, 513].map(|fill| refusal(&good.with_fill(fill), &[], &[0], 0)), [Refusal::Fill; 2]);
        assert_eq!([0, 35, 37].map(|length| refusal(&good, &[], &[0], length)), [Refusal::Length; 3]);
        for lengths in [&[][..], &[9], &[11], &[10, 0], &[0, 10], &[5, 0, 5], &[usize::MAX, 11], &[1 << 63, 1 << 63, 10], &[1; 11]] {
            assert_eq!(refusal(&good, &TILES, lengths, 36), Refusal::Tiles, "{lengths:?}");
        }
        assert_eq!(refusal(&good, &[], &[1], 36), Refusal::Tiles);
        // ten rows; the bytes alone would fit six
        assert_eq!(refusal(&good, &TILES, &[1; 10], 36), Refusal::Overfull);
        assert_eq!(refusal(&good.with_fill(5), &TILES, &LENGTHS, 30), Refusal::Overfull);
        // protocol ID and LSC do not count
        let out = &mut [0; 36];
        assert_eq!(pack(&good.with_protocol(8).with_lsc(0), &TILES, &LENGTHS, out), Ok(()));
    }
}
