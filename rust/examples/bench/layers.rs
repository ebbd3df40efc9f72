//! The calls that are measured, by each of those who have them.
use crate::{plain_close, plain_encode, plain_tiles, plain_units, simple_close};
use lipvezor::calls::{self, Buffers};
use lipvezor::{Record, Refusal, Taken, Verdict};

/// What close finds: the verdict, and how many symbols were heard, are filled and are left.
pub type Found = (Verdict, [usize; 3]);

/// Symbols and marks.
pub type Slices<'a> = (&'a mut [u8], &'a mut [u8]);

/// Pack.
pub trait Packing {
    fn pack(record: &Record, tiles: &[u8], lengths: &[usize], out: &mut [u8]) -> Result<(), Refusal>;
}

/// Close.
pub trait Closing {
    fn close(record: &Record, symbols: &mut [u8], marks: &mut [u8], words: &mut [u64], bytes: &mut [u8]) -> Result<Found, Refusal>;
}

/// Encode, write, take and close.
pub trait Layer: Closing {
    /// A block's two buffers as take is lent them.
    type Lent<'a>;

    fn lend<'a>(symbols: &'a mut [u8], marks: &'a mut [u8]) -> Self::Lent<'a>;
    fn encode(record: &Record, information: &[u8], parity: &mut [u8]) -> Result<(), Refusal>;
    fn write(record: &Record, lwc: usize, symbol: &[u8], out: &mut [u8]) -> Result<(), Refusal>;
    fn take(record: &Record, lent: &mut Self::Lent<'_>, unit: &[u8]) -> Result<Taken, Refusal>;
}

/// The archive.
pub struct Ours;

impl Packing for Ours {
    #[inline]
    fn pack(record: &Record, tiles: &[u8], lengths: &[usize], out: &mut [u8]) -> Result<(), Refusal> {
        calls::pack(record, tiles, lengths, out)
    }
}

impl Closing for Ours {
    #[inline]
    fn close(record: &Record, symbols: &mut [u8], marks: &mut [u8], words: &mut [u64], bytes: &mut [u8]) -> Result<Found, Refusal> {
        let report = calls::close(record, &mut Buffers::new(symbols, marks), words, bytes)?;
        Ok((report.verdict, [report.heard, report.filled, report.left]))
    }
}

impl Layer for Ours {
    type Lent<'a> = Buffers<'a>;

    #[inline]
    fn lend<'a>(symbols: &'a mut [u8], marks: &'a mut [u8]) -> Buffers<'a> {
        Buffers::new(symbols, marks)
    }

    #[inline]
    fn encode(record: &Record, information: &[u8], parity: &mut [u8]) -> Result<(), Refusal> {
        calls::encode(record, information, parity)
    }

    #[inline]
    fn write(record: &Record, lwc: usize, symbol: &[u8], out: &mut [u8]) -> Result<(), Refusal> {
        calls::write(record, lwc, symbol, out)
    }

    #[inline]
    fn take(record: &Record, lent: &mut Buffers<'_>, unit: &[u8]) -> Result<Taken, Refusal> {
        calls::take(record, lent, unit)
    }
}

/// Plain Rust doing the same steps.
pub struct Plain;

impl Packing for Plain {
    #[inline]
    fn pack(record: &Record, tiles: &[u8], lengths: &[usize], out: &mut [u8]) -> Result<(), Refusal> {
        plain_tiles::pack(*record, tiles, lengths, out)
    }
}

impl Closing for Plain {
    #[inline]
    fn close(record: &Record, symbols: &mut [u8], marks: &mut [u8], words: &mut [u64], bytes: &mut [u8]) -> Result<Found, Refusal> {
        plain_close::close(*record, symbols, marks, words, bytes, &mut ())
    }
}

impl Layer for Plain {
    type Lent<'a> = Slices<'a>;

    #[inline]
    fn lend<'a>(symbols: &'a mut [u8], marks: &'a mut [u8]) -> Slices<'a> {
        (symbols, marks)
    }

    #[inline]
    fn encode(record: &Record, information: &[u8], parity: &mut [u8]) -> Result<(), Refusal> {
        plain_encode::encode(*record, information, parity)
    }

    #[inline]
    fn write(record: &Record, lwc: usize, symbol: &[u8], out: &mut [u8]) -> Result<(), Refusal> {
        plain_units::write(*record, lwc, symbol, out)
    }

    #[inline]
    fn take(record: &Record, (symbols, marks): &mut Slices<'_>, unit: &[u8]) -> Result<Taken, Refusal> {
        plain_units::take(*record, symbols, marks, unit)
    }
}

/// Plain least-weight Gauss-Jordan elimination.
pub struct Simple;

impl Closing for Simple {
    #[inline]
    fn close(record: &Record, symbols: &mut [u8], marks: &mut [u8], words: &mut [u64], bytes: &mut [u8]) -> Result<Found, Refusal> {
        simple_close::close(*record, symbols, marks, words, bytes, &mut ())
    }
}
