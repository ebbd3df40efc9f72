//! The calls of an earlier version's archive, which build.rs links under these names where LIPVEZOR_EARLIER names its folder. They are declared as
//! in the crate's `ffi`, which holds of versions 0.3 to 0.5. The same holds of each call as there: it hands over a slice's own pointer and length.
//! Up to 0.4 a record had four numbers, which our five begin with, and all blocks were full: it is lent our record, and reads what it knows.
use crate::layers::{Closing, Found, Layer};
use lipvezor::calls::Buffers;
use lipvezor::{Record, Refusal, Taken, Verdict};

/// The versions that these declarations are of: first number * 100 + second. Short blocks came with the last.
const VERSIONS: [usize; 3] = [3, 4, 5];

#[repr(C)]
struct Codeword {
    information: *const u8,
    information_length: usize,
    parity: *mut u8,
    parity_length: usize,
}

#[repr(C)]
struct Work {
    words: *mut u64,
    words_length: usize,
    bytes: *mut u8,
    bytes_length: usize,
}

#[repr(C)]
#[derive(Default)]
struct TakeResult {
    result: usize,
}

#[repr(C)]
#[derive(Default)]
struct Report {
    verdict: usize,
    heard: usize,
    filled: usize,
    left: usize,
}

extern "C" {
    fn earlier_version() -> usize;
    fn earlier_n(code: usize) -> usize;
    fn earlier_encode(block: *const Record, codeword: *const Codeword) -> u8;
    fn earlier_write(block: *const Record, lwc: usize, symbol: *const u8, symbol_length: usize, out: *mut u8, out_length: usize) -> u8;
    fn earlier_take(block: *const Record, buffers: *const Buffers<'_>, unit: *const u8, unit_length: usize, taken: *mut TakeResult) -> u8;
    fn earlier_close(block: *const Record, buffers: *const Buffers<'_>, work: *const Work, report: *mut Report) -> u8;
}

/// Its version, as text. Panics unless the declarations above are of it.
pub fn version() -> String {
    let version = unsafe { earlier_version() };
    let text = format!("{}.{}.{}", version / 10_000, version / 100 % 100, version % 100);
    assert!(VERSIONS.contains(&(version / 100)), "earlier.rs declares the calls of 0.3 to 0.5, and the earlier archive is {text}");
    text
}

/// It has such blocks: the code, and the fill if that is not k.
pub fn has(record: Record) -> bool {
    let (n, version) = unsafe { (earlier_n(record.code().number()), earlier_version()) };
    n > 0 && (record.fill() == record.k() || version / 100 >= 5)
}

/// The archive of an earlier version.
pub struct Earlier;

#[inline]
fn done(number: u8) -> Result<(), Refusal> {
    #[cold]
    fn refusal(number: u8) -> Refusal {
        Refusal::from_number(number).expect("a refusal that is known today")
    }

    match number {
        0 => Ok(()),
        number => Err(refusal(number)),
    }
}

impl Closing for Earlier {
    #[inline]
    fn close(record: &Record, symbols: &mut [u8], marks: &mut [u8], words: &mut [u64], bytes: &mut [u8]) -> Result<Found, Refusal> {
        let mut report = Report::default();
        let work = Work { words: words.as_mut_ptr(), words_length: words.len(), bytes: bytes.as_mut_ptr(), bytes_length: bytes.len() };
        done(unsafe { earlier_close(record, &Buffers::new(symbols, marks), &work, &mut report) })?;
        let verdict = match report.verdict {
            1 => Verdict::Whole,
            2 => Verdict::Ambiguous,
            3 => Verdict::Inconsistent,
            other => panic!("verdict {other}"),
        };
        Ok((verdict, [report.heard, report.filled, report.left]))
    }
}

impl Layer for Earlier {
    type Lent<'a> = Buffers<'a>;

    #[inline]
    fn lend<'a>(symbols: &'a mut [u8], marks: &'a mut [u8]) -> Buffers<'a> {
        Buffers::new(symbols, marks)
    }

    #[inline]
    fn encode(record: &Record, information: &[u8], parity: &mut [u8]) -> Result<(), Refusal> {
        let (information, information_length, parity_length) = (information.as_ptr(), information.len(), parity.len());
        let codeword = Codeword { information, information_length, parity: parity.as_mut_ptr(), parity_length };
        done(unsafe { earlier_encode(record, &codeword) })
    }

    #[inline]
    fn write(record: &Record, lwc: usize, symbol: &[u8], out: &mut [u8]) -> Result<(), Refusal> {
        done(unsafe { earlier_write(record, lwc, symbol.as_ptr(), symbol.len(), out.as_mut_ptr(), out.len()) })
    }

    #[inline]
    fn take(record: &Record, lent: &mut Buffers<'_>, unit: &[u8]) -> Result<Taken, Refusal> {
        let mut taken = TakeResult::default();
        done(unsafe { earlier_take(record, lent, unit.as_ptr(), unit.len(), &mut taken) })?;
        match taken.result {
            1 => Ok(Taken::Kept),
            2 => Ok(Taken::Repeated),
            other => panic!("result {other}"),
        }
    }
}
