//! The crate's calls, handed the model's record; what they answer, in the model's types. Nothing else in the tests calls `lipvezor::calls`.
use crate::model::answers::{Parameters, Report, Taken, UnitParts, Verdict};
use crate::model::refusals::Record;
use lipvezor::calls::{self, Buffers};
use lipvezor::Refusal;

const UNKNOWN: &str = "an answer that the tests don't know";

pub fn record(record: Record) -> lipvezor::Record {
    let Record { code, w, protocol, lsc, fill } = record;
    lipvezor::Record::new(lipvezor::Code::from_number(code), w).with_protocol(protocol).with_lsc(lsc).with_fill(fill)
}

pub fn taken(taken: lipvezor::Taken) -> Taken {
    match taken {
        lipvezor::Taken::Kept => Taken::Kept,
        lipvezor::Taken::Repeated => Taken::Repeated,
        _ => panic!("{UNKNOWN}: {taken:?}"),
    }
}

pub fn verdict(verdict: lipvezor::Verdict) -> Verdict {
    match verdict {
        lipvezor::Verdict::Whole => Verdict::Whole,
        lipvezor::Verdict::Ambiguous => Verdict::Ambiguous,
        lipvezor::Verdict::Inconsistent => Verdict::Inconsistent,
        _ => panic!("{UNKNOWN}: {verdict:?}"),
    }
}

pub fn report(report: lipvezor::Report) -> Report {
    Report { verdict: verdict(report.verdict), heard: report.heard, filled: report.filled, left: report.left }
}

/// A mark as the byte that stands for it.
pub fn mark(mark: lipvezor::Mark) -> u8 {
    match mark {
        lipvezor::Mark::Missing => 0,
        lipvezor::Mark::Heard => 1,
        lipvezor::Mark::Filled => 2,
        _ => panic!("{UNKNOWN}: {mark:?}"),
    }
}

/// The parts of a unit, whose symbol is the unit's own last bytes.
pub fn parts(unit: &[u8], read: &lipvezor::Unit<'_>) -> UnitParts {
    let symbol = unit.len() - read.symbol.len();
    assert!(std::ptr::eq(&unit[symbol..], read.symbol), "the symbol isn't where the unit ends");
    let coding = read.coding.map(|coding| Parameters { w: coding.w, k: coding.k, n: coding.n, seed: coding.seed });
    UnitParts { protocol: read.protocol, count: read.count, lwc: read.lwc, lsc: read.lsc, symbol, coding }
}

pub fn version() -> usize {
    calls::version()
}

pub fn pack(of: Record, tiles: &[u8], lengths: &[usize], out: &mut [u8]) -> Result<(), u8> {
    calls::pack(&record(of), tiles, lengths, out).map_err(Refusal::number)
}

pub fn rows_needed(w: usize, lengths: &[usize]) -> usize {
    calls::rows_needed(w, lengths)
}

pub fn encode(of: Record, information: &[u8], parity: &mut [u8]) -> Result<(), u8> {
    calls::encode(&record(of), information, parity).map_err(Refusal::number)
}

pub fn show(of: Record, information: &[u8], parity: &[u8], lwc: usize, out: &mut [u8]) -> Result<(), u8> {
    calls::show(&record(of), information, parity, lwc, out).map_err(Refusal::number)
}

pub fn write(of: Record, lwc: usize, symbol: &[u8], out: &mut [u8]) -> Result<(), u8> {
    calls::write(&record(of), lwc, symbol, out).map_err(Refusal::number)
}

pub fn read(unit: &[u8]) -> Result<UnitParts, u8> {
    calls::read(unit).map(|read| parts(unit, &read)).map_err(Refusal::number)
}

pub fn open(of: Record, symbols: &mut [u8], marks: &mut [u8]) -> Result<(), u8> {
    calls::open(&record(of), &mut Buffers::new(symbols, marks)).map_err(Refusal::number)
}

pub fn take(of: Record, symbols: &mut [u8], marks: &mut [u8], unit: &[u8]) -> Result<Taken, u8> {
    calls::take(&record(of), &mut Buffers::new(symbols, marks), unit).map(taken).map_err(Refusal::number)
}

pub fn close(of: Record, symbols: &mut [u8], marks: &mut [u8], words: &mut [u64], bytes: &mut [u8]) -> Result<Report, u8> {
    calls::close(&record(of), &mut Buffers::new(symbols, marks), words, bytes).map(report).map_err(Refusal::number)
}
