//! Units written, read, shown and taken.
use super::drafts::{Draft, Extension};
use super::random::Random;
use super::suite::WIDTHS;
use super::{ours, same, same_buffer, Difference, Stats};
use crate::model::answers::{Parameters, UnitParts};
use crate::model::refusals::Record;
use crate::model::{byte_reader, calls as model, units, Code, Fault};

/// Reads a unit by itself, in the archive and with both readers of the model. Coding parameters have one form.
pub fn read(unit: &[u8], fault: Fault) -> Result<Result<UnitParts, u8>, Difference> {
    let answer = ours::read(unit);
    same(answer, units::read(unit, fault), || format!("read of {unit:02X?}"))?;
    same(answer, byte_reader::read(unit), || format!("read byte by byte of {unit:02X?}"))?;
    if let Ok(UnitParts { count: 1, symbol, coding: Some(Parameters { w, k, n, seed }), .. }) = answer {
        same_buffer(&unit[6..symbol], &Extension::coding([w, k, n, seed]).bytes(), || format!("form of {unit:02X?}"))?;
    }
    Ok(answer)
}

/// Reads units by themselves and takes them into a standing block.
pub struct Reader {
    record: Record,
    fault: Fault,
    symbols: Vec<u8>,
    marks: Vec<u8>,
    expected_symbols: Vec<u8>,
    expected_marks: Vec<u8>,
    pub stats: Stats,
}

impl Reader {
    /// With a full block.
    pub fn new(code: &Code, w: usize, fault: Fault) -> Reader {
        Reader::short(code, w, code.k, fault)
    }

    pub fn short(code: &Code, w: usize, fill: usize, fault: Fault) -> Reader {
        let (symbols, marks) = (vec![0; code.n * w], vec![0; code.n]);
        Reader {
            record: Record { code: code.number, w, protocol: 5, lsc: 1000, fill },
            fault,
            expected_symbols: symbols.clone(),
            expected_marks: marks.clone(),
            symbols,
            marks,
            stats: Stats { blocks: 1, ..Stats::default() },
        }
    }

    /// A unit that the block takes, if the LWC is that of a symbol that is sent.
    pub fn draft(&self, lwc: usize, random: &mut Random) -> Draft {
        let Record { code, w, protocol, lsc, .. } = self.record;
        let mut symbol = vec![0; w];
        random.fill(&mut symbol);
        Draft::proper(Code::of_number(code).unwrap(), w, protocol, lsc, lwc, &symbol)
    }

    pub fn compare(&mut self, unit: &[u8]) -> Result<(), Difference> {
        let readable = read(unit, self.fault)?.is_ok();
        let taken = ours::take(self.record, &mut self.symbols, &mut self.marks, unit);
        let expected = model::take(self.record, &mut self.expected_symbols, &mut self.expected_marks, unit, self.fault);
        let name = || format!("take of {unit:02X?}");
        same(taken, expected, name)?;
        same_buffer(&self.marks, &self.expected_marks, || format!("marks after {}", name()))?;
        same_buffer(&self.symbols, &self.expected_symbols, || format!("symbols after {}", name()))?;
        self.stats.units += 1;
        self.stats.readable += usize::from(readable);
        self.stats.count_taken(taken);
        Ok(())
    }
}

/// Writes random symbols, for all LWCs of a few widths; what is written is read again and taken.
pub fn written(code: &'static Code, fault: Fault, random: &mut Random) -> Result<Stats, Difference> {
    let mut stats = Stats::default();
    for w in WIDTHS {
        stats += written_of(code, w, code.k, fault, random)?;
    }
    Ok(stats)
}

/// The same of short blocks. Of an idle position nothing is written, and what would be its unit is not taken.
pub fn written_short(code: &'static Code, fault: Fault, random: &mut Random) -> Result<Stats, Difference> {
    let mut stats = Stats::default();
    for (fill, w) in [(1, 2), (code.q + 1, 16), (code.k / 2, 1023), (code.k - 1, 3)] {
        stats += written_of(code, w, fill, fault, random)?;
    }
    Ok(stats)
}

fn written_of(code: &'static Code, w: usize, fill: usize, fault: Fault, random: &mut Random) -> Result<Stats, Difference> {
    let step = if w < 1000 { 1 } else { 97 };
    let mut reader = Reader::short(code, w, fill, fault);
    let borders = [fill, fill + 1, code.k, code.k + 1, code.n, code.n + 1, 65535, 65536 + 1];
    for lwc in (0..=code.n + 1).step_by(step).chain(borders) {
        let record = Record { code: code.number, w, protocol: random.below(8), lsc: 1 + random.below(65534), fill };
        let unit = write(record, lwc, fault, random)?;
        let own = write(Record { protocol: 5, lsc: 1000, ..record }, lwc, fault, random)?;
        reader.compare(&unit)?;
        reader.compare(&own)?;
        if (1..=fill).contains(&lwc) || (code.k + 1..=code.n).contains(&lwc) {
            let parts = ours::read(&unit).map_err(|number| Difference(format!("a written unit: {number}")))?;
            let said = [parts.protocol, parts.lsc, parts.lwc, parts.count, unit.len() - parts.symbol];
            same(said, [record.protocol, record.lsc, lwc, 1, w], || format!("read of written {unit:02X?}"))?;
        } else if lwc <= code.n {
            reader.compare(&reader.draft(lwc, random).bytes())?;
        }
    }
    Ok(reader.stats)
}

/// Writes random symbols of these LWCs. The LSC goes from 1 to 65534 as the LWC goes from 1 to n; the protocol ID goes round.
pub fn written_at(code: &Code, w: usize, lwcs: impl IntoIterator<Item = usize>, random: &mut Random) -> Result<Stats, Difference> {
    let mut stats = Stats::default();
    for lwc in lwcs {
        let lsc = 1 + (lwc - 1) * 65533 / (code.n - 1);
        let unit = write(Record { code: code.number, w, protocol: (lwc + w) % 8, lsc, fill: code.k }, lwc, Fault::None, random)?;
        stats.count_read(units::read(&unit, Fault::None));
    }
    Ok(stats)
}

/// Bytes on either side of an output.
const GUARD: usize = 64;

/// Writes a random symbol twice, into the middle of bytes A5 and of bytes 5A; those on either side stay. Over LWCs, and over widths, the
/// outputs start at all alignments of 16.
fn write(record: Record, lwc: usize, fault: Fault, random: &mut Random) -> Result<Vec<u8>, Difference> {
    let w = record.w;
    let bytes = unlike_neighbours(w + 15, random);
    let symbol = &bytes[random.below(16)..][..w];
    let size = units::write(Code::of_number(record.code).unwrap(), w, 1, 1, 1, symbol).len();
    let mut unit = Vec::new();
    for (filling, alignment) in [(0xA5, lwc + w), (0x5A, (lwc + w) / 16)] {
        let mut buffer = vec![filling; GUARD + 15 + 15 + size + GUARD];
        let mut expected = buffer.clone();
        let start = GUARD + buffer[GUARD..].as_ptr().align_offset(16) + alignment % 16;
        let output = start..start + size;
        let answer = ours::write(record, lwc, symbol, &mut buffer[output.clone()]);
        let name = || format!("write of {record:?}, LWC {lwc}, to bytes {output:?} of a buffer");
        same(answer, model::write(record, lwc, symbol, &mut expected[output.clone()], fault), name)?;
        same_buffer(&buffer, &expected, name)?;
        unit = buffer[output].to_vec();
    }
    Ok(unit)
}

/// Random bytes, each unlike the one before it.
fn unlike_neighbours(length: usize, random: &mut Random) -> Vec<u8> {
    let mut byte = random.next() as u8;
    let mut next = || {
        byte = byte.wrapping_add(1 + random.below(255) as u8);
        byte
    };
    (0..length).map(|_| next()).collect()
}

/// Shows every symbol of a block of so many information symbols, its idle ones, and what is past its ends.
pub fn shown(code: &Code, w: usize, fill: usize, fault: Fault, random: &mut Random) -> Result<Stats, Difference> {
    let mut information = vec![0; fill * w];
    let mut parity = vec![0; code.m * w];
    random.fill(&mut information);
    random.fill(&mut parity);
    let mut stats = Stats::default();
    for lwc in (0..=code.n + 2).chain([65535, 65536, 65537, usize::MAX]) {
        // Protocol ID and LSC may be any.
        let record = Record { code: code.number, w, protocol: random.below(16), lsc: random.below(70_000), fill };
        for length in [w, w - 1, w + 1] {
            let mut out = vec![0xEE; length];
            let mut expected = out.clone();
            let answer = ours::show(record, &information, &parity, lwc, &mut out);
            let name = || format!("show of C{}, W {w}, fill {fill}, LWC {lwc}, to {length} bytes", code.number);
            same(answer, model::show(record, &information, &parity, lwc, &mut expected, fault), name)?;
            same_buffer(&out, &expected, name)?;
            stats.shown += 1;
        }
    }
    Ok(stats)
}
