//! Every call that is told a fill, with fills on both sides of each border; with lengths, LWCs and symbols that are right or not.
use super::random::Random;
use super::tiles::{self, Tiles};
use super::{ours, same, same_buffer, Difference, Stats};
use crate::model::refusals::Record;
use crate::model::{calls as model, units, Code, Fault};

/// The calls that are told a fill.
#[derive(Clone, Copy, Debug)]
pub enum Told {
    Pack,
    Encode,
    Show,
    Write,
    Open,
    Take,
    Close,
}

impl Told {
    pub const ALL: [Told; 7] = [Told::Pack, Told::Encode, Told::Show, Told::Write, Told::Open, Told::Take, Told::Close];
}

/// One of the calls on one code, with symbols of w bytes; to pack they are payloads.
pub fn compare(told: Told, code: &'static Code, w: usize, fault: Fault, random: &mut Random) -> Result<Stats, Difference> {
    let mut stats = Stats::default();
    let w = if matches!(told, Told::Pack) { w + 4 } else { w };
    for fill in [0, 1, 2, code.q, code.k / 2, code.k - 1, code.k, code.k + 1, code.n, 1 << 32, usize::MAX / w + 1, usize::MAX] {
        let record = Record { code: code.number, w, protocol: random.below(8), lsc: 1 + random.below(65534), fill };
        // Where a fill is refused, any length may be that of the information.
        let symbols = if (1..=code.k).contains(&fill) { fill } else { code.k };
        let calls = Calls { code, record, symbols, fault };
        let lwcs = [0, 1, 2, symbols, symbols + 1, code.k, code.k + 1, code.n, code.n + 1];
        let positions = [0, symbols - 1, symbols, code.k - 1, code.k, code.n - 1];
        for off in [0, 1] {
            let with_lengths = |call: &dyn Fn(usize, usize) -> Result<(), Difference>| {
                lwcs.into_iter().try_for_each(|lwc| [w - 1, w, w + 1].into_iter().try_for_each(|length| call(lwc, length)))
            };
            match told {
                Told::Pack => calls.pack(off, random)?,
                Told::Encode => calls.encode(off, random)?,
                Told::Show => lwcs.into_iter().try_for_each(|lwc| calls.show(off, lwc, random))?,
                Told::Write => with_lengths(&|lwc, length| calls.write(off, lwc, length))?,
                Told::Open => calls.open(off)?,
                Told::Take => with_lengths(&|lwc, length| calls.take(off, lwc, length))?,
                Told::Close => positions
                    .into_iter()
                    .try_for_each(|position| [2, 3].into_iter().try_for_each(|mark| calls.close(off, position, mark)))?,
            }
            stats.calls += match told {
                Told::Pack => 3,
                Told::Encode | Told::Open => 1,
                Told::Show => lwcs.len(),
                Told::Write | Told::Take => 3 * lwcs.len(),
                Told::Close => 2 * positions.len(),
            };
        }
    }
    Ok(stats)
}

struct Calls {
    code: &'static Code,
    record: Record,
    /// Information symbols to hand over.
    symbols: usize,
    fault: Fault,
}

impl Calls {
    /// Tiles of one byte: one less than rows, as many, and one more.
    fn pack(&self, off: usize, random: &mut Random) -> Result<(), Difference> {
        for count in self.symbols - 1..=self.symbols + 1 {
            tiles::pack(self.record, &Tiles::new(vec![1; count]), self.symbols * self.record.w + off, self.fault, random)?;
        }
        Ok(())
    }

    fn encode(&self, off: usize, random: &mut Random) -> Result<(), Difference> {
        let mut information = vec![0; self.symbols * self.record.w + off];
        random.fill(&mut information);
        let mut parity = vec![0xA5; self.code.m * self.record.w];
        let mut due = parity.clone();
        let answer = ours::encode(self.record, &information, &mut parity);
        let name = || format!("encode of {} bytes, {:?}", information.len(), self.record);
        same(answer, model::encode(self.record, &information, &mut due, self.fault), name)?;
        same_buffer(&parity, &due, name)
    }

    fn show(&self, off: usize, lwc: usize, random: &mut Random) -> Result<(), Difference> {
        let w = self.record.w;
        let (mut information, mut parity) = (vec![0; self.symbols * w], vec![0; self.code.m * w]);
        random.fill(&mut information);
        random.fill(&mut parity);
        let mut out = vec![0xA5; w + off];
        let mut due = out.clone();
        let answer = ours::show(self.record, &information, &parity, lwc, &mut out);
        let name = || format!("show of LWC {lwc}, output {off} too long, {:?}", self.record);
        same(answer, model::show(self.record, &information, &parity, lwc, &mut due, self.fault), name)?;
        same_buffer(&out, &due, name)
    }

    fn write(&self, off: usize, lwc: usize, symbol: usize) -> Result<(), Difference> {
        let w = self.record.w;
        let symbol = vec![0x3C; symbol];
        let mut out = vec![0xA5; units::write(self.code, w, 1, 1, 1, &vec![0; w]).len() + off];
        let mut due = out.clone();
        let answer = ours::write(self.record, lwc, &symbol, &mut out);
        let name = || format!("write of LWC {lwc}, {} bytes, output {off} too long, {:?}", symbol.len(), self.record);
        same(answer, model::write(self.record, lwc, &symbol, &mut due, self.fault), name)?;
        same_buffer(&out, &due, name)
    }

    fn open(&self, off: usize) -> Result<(), Difference> {
        let (mut symbols, mut marks) = (vec![0xA5; self.code.n * self.record.w + off], vec![0x5A; self.code.n]);
        let mut due = (symbols.clone(), marks.clone());
        let answer = ours::open(self.record, &mut symbols, &mut marks);
        let name = || format!("open, {off} bytes too many, {:?}", self.record);
        same(answer, model::open(self.record, &mut due.0, &mut due.1, self.fault), name)?;
        same_buffer(&symbols, &due.0, name)?;
        same_buffer(&marks, &due.1, name)
    }

    /// At each position the mark is 1, with other bytes than the unit's; past the fill it is 255.
    fn take(&self, off: usize, lwc: usize, symbol: usize) -> Result<(), Difference> {
        let Record { w, protocol, lsc, fill, .. } = self.record;
        let unit = units::write(self.code, w, protocol, lsc, lwc, &vec![0x3C; symbol]);
        let (mut symbols, mut marks) = (vec![0xA5; self.code.n * w], vec![1; self.code.n + off]);
        marks[fill.min(self.code.k)..self.code.k].fill(255);
        let mut due = (symbols.clone(), marks.clone());
        let answer = ours::take(self.record, &mut symbols, &mut marks, &unit);
        let name = || format!("take of LWC {lwc}, {symbol} bytes, {off} marks too many, {:?}", self.record);
        same(answer, model::take(self.record, &mut due.0, &mut due.1, &unit, self.fault), name)?;
        same_buffer(&symbols, &due.0, name)?;
        same_buffer(&marks, &due.1, name)
    }

    /// All zero and heard, but for one position.
    fn close(&self, off: usize, position: usize, mark: u8) -> Result<(), Difference> {
        let (code, w) = (self.code, self.record.w);
        let (mut symbols, mut marks) = (vec![0; code.n * w], vec![1; code.n]);
        symbols[position * w] = 0xA5;
        marks[position] = mark;
        let (mut words, mut bytes) = (vec![0x1234_5678_9ABC_DEF0; code.work_words() + off], vec![0xA5; code.m * w]);
        let mut due = (symbols.clone(), marks.clone(), words.clone(), bytes.clone());
        let answer = ours::close(self.record, &mut symbols, &mut marks, &mut words, &mut bytes);
        let name = || format!("close, mark {mark} at {position}, {off} words too many, {:?}", self.record);
        same(answer, model::close(self.record, &mut due.0, &mut due.1, &mut due.2, &mut due.3, self.fault), name)?;
        same_buffer(&symbols, &due.0, name)?;
        same_buffer(&marks, &due.1, name)?;
        same_buffer(&words, &due.2, name)?;
        same_buffer(&bytes, &due.3, name)
    }
}
