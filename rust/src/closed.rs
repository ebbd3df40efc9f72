//! A block after a close: its verdict, and the bytes that the verdict allows.
use core::fmt;
use core::iter::{Enumerate, FusedIterator, Zip};
use core::ops::Range;
use core::slice::{ChunksExact, Iter};

use crate::{Mark, Record, Report, Verdict};

/// A block after a close, from [`Block::close`](crate::Block::close). It borrows the block, and gives out the bytes that its verdict allows: all of
/// a whole block, the heard and the filled symbols one by one of an ambiguous one, none of an inconsistent one. Idle positions of a
/// [short block](Record#a-short-block) have no symbol: the information is fill symbols.
///
/// ```
/// use lipvezor::{Block, Closed, Code, Codeword, Mark, Record, Refusal, Work};
///
/// # fn main() -> Result<(), Refusal> {
/// let record = Record::new(Code::C1, 1);
/// let sent = Codeword::encode(record, [7; 512])?;
/// let mut block = Block::open(record)?;
/// for lwc in sent.lwcs().take(511) {
///     block.take(&sent.unit(lwc)?)?;
/// }
/// let mut work = Work::of(record);
/// match block.close(&mut work)? {
///     Closed::Whole(_) => unreachable!("too few units came"),
///     Closed::Ambiguous(block) => {
///         let first = block.symbols().next().expect("it was heard");
///         assert_eq!((first.position, first.mark, first.bytes), (0, Mark::Heard, &[7][..]));
///         assert_eq!(block.missing().next(), Some(511));
///     }
///     Closed::Inconsistent(block) => println!("{}", block.report()),
///     _ => {}
/// }
///
/// // the last parity symbol is the sum of all information symbols
/// block.take(&sent.unit(768)?)?;
/// let closed = block.close(&mut work)?;
/// assert_eq!(closed.to_string(), "whole: heard 512, filled 256, left 0");
/// assert_eq!(closed.information(), Some(sent.information()));
/// # Ok(())
/// # }
/// ```
///
/// No unit is taken while its bytes are in use: they are those that the verdict was on.
///
/// ```compile_fail,E0499
/// # use lipvezor::{Block, Closed, Refusal, Work};
/// fn late(block: &mut Block, work: &mut Work, unit: &[u8]) -> Result<usize, Refusal> {
///     let closed = block.close(work)?;
///     block.take(unit)?; // the block is still lent to closed
///     Ok(closed.information().map_or(0, |bytes| bytes.len()))
/// }
/// ```
#[must_use]
#[non_exhaustive]
#[derive(Clone, Copy, Debug, PartialEq, Eq)]
pub enum Closed<'a> {
    /// Just one codeword agrees with the symbols heard; the block is that codeword.
    Whole(Whole<'a>),
    /// Two or more agree; the symbols on which they all agree are filled.
    Ambiguous(Ambiguous<'a>),
    /// None agrees: a symbol was heard that was not sent.
    Inconsistent(Inconsistent<'a>),
}

impl<'a> Closed<'a> {
    /// What a close found, and what it left in the block's buffers.
    pub(crate) fn new(record: Record, report: Report, symbols: &'a [u8], marks: &'a [u8]) -> Closed<'a> {
        let parts = Parts { record, report, symbols, marks };
        match report.verdict {
            Verdict::Whole => Closed::Whole(Whole(parts)),
            Verdict::Ambiguous => Closed::Ambiguous(Ambiguous(parts)),
            Verdict::Inconsistent => Closed::Inconsistent(Inconsistent(parts)),
        }
    }

    /// The block's numbers.
    #[must_use]
    pub fn record(&self) -> Record {
        match self {
            Closed::Whole(block) => block.record(),
            Closed::Ambiguous(block) => block.record(),
            Closed::Inconsistent(block) => block.record(),
        }
    }

    /// The verdict and the counts.
    pub fn report(&self) -> Report {
        match self {
            Closed::Whole(block) => block.report(),
            Closed::Ambiguous(block) => block.report(),
            Closed::Inconsistent(block) => block.report(),
        }
    }

    /// The verdict.
    #[must_use]
    pub fn verdict(&self) -> Verdict {
        self.report().verdict
    }

    /// The information, fill symbols one after the other, of a whole block; else `None`.
    #[must_use]
    pub fn information(&self) -> Option<&'a [u8]> {
        match self {
            Closed::Whole(block) => Some(block.information()),
            Closed::Ambiguous(_) | Closed::Inconsistent(_) => None,
        }
    }
}

/// As the [`Report`].
impl fmt::Display for Closed<'_> {
    fn fmt(&self, f: &mut fmt::Formatter<'_>) -> fmt::Result {
        self.report().fmt(f)
    }
}

/// A closed block's numbers, what its close found, and its buffers.
#[derive(Clone, Copy, PartialEq, Eq)]
struct Parts<'a> {
    record: Record,
    report: Report,
    symbols: &'a [u8],
    marks: &'a [u8],
}

impl<'a> Parts<'a> {
    fn symbol_at(&self, position: usize) -> Option<&'a [u8]> {
        self.symbols.chunks_exact(self.record.w()).nth(position).filter(|_| !self.record.is_idle(position))
    }

    /// Numbers and counts alone: the bytes are not for a log.
    fn debug(&self, f: &mut fmt::Formatter<'_>, name: &str) -> fmt::Result {
        f.debug_struct(name).field("record", &self.record).field("report", &self.report).finish_non_exhaustive()
    }
}

/// A block that closed whole: all its bytes are there.
///
/// ```
/// use lipvezor::{Block, Closed, Code, Codeword, Record, Work};
///
/// # fn main() -> Result<(), lipvezor::Refusal> {
/// let record = Record::new(Code::C1, 2);
/// let sent = Codeword::encode(record, [7; 1024])?;
/// let mut block = Block::open(record)?;
/// for unit in sent.units()?.skip(100) {
///     block.take(&unit)?;
/// }
/// if let Closed::Whole(whole) = block.close(&mut Work::of(record))? {
///     assert_eq!((whole.information(), whole.parity()), (sent.information(), sent.parity()));
///     assert_eq!(whole.symbol_at(0), Some(&[7, 7][..]));
/// }
/// # Ok(())
/// # }
/// ```
#[derive(Clone, Copy, PartialEq, Eq)]
pub struct Whole<'a>(Parts<'a>);

impl<'a> Whole<'a> {
    /// The block's numbers.
    #[must_use]
    pub fn record(&self) -> Record {
        self.0.record
    }

    /// The verdict and the counts.
    pub fn report(&self) -> Report {
        self.0.report
    }

    /// The information, fill symbols one after the other.
    #[must_use]
    pub fn information(&self) -> &'a [u8] {
        &self.0.symbols[..self.0.record.information_bytes()]
    }

    /// The parity, m symbols one after the other.
    #[must_use]
    pub fn parity(&self) -> &'a [u8] {
        let parity = self.0.symbols.len() - self.0.record.parity_bytes();
        &self.0.symbols[parity..]
    }

    /// The symbol at a position; `None` where it is idle, and beyond the block.
    #[must_use]
    pub fn symbol_at(&self, position: usize) -> Option<&'a [u8]> {
        self.0.symbol_at(position)
    }
}

impl fmt::Debug for Whole<'_> {
    fn fmt(&self, f: &mut fmt::Formatter<'_>) -> fmt::Result {
        self.0.debug(f, "Whole")
    }
}

/// A block that closed ambiguous: some of its symbols are there.
///
/// ```
/// use lipvezor::{Block, Closed, Code, Mark, Record, Work};
///
/// # fn main() -> Result<(), lipvezor::Refusal> {
/// // Nothing was heard. C2's last parity symbol is zero in every codeword, so it is filled.
/// let record = Record::new(Code::C2, 2);
/// if let Closed::Ambiguous(block) = Block::open(record)?.close(&mut Work::of(record))? {
///     for symbol in block.symbols() {
///         assert_eq!((symbol.position, symbol.mark, symbol.bytes), (3071, Mark::Filled, &[0, 0][..]));
///     }
///     assert!(block.missing().eq(0..3071));
///     assert_eq!(block.symbol_at(0), None);
/// }
/// # Ok(())
/// # }
/// ```
#[derive(Clone, Copy, PartialEq, Eq)]
pub struct Ambiguous<'a>(Parts<'a>);

impl<'a> Ambiguous<'a> {
    /// The block's numbers.
    #[must_use]
    pub fn record(&self) -> Record {
        self.0.record
    }

    /// The verdict and the counts.
    pub fn report(&self) -> Report {
        self.0.report
    }

    /// The symbols that were heard or filled, in the order of their positions. A heard one is as it came: an ambiguous block may have heard a
    /// symbol that was not sent, and what was filled is then wrong too.
    pub fn symbols(&self) -> Symbols<'a> {
        Symbols(self.0.marks.iter().enumerate().zip(self.0.symbols.chunks_exact(self.0.record.w())))
    }

    /// The symbol at a position, where it was heard or filled; `None` where it is missing or idle, and beyond the block.
    #[must_use]
    pub fn symbol_at(&self, position: usize) -> Option<Symbol<'a>> {
        Symbol::new(position, *self.0.marks.get(position)?, self.0.symbol_at(position)?)
    }

    /// The positions that are missing, in order. Idle ones are not: they are zero, and no unit is sent for them.
    pub fn missing(&self) -> Missing<'a> {
        Missing::new(self.0.record, self.0.marks)
    }
}

impl fmt::Debug for Ambiguous<'_> {
    fn fmt(&self, f: &mut fmt::Formatter<'_>) -> fmt::Result {
        self.0.debug(f, "Ambiguous")
    }
}

/// A block that closed inconsistent. Some symbol that it heard was not sent, and nothing says which: it gives out none.
///
/// ```
/// use lipvezor::{Block, Closed, Code, Codeword, Record, Work};
///
/// # fn main() -> Result<(), lipvezor::Refusal> {
/// let record = Record::new(Code::C1, 1);
/// let mut block = Block::open(record)?;
/// for mut unit in Codeword::encode(record, [7; 512])?.units()? {
///     if block.missing().next() == Some(9) {
///         unit[14] ^= 1; // changed on the way, and no CRC-32 was tested
///     }
///     block.take(&unit)?;
/// }
/// let closed = block.close(&mut Work::of(record))?;
/// assert_eq!(closed.information(), None);
/// if let Closed::Inconsistent(block) = closed {
///     assert_eq!(block.report().to_string(), "inconsistent: heard 768, filled 0, left 0");
/// }
/// # Ok(())
/// # }
/// ```
#[derive(Clone, Copy, PartialEq, Eq)]
pub struct Inconsistent<'a>(Parts<'a>);

impl Inconsistent<'_> {
    /// The block's numbers.
    #[must_use]
    pub fn record(&self) -> Record {
        self.0.record
    }

    /// The verdict and the counts.
    pub fn report(&self) -> Report {
        self.0.report
    }
}

impl fmt::Debug for Inconsistent<'_> {
    fn fmt(&self, f: &mut fmt::Formatter<'_>) -> fmt::Result {
        self.0.debug(f, "Inconsistent")
    }
}

/// A symbol of an ambiguous block, from [`Ambiguous::symbols`]; heard or filled, as its mark says. [`Ambiguous`] has an example.
#[non_exhaustive]
#[derive(Clone, Copy, Debug, PartialEq, Eq)]
pub struct Symbol<'a> {
    /// Its position, from 0.
    pub position: usize,
    /// Whether it was heard or filled.
    pub mark: Mark,
    /// Its W bytes.
    pub bytes: &'a [u8],
}

impl<'a> Symbol<'a> {
    /// The symbol at a position, unless its mark says that it is missing.
    fn new(position: usize, mark: u8, bytes: &'a [u8]) -> Option<Symbol<'a>> {
        let mark = Mark::try_from(mark).ok().filter(|mark| !mark.is_missing())?;
        Some(Symbol { position, mark, bytes })
    }
}

/// The symbols of an ambiguous block that were heard or filled, in the order of their positions, from [`Ambiguous::symbols`], which has an
/// example.
#[must_use]
#[derive(Clone, Debug)]
pub struct Symbols<'a>(Zip<Enumerate<Iter<'a, u8>>, ChunksExact<'a, u8>>);

impl<'a> Iterator for Symbols<'a> {
    type Item = Symbol<'a>;

    fn next(&mut self) -> Option<Symbol<'a>> {
        self.0.find_map(|((position, &mark), bytes)| Symbol::new(position, mark, bytes))
    }

    fn size_hint(&self) -> (usize, Option<usize>) {
        (0, Some(self.0.len()))
    }
}

impl DoubleEndedIterator for Symbols<'_> {
    fn next_back(&mut self) -> Option<Self::Item> {
        self.0.by_ref().rev().find_map(|((position, &mark), bytes)| Symbol::new(position, mark, bytes))
    }
}

impl FusedIterator for Symbols<'_> {}

/// The positions of a block that are missing, in order, from [`Block::missing`](crate::Block::missing) and [`Ambiguous::missing`]. Idle ones are
/// not among them.
///
/// ```
/// use lipvezor::{Block, Code, Codeword, Record};
///
/// # fn main() -> Result<(), lipvezor::Refusal> {
/// let record = Record::new(Code::C1, 1);
/// let mut block = Block::open(record)?;
/// for unit in Codeword::encode(record, [7; 512])?.units()?.skip(2).step_by(2) {
///     block.take(&unit)?;
/// }
/// assert!(block.missing().take(4).eq([0, 1, 3, 5]));
/// assert_eq!(block.missing().count(), 385);
/// # Ok(())
/// # }
/// ```
#[must_use]
#[derive(Clone, Debug)]
pub struct Missing<'a> {
    marks: Enumerate<Iter<'a, u8>>,
    idle: Range<usize>,
}

impl<'a> Missing<'a> {
    pub(crate) fn new(record: Record, marks: &'a [u8]) -> Missing<'a> {
        Missing { marks: marks.iter().enumerate(), idle: record.idle() }
    }
}

/// Whether a position's mark says that it is missing.
fn is_missing(idle: &Range<usize>, position: usize, mark: u8) -> bool {
    Mark::try_from(mark).is_ok_and(Mark::is_missing) && !idle.contains(&position)
}

impl Iterator for Missing<'_> {
    type Item = usize;

    fn next(&mut self) -> Option<usize> {
        let idle = &self.idle;
        self.marks.find(|&(position, &mark)| is_missing(idle, position, mark)).map(|(position, _)| position)
    }

    fn size_hint(&self) -> (usize, Option<usize>) {
        (0, Some(self.marks.len()))
    }
}

impl DoubleEndedIterator for Missing<'_> {
    fn next_back(&mut self) -> Option<usize> {
        let idle = &self.idle;
        self.marks.rfind(|&(position, &mark)| is_missing(idle, position, mark)).map(|(position, _)| position)
    }
}

impl FusedIterator for Missing<'_> {}

#[cfg(all(test, feature = "alloc"))]
mod tests {
    use alloc::format;
    use alloc::string::ToString;
    use alloc::vec;
    use alloc::vec::Vec;

    use super::*;
    use crate::{Block, Code, Codeword, Work};

    const W: usize = 3;

    fn record() -> Record {
        Record::new(Code::C1, W).with_protocol(2).with_lsc(9)
    }

    fn sent() -> Codeword<Vec<u8>> {
        Codeword::encode(record(), (0..512 * W).map(|i| (i * 31 % 253) as u8).collect::<Vec<u8>>()).unwrap()
    }

    /// A block that took the units of these positions.
    fn block(positions: impl IntoIterator<Item = usize>) -> Block {
        let (sent, mut block) = (sent(), Block::open(record()).unwrap());
        for position in positions {
            block.take(&sent.unit(position + 1).unwrap()).unwrap();
        }
        block
    }

    #[test]
    fn a_whole_block_has_all_its_bytes() {
        let (sent, mut block, mut work) = (sent(), block((0..768).filter(|position| position % 5 != 0)), Work::of(record()));
        let closed = block.close(&mut work).unwrap();
        assert_eq!((closed.record(), closed.verdict(), closed.report().verdict), (record(), Verdict::Whole, Verdict::Whole));
        assert_eq!(closed.to_string(), "whole: heard 614, filled 154, left 0");
        let Closed::Whole(whole) = closed else { panic!("{closed:?}") };
        assert_eq!((whole.record(), whole.report()), (record(), closed.report()));
        assert_eq!((whole.information(), whole.parity()), (sent.information(), sent.parity()));
        assert_eq!(closed.information(), Some(sent.information()));
        for position in 0..768 {
            assert_eq!(whole.symbol_at(position), Some(&sent.symbol(position + 1).unwrap()[..]));
        }
        assert_eq!([768, usize::MAX].map(|beyond| whole.symbol_at(beyond)), [None, None]);
    }

    #[test]
    fn an_ambiguous_block_has_symbols_by_their_positions() {
        // position 0 is lost, with the 79 parity symbols that change with it, and p_60, which is filled
        let lost =
            |position: &usize| *position == 0 || [41..61, 72..98, 222..256].iter().any(|run| run.contains(&position.wrapping_sub(512)));
        let (sent, mut block, mut work) = (sent(), block((0..768).filter(|position| !lost(position))), Work::of(record()));
        let closed = block.close(&mut work).unwrap();
        assert_eq!((closed.record(), closed.verdict(), closed.information()), (record(), Verdict::Ambiguous, None));
        assert_eq!(closed.to_string(), "ambiguous: heard 687, filled 1, left 80");
        let Closed::Ambiguous(ambiguous) = closed else { panic!("{closed:?}") };
        assert_eq!((ambiguous.record(), ambiguous.report()), (record(), closed.report()));
        let symbols: Vec<Symbol<'_>> = ambiguous.symbols().collect();
        assert_eq!(symbols.len(), 688);
        for symbol in &symbols {
            let mark = if symbol.position == 512 + 60 { Mark::Filled } else { Mark::Heard };
            assert_eq!((symbol.mark, symbol.bytes), (mark, &sent.symbol(symbol.position + 1).unwrap()[..]));
            assert_eq!(ambiguous.symbol_at(symbol.position), Some(*symbol));
        }
        let missing: Vec<usize> = ambiguous.missing().collect();
        assert!(missing.iter().all(|&position| ambiguous.symbol_at(position).is_none()));
        assert!(missing.iter().all(|position| lost(position) && *position != 512 + 60));
        assert_eq!(missing.len(), 80);
        let mut positions: Vec<usize> = symbols.iter().map(|symbol| symbol.position).chain(missing).collect();
        positions.sort_unstable();
        assert!(positions.into_iter().eq(0..768));
        assert_eq!(ambiguous.symbol_at(768), None);
        assert!(ambiguous.symbols().rev().eq(symbols.into_iter().rev()));
    }

    #[test]
    fn a_short_block_has_no_symbol_at_idle_positions() {
        let (record, idle) = (record().with_fill(200), 200..512);
        let sent = Codeword::encode(record, vec![7; 200 * W]).unwrap();
        let mut block = Block::open(record).unwrap();
        // too few units, then enough
        for lwc in sent.lwcs().filter(|lwc| lwc % 3 == 0) {
            block.take(&sent.unit(lwc).unwrap()).unwrap();
        }
        let mut work = Work::of(record);
        let closed = block.close(&mut work).unwrap();
        let Closed::Ambiguous(ambiguous) = closed else { panic!("{closed:?}") };
        let Report { heard, filled, left, .. } = closed.report();
        assert_eq!((heard, heard + filled + left), (66 + 86, 456));
        assert!(idle.clone().all(|position| ambiguous.symbol_at(position).is_none()));
        assert!(ambiguous.symbols().all(|symbol| !idle.contains(&symbol.position)) && ambiguous.symbols().count() == heard + filled);
        assert!(ambiguous.missing().all(|position| !idle.contains(&position)) && ambiguous.missing().count() == left);
        for lwc in sent.lwcs().filter(|lwc| lwc % 3 == 1) {
            block.take(&sent.unit(lwc).unwrap()).unwrap();
        }
        let closed = block.close(&mut work).unwrap();
        let Closed::Whole(whole) = closed else { panic!("{closed:?}") };
        assert_eq!(
            (closed.information(), whole.information(), whole.parity()),
            (Some(sent.information()), sent.information(), sent.parity())
        );
        for position in 0..768 {
            assert_eq!(whole.symbol_at(position), sent.symbol(position + 1).ok().as_deref(), "position {position}");
        }
    }

    #[test]
    fn an_inconsistent_block_gives_out_nothing() {
        // all symbols are heard, one of them not as it was sent
        let (sent, mut block, mut work) = (sent(), block(1..768), Work::of(record()));
        let mut unit = sent.unit(1).unwrap();
        *unit.last_mut().unwrap() ^= 1;
        block.take(&unit).unwrap();
        let closed = block.close(&mut work).unwrap();
        assert_eq!((closed.record(), closed.verdict(), closed.information()), (record(), Verdict::Inconsistent, None));
        assert_eq!(closed.to_string(), "inconsistent: heard 768, filled 0, left 0");
        let Closed::Inconsistent(inconsistent) = closed else { panic!("{closed:?}") };
        assert_eq!((inconsistent.record(), inconsistent.report()), (record(), closed.report()));
        // the raw buffers have what came, as it came
        let (symbols, marks) = block.raw_buffers();
        assert_eq!((&symbols[..W], marks), (&unit[unit.len() - W..], &[1; 768][..]));
    }

    #[test]
    fn no_bytes_are_shown_for_a_log() {
        let mut block = block(0..768);
        let shown = format!("{:?}", block.close(&mut Work::of(record())).unwrap());
        assert!(
            shown.starts_with("Whole(Whole { record: Record { code: Code(1), w: 3, protocol: 2, lsc: 9, fill: 512 }, report: "),
            "{shown}"
        );
        assert!(shown.ends_with(", .. })") && shown.len() < 200, "{shown}");
    }
}
