//! Blocks on the ground, kept by their LSC.
use alloc::collections::BTreeMap;
use core::fmt;

use crate::{calls, Block, Closed, Code, Record, Refusal, Taken, Unit, Work, MAX_UNIT_BYTES};

/// The blocks of one protocol ID on the ground, kept by their LSC. Each is opened by its first unit, whose coding parameters name its code and
/// W, so blocks of different codes may come together. Units may come in any order, those of different blocks mixed, and any number of times.
///
/// If the first unit's coding parameters were changed on the way, and no CRC-32 found it, the block's other units are refused with
/// [`Refusal::Parameters`] until the block is removed.
///
/// No unit carries the fill of its block, so a block is opened as a full one. **The fill of a short block has to be told**, with
/// [`Receiver::set_fill`]: before its first unit or after it, but before the close.
///
/// A close keeps the block, so that more units may come and it may be closed again. [`Receiver::remove`] gives it back; a unit of the same LSC
/// that comes after that opens a new block. LSCs come again after 65,534 blocks, so a block must be removed before its number does.
///
/// No more blocks than a limit are open at a time; a unit that would open one more is not taken, and answers [`ReceiveError::Full`]. A block
/// needs up to 3 MB.
///
/// ```
/// use lipvezor::{Code, Codeword, ReceiveError, Receiver, Record, Refusal, Taken};
///
/// # fn main() -> Result<(), Box<dyn std::error::Error>> {
/// let record = Record::new(Code::C1, 8).with_protocol(1);
/// let sent = [5, 6].map(|lsc| Codeword::encode(record.with_lsc(lsc), [lsc as u8; 512 * 8]).unwrap());
///
/// let mut receiver = Receiver::new(1)?.with_limit(2);
/// for lwc in sent[0].lwcs().skip(100).rev() {
///     for word in &sent {
///         let received = receiver.take(&word.unit(lwc)?)?;
///         assert_eq!((received.lsc, received.taken), (word.record().lsc(), Taken::Kept));
///     }
/// }
/// let third = Codeword::encode(record.with_lsc(7), [0; 512 * 8])?;
/// assert_eq!(receiver.take(&third.unit(1)?), Err(ReceiveError::Full));
/// let foreign = Codeword::encode(record.with_protocol(2), [0; 512 * 8])?;
/// assert_eq!(receiver.take(&foreign.unit(1)?), Err(ReceiveError::Refused(Refusal::Foreign)));
///
/// for lsc in [5, 6] {
///     assert_eq!(receiver.close(lsc)?.information(), Some(&[lsc as u8; 512 * 8][..]));
///     receiver.remove(lsc);
/// }
/// assert!(receiver.is_empty());
/// # Ok(())
/// # }
/// ```
#[derive(Clone, Debug)]
pub struct Receiver {
    protocol: usize,
    limit: usize,
    blocks: BTreeMap<usize, Block>,
    // told for blocks that are not open yet
    fills: BTreeMap<usize, usize>,
    work: Work,
}

/// What a receiver did with a unit: of which block it is, and whether it is new there.
///
/// ```
/// use lipvezor::{Code, Codeword, Receiver, Record};
///
/// # fn main() -> Result<(), Box<dyn std::error::Error>> {
/// let sent = Codeword::encode(Record::new(Code::C1, 1).with_lsc(7), [0; 512])?;
/// let mut receiver = Receiver::new(0)?;
/// let received = receiver.take(&sent.unit(1)?)?;
/// assert_eq!(received.lsc, 7);
/// assert_eq!(received.to_string(), "LSC 7: kept");
/// # Ok(())
/// # }
/// ```
#[non_exhaustive]
#[derive(Clone, Copy, Debug, PartialEq, Eq, Hash)]
pub struct Received {
    /// The block's number.
    pub lsc: usize,
    /// What the block did with it.
    pub taken: Taken,
}

/// `LSC 7: kept`.
impl fmt::Display for Received {
    fn fmt(&self, f: &mut fmt::Formatter<'_>) -> fmt::Result {
        write!(f, "LSC {}: {}", self.lsc, self.taken)
    }
}

/// Why a receiver turned a call down; nothing has changed then.
///
/// ```
/// use lipvezor::{Code, Codeword, ReceiveError, Receiver, Record, Refusal};
///
/// # fn main() -> Result<(), Refusal> {
/// let unit = Codeword::encode(Record::new(Code::C1, 1).with_lsc(7), [0; 512])?.unit(1)?;
/// let mut none = Receiver::new(0)?.with_limit(0);
/// assert_eq!(none.take(&unit), Err(ReceiveError::Full));
/// assert_eq!(none.take(&unit[1..]), Err(ReceiveError::Refused(Refusal::Header)));
/// assert_eq!(none.close(7), Err(ReceiveError::NotOpen));
/// # Ok(())
/// # }
/// ```
#[non_exhaustive]
#[derive(Clone, Copy, Debug, PartialEq, Eq, Hash)]
pub enum ReceiveError {
    /// Refused; of a unit, as a block of its LSC would refuse it.
    Refused(Refusal),
    /// The unit would open a block beyond the limit. It was not taken, and may be handed over again when a block was removed.
    Full,
    /// No block of this LSC is open.
    NotOpen,
}

impl From<Refusal> for ReceiveError {
    fn from(refusal: Refusal) -> ReceiveError {
        ReceiveError::Refused(refusal)
    }
}

impl fmt::Display for ReceiveError {
    fn fmt(&self, f: &mut fmt::Formatter<'_>) -> fmt::Result {
        match self {
            ReceiveError::Refused(refusal) => refusal.fmt(f),
            ReceiveError::Full => f.pad("full: as many blocks are open as the limit allows"),
            ReceiveError::NotOpen => f.pad("not open: no block of this LSC is"),
        }
    }
}

impl core::error::Error for ReceiveError {}

/// Whether the archive takes a protocol ID and an LSC.
fn label(protocol: usize, lsc: usize) -> Result<(), Refusal> {
    // write refuses the label before it refuses an output of no bytes
    match calls::write(&Record::new(Code::C1, 1).with_protocol(protocol).with_lsc(lsc), 1, &[], &mut []) {
        Err(Refusal::Length) => Ok(()),
        answer => answer,
    }
}

impl Receiver {
    /// The limit where none is named.
    pub const DEFAULT_LIMIT: usize = 16;

    /// A receiver of one protocol ID, with no block open and [`Receiver::DEFAULT_LIMIT`].
    ///
    /// Refusals: label.
    pub fn new(protocol: usize) -> Result<Receiver, Refusal> {
        label(protocol, 1)?;
        let (blocks, fills) = (BTreeMap::new(), BTreeMap::new());
        Ok(Receiver { protocol, limit: Receiver::DEFAULT_LIMIT, blocks, fills, work: Work::default() })
    }

    /// The same with another limit of open blocks. Blocks that are open stay so.
    #[must_use]
    pub fn with_limit(self, limit: usize) -> Receiver {
        Receiver { limit, ..self }
    }

    /// The protocol ID.
    #[must_use]
    pub fn protocol(&self) -> usize {
        self.protocol
    }

    /// How many blocks may be open at a time.
    #[must_use]
    pub fn limit(&self) -> usize {
        self.limit
    }

    /// Tells the fill of the block of an LSC, 1 to its k, whether it is open or not.
    ///
    /// An open block goes on with this fill, and the answer is how many of its heard symbols no longer count: see [`Block::set_fill`], also for
    /// what happens with a fill that is not the sender's. For a block that is not open the fill is kept, one for each LSC, until the block's first
    /// unit opens it, or [`Receiver::remove`] is called with this LSC; the answer is 0. So it holds for one block: a later one of the same LSC is
    /// full again, unless it is told otherwise.
    ///
    /// Refusals: label (the LSC is none), fill (0, or above k; of a block that is not open, above every code's k). A fill that is above the k that
    /// a first unit names is refused then: its block is not opened until another fill is told.
    ///
    /// ```
    /// use lipvezor::{Code, Codeword, ReceiveError, Receiver, Record, Refusal};
    ///
    /// # fn main() -> Result<(), Box<dyn std::error::Error>> {
    /// let record = Record::new(Code::C1, 1).with_fill(100);
    /// let sent = [5, 6].map(|lsc| Codeword::encode(record.with_lsc(lsc), [lsc as u8; 100]).unwrap());
    /// let mut receiver = Receiver::new(0)?;
    /// receiver.set_fill(5, 100)?; // before its first unit
    /// for unit in sent.iter().flat_map(|word| word.units().unwrap().skip(90)) {
    ///     receiver.take(&unit)?;
    /// }
    /// receiver.set_fill(6, 100)?; // after it
    /// for lsc in [5, 6] {
    ///     assert_eq!(receiver.close(lsc)?.information(), Some(&[lsc as u8; 100][..]));
    /// }
    /// assert_eq!(receiver.set_fill(6, 513), Err(ReceiveError::Refused(Refusal::Fill)));
    /// # Ok(())
    /// # }
    /// ```
    pub fn set_fill(&mut self, lsc: usize, fill: usize) -> Result<usize, ReceiveError> {
        label(self.protocol, lsc)?;
        if let Some(block) = self.blocks.get_mut(&lsc) {
            return Ok(block.set_fill(fill)?);
        }
        if !Code::ALL.iter().any(|code| (1..=code.k()).contains(&fill)) {
            return Err(Refusal::Fill.into());
        }
        self.fills.insert(lsc, fill);
        Ok(0)
    }

    /// Takes one unit, without its CRC-32. If no block of its LSC is open, it opens one. A unit that is not taken opens none.
    ///
    /// A unit that can't be read is refused as [`Unit::read`] does. Where its block is open, the answer is [`Block::take`]'s. Where none is, the
    /// refusals are, in this order: label (the LSC is none), parameters (those of no code, of a W that is refused, of another seed than 0, or
    /// none), fill (the one that was told is above k), foreign (another protocol ID), position, idle, symbol. Only a unit that is not refused
    /// answers [`ReceiveError::Full`].
    pub fn take(&mut self, unit: &[u8]) -> Result<Received, ReceiveError> {
        let parts = Unit::read(unit)?;
        let lsc = parts.lsc;
        if let Some(block) = self.blocks.get_mut(&lsc) {
            let taken = block.take(unit)?;
            return Ok(Received { lsc, taken });
        }
        let record = self.record_of(&parts)?;
        if self.blocks.len() >= self.limit {
            return Err(ReceiveError::Full);
        }
        let mut block = Block::open(record)?;
        let taken = block.take(unit)?;
        self.blocks.insert(lsc, block);
        self.fills.remove(&lsc);
        Ok(Received { lsc, taken })
    }

    /// The record of the block that a unit opens; refused where that block would refuse the unit. Nothing is allocated for it.
    fn record_of(&self, unit: &Unit<'_>) -> Result<Record, Refusal> {
        label(self.protocol, unit.lsc)?;
        let coding = unit.coding.filter(|coding| coding.seed == 0).ok_or(Refusal::Parameters)?;
        let code = coding.code().ok_or(Refusal::Parameters)?;
        let fill = self.fills.get(&unit.lsc).copied().unwrap_or(code.k());
        let record = Record::new(code, coding.w).with_protocol(self.protocol).with_lsc(unit.lsc).with_fill(fill);
        if record.unit_bytes() == 0 {
            return Err(Refusal::Parameters); // its W is refused
        }
        if record.information_bytes() == 0 {
            return Err(Refusal::Fill);
        }
        if unit.protocol != self.protocol {
            return Err(Refusal::Foreign);
        }
        // write refuses position, idle and symbol as take does
        calls::write(&record, unit.lwc, unit.symbol, &mut [0; MAX_UNIT_BYTES][..record.unit_bytes()])?;
        Ok(record)
    }

    /// Closes the open block of an LSC, and keeps it. Where none is open, the answer is [`ReceiveError::NotOpen`].
    pub fn close(&mut self, lsc: usize) -> Result<Closed<'_>, ReceiveError> {
        let block = self.blocks.get_mut(&lsc).ok_or(ReceiveError::NotOpen)?;
        self.work.grow(block.record());
        Ok(block.close(&mut self.work)?)
    }

    /// The open block of an LSC.
    #[must_use]
    pub fn block(&self, lsc: usize) -> Option<&Block> {
        self.blocks.get(&lsc)
    }

    /// The LSCs of the open blocks, from the least on.
    #[must_use]
    pub fn lscs(&self) -> impl DoubleEndedIterator<Item = usize> + ExactSizeIterator + Clone + '_ {
        self.blocks.keys().copied()
    }

    /// How many blocks are open.
    #[must_use]
    pub fn len(&self) -> usize {
        self.blocks.len()
    }

    /// Whether no block is open.
    #[must_use]
    pub fn is_empty(&self) -> bool {
        self.blocks.is_empty()
    }

    /// Takes the open block of an LSC out of the receiver. Where none is open, a fill that was told for it is forgotten.
    pub fn remove(&mut self, lsc: usize) -> Option<Block> {
        self.fills.remove(&lsc);
        self.blocks.remove(&lsc)
    }
}

#[cfg(test)]
mod tests {
    use alloc::string::ToString;
    use alloc::vec;
    use alloc::vec::Vec;

    use super::*;
    use crate::{Codeword, Mark, Verdict};

    fn word(record: Record) -> Codeword<Vec<u8>> {
        let information: Vec<u8> = (0..record.information_bytes()).map(|i| (i * 29 % 249 + record.lsc()) as u8).collect();
        Codeword::encode(record, information).unwrap()
    }

    fn taken(lsc: usize, taken: Taken) -> Result<Received, ReceiveError> {
        Ok(Received { lsc, taken })
    }

    fn refused<T>(refusal: Refusal) -> Result<T, ReceiveError> {
        Err(ReceiveError::Refused(refusal))
    }

    #[test]
    fn interleaved_blocks_of_all_codes_are_received() {
        let records = [
            (Code::C1, 1, 1),
            (Code::C2, 3, 65_534),
            (Code::C1, 200, 3),
            (Code::C4, 1, 40),
            (Code::C5, 2, 41),
            (Code::C7, 130, 2),
            (Code::C8, 1, 42),
        ];
        let sent = records.map(|(code, w, lsc)| word(Record::new(code, w).with_protocol(5).with_lsc(lsc)));
        let mut units: Vec<Vec<u8>> = Vec::new();
        for word in &sent {
            // half as many are lost as there is parity
            let lost = 2 * word.record().n() / word.record().m();
            units.extend(word.lwcs().filter(|lwc| lwc % lost != 2).map(|lwc| word.unit(lwc).unwrap()));
        }
        // 977 is prime, so that each is met once
        assert!(units.len() % 977 != 0);
        units = (0..units.len()).map(|i| units[i * 977 % units.len()].clone()).collect();

        let mut receiver = Receiver::new(5).unwrap();
        let mut alone = sent.each_ref().map(|word| Block::open(word.record()).unwrap());
        for unit in &units {
            let block = alone.iter_mut().find(|block| block.record().lsc() == Unit::read(unit).unwrap().lsc).unwrap();
            assert_eq!(receiver.take(unit), taken(block.record().lsc(), block.take(unit).unwrap()));
        }
        assert!(receiver.lscs().eq([1, 2, 3, 40, 41, 42, 65_534]));
        assert_eq!((receiver.len(), receiver.is_empty(), receiver.protocol()), (7, false, 5));
        for (word, alone) in sent.iter().zip(alone) {
            let lsc = word.record().lsc();
            assert_eq!(receiver.block(lsc), Some(&alone));
            let closed = receiver.close(lsc).unwrap();
            assert_eq!((closed.verdict(), closed.information()), (Verdict::Whole, Some(word.information())));
            assert_eq!(receiver.remove(lsc).unwrap().record(), word.record());
        }
        assert!(receiver.is_empty());
    }

    /// A unit of C1 and one byte a symbol, LSC 7 and protocol ID 1.
    const UNIT: [u8; 15] = [0x12, 1, 0, 5, 0, 7, 1, 6, 1, 0x84, 0, 0x86, 0, 0, 0xAA];

    /// The unit with other bytes from a place on.
    fn changed(place: usize, bytes: &[u8]) -> Vec<u8> {
        let mut unit = UNIT.to_vec();
        unit[place..place + bytes.len()].copy_from_slice(bytes);
        unit
    }

    /// What a block of LSC 7 refuses, with why.
    fn refusals() -> Vec<(Vec<u8>, Refusal)> {
        vec![
            (vec![], Refusal::Header),
            (UNIT[..5].to_vec(), Refusal::Header),
            (changed(0, &[0x22]), Refusal::Header),
            (changed(1, &[0]), Refusal::Header),
            (UNIT[..6].to_vec(), Refusal::Extension),
            (UNIT[..13].to_vec(), Refusal::Extension),
            (changed(9, &[0x80]), Refusal::Number),
            (changed(6, &[255]), Refusal::ExtensionKind),
            (changed(6, &[9]), Refusal::Parameters),
            (changed(8, &[0]), Refusal::Parameters),
            // W 1025
            ([&UNIT[..7], &[7, 0x88, 1], &UNIT[9..14], &[0; 1025]].concat(), Refusal::Parameters),
            // k 513, n 769, then k and n of another code each
            (changed(10, &[1]), Refusal::Parameters),
            (changed(12, &[1]), Refusal::Parameters),
            (changed(9, &[0x90]), Refusal::Parameters),
            (changed(11, &[0x98]), Refusal::Parameters),
            (changed(13, &[1]), Refusal::Parameters),
            (changed(0, &[0x10]), Refusal::Foreign),
            (changed(0, &[0x1E]), Refusal::Foreign),
            (changed(3, &[0]), Refusal::Position),
            (changed(2, &[3, 1]), Refusal::Position),
            (changed(2, &[255, 255]), Refusal::Position),
            (UNIT[..14].to_vec(), Refusal::Symbol),
            ([&UNIT[..], &[0]].concat(), Refusal::Symbol),
            // two apply: the first in the order
            ([&changed(13, &[1])[..2], &[0, 0], &changed(13, &[1])[4..]].concat(), Refusal::Parameters),
            ([&changed(0, &[0x10])[..2], &[0, 0], &UNIT[4..]].concat(), Refusal::Foreign),
            (changed(0, &[0x10, 1, 0, 5, 0, 7, 1, 6, 0]), Refusal::Parameters),
            ([&changed(3, &[0])[..14]].concat(), Refusal::Position),
        ]
    }

    #[test]
    fn a_refused_unit_opens_no_block_and_is_refused_as_its_block_would() {
        let mut receiver = Receiver::new(1).unwrap();
        let mut block = Block::open(Record::new(Code::C1, 1).with_protocol(1).with_lsc(7)).unwrap();
        for (unit, refusal) in refusals() {
            assert_eq!(block.take(&unit), Err(refusal), "{:02x?}", &unit[..unit.len().min(16)]);
            assert_eq!(receiver.take(&unit), refused(refusal), "{:02x?}", &unit[..unit.len().min(16)]);
            assert!(receiver.is_empty());
        }
        assert_eq!(receiver.take(&UNIT), taken(7, Taken::Kept));
        for (unit, refusal) in refusals() {
            assert_eq!(receiver.take(&unit), refused(refusal), "{:02x?}", &unit[..unit.len().min(16)]);
            assert_eq!(receiver.len(), 1);
        }
        assert_eq!(block.take(&UNIT), Ok(Taken::Kept));
        assert_eq!(receiver.block(7), Some(&block));
    }

    #[test]
    fn an_lsc_that_is_none_is_refused() {
        let mut receiver = Receiver::new(1).unwrap();
        for lsc in [[0, 0], [255, 255]] {
            let mut foreign = changed(4, &lsc);
            assert_eq!(receiver.take(&foreign), refused(Refusal::Label));
            foreign[0] = 0x10;
            assert_eq!(receiver.take(&foreign), refused(Refusal::Label));
            foreign[13] = 1;
            assert_eq!(receiver.take(&foreign), refused(Refusal::Label));
        }
        assert!(receiver.is_empty());
        assert_eq!(receiver.take(&changed(4, &[255, 254])), taken(65_534, Taken::Kept));
        for protocol in [8, usize::MAX] {
            assert_eq!(Receiver::new(protocol).unwrap_err(), Refusal::Label);
        }
    }

    #[test]
    fn a_block_beyond_the_limit_is_not_opened() {
        let mut receiver = Receiver::new(1).unwrap().with_limit(2);
        let of = |lsc: u8| changed(5, &[lsc]);
        assert_eq!([1, 2].map(|lsc| receiver.take(&of(lsc))), [1, 2].map(|lsc| taken(lsc, Taken::Kept)));
        assert_eq!(receiver.take(&of(3)), Err(ReceiveError::Full));
        assert!(receiver.lscs().eq([1, 2]));
        // open blocks go on, and what is refused is so all the same
        assert_eq!(receiver.take(&of(1)), taken(1, Taken::Repeated));
        for (unit, refusal) in refusals() {
            assert_eq!(receiver.take(&unit), refused(refusal));
        }
        // when one is removed there is room for it
        assert_eq!(receiver.remove(3), None);
        assert_eq!(receiver.remove(1).unwrap().mark(4), Some(Mark::Heard));
        assert_eq!(receiver.take(&of(3)), taken(3, Taken::Kept));
        assert_eq!(receiver.take(&of(1)), Err(ReceiveError::Full));
        let mut none = receiver.with_limit(0);
        assert_eq!((none.limit(), none.len()), (0, 2));
        assert_eq!([2, 4].map(|lsc| none.take(&of(lsc))), [taken(2, Taken::Repeated), Err(ReceiveError::Full)]);
    }

    #[test]
    fn repeated_and_other_bytes() {
        let mut receiver = Receiver::new(1).unwrap();
        assert_eq!(receiver.take(&UNIT), taken(7, Taken::Kept));
        assert_eq!(receiver.take(&UNIT), taken(7, Taken::Repeated));
        assert_eq!(receiver.take(&changed(14, &[0xAB])), refused(Refusal::Conflict));
        assert_eq!(receiver.block(7).unwrap().raw_buffers().0[4], 0xAA);
        // of the same LSC, with another W
        let wider = [&UNIT[..8], &[2], &UNIT[9..], &[0xAA]].concat();
        assert_eq!(receiver.take(&wider), refused(Refusal::Parameters));
        assert_eq!(receiver.len(), 1);
    }

    #[test]
    fn the_first_unit_names_the_code() {
        // n 768, 640 and 576, all with k 512
        let units = [(Code::C1, [0x86, 0]), (Code::C4, [0x85, 0]), (Code::C7, [0x84, 0x40])].map(|(code, n)| (code, changed(11, &n)));
        for (code, unit) in &units {
            let mut receiver = Receiver::new(1).unwrap();
            assert_eq!(receiver.take(unit), taken(7, Taken::Kept));
            assert_eq!(receiver.block(7).unwrap().record().code(), *code);
            for (_, other) in units.iter().filter(|(other, _)| other != code) {
                assert_eq!(receiver.take(other), refused(Refusal::Parameters));
            }
        }
    }

    /// Told before the first unit, after it, or after a close.
    #[test]
    fn a_short_block_closes_with_the_fill_that_was_told() {
        let record = Record::new(Code::C4, 3).with_lsc(9).with_fill(77);
        let sent = word(record);
        for told_at in [0, 1, 60, 150] {
            let mut receiver = Receiver::new(0).unwrap();
            for (i, unit) in sent.units().unwrap().skip(50).enumerate() {
                if i == told_at {
                    if i > 100 {
                        assert_eq!(receiver.close(9).unwrap().verdict(), Verdict::Ambiguous);
                    }
                    assert_eq!(receiver.set_fill(9, 77), Ok(0));
                }
                assert_eq!(receiver.take(&unit), taken(9, Taken::Kept));
            }
            assert_eq!(receiver.block(9).unwrap().record(), record);
            assert_eq!(receiver.close(9).unwrap().information(), Some(sent.information()));
        }
    }

    #[test]
    fn a_fill_is_told_for_one_block() {
        // a unit of C1 with LWC 5
        let mut receiver = Receiver::new(1).unwrap();
        let fill = |receiver: &Receiver| receiver.block(7).map(|block| block.record().fill());
        receiver.set_fill(7, 300).unwrap();
        receiver.set_fill(7, 200).unwrap();
        assert!(receiver.is_empty());
        receiver.take(&UNIT).unwrap();
        assert_eq!(fill(&receiver), Some(200));
        receiver.remove(7);
        receiver.take(&UNIT).unwrap();
        assert_eq!(fill(&receiver), Some(512));
        receiver.remove(7);
        // forgotten before its block came
        receiver.set_fill(7, 100).unwrap();
        assert_eq!(receiver.remove(7), None);
        receiver.take(&UNIT).unwrap();
        assert_eq!(fill(&receiver), Some(512));
        // of another block
        receiver.set_fill(8, 100).unwrap();
        assert_eq!(fill(&receiver), Some(512));
        assert!(receiver.fills.keys().eq(&[8]));
    }

    #[test]
    fn a_fill_that_does_not_fit_is_refused() {
        let mut receiver = Receiver::new(1).unwrap();
        for lsc in [0, 65_535, usize::MAX] {
            assert_eq!([0, 100].map(|fill| receiver.set_fill(lsc, fill)), [refused(Refusal::Label), refused(Refusal::Label)]);
        }
        // not open: above every k
        for fill in [0, 2049, usize::MAX] {
            assert_eq!(receiver.set_fill(7, fill), refused(Refusal::Fill));
        }
        assert!(receiver.fills.is_empty());
        // above the k that the unit names: no unit opens the block, and what is tried before comes first
        assert_eq!(receiver.set_fill(7, 513), Ok(0));
        assert_eq!(receiver.take(&UNIT), refused(Refusal::Fill));
        assert_eq!(receiver.take(&changed(0, &[0x10])), refused(Refusal::Fill));
        assert_eq!(receiver.take(&changed(13, &[1])), refused(Refusal::Parameters));
        assert!(receiver.is_empty());
        // idle: LWC 5 and fill 4
        assert_eq!(receiver.set_fill(7, 4), Ok(0));
        assert_eq!(receiver.take(&UNIT), refused(Refusal::Idle));
        assert_eq!(receiver.take(&UNIT[..14]), refused(Refusal::Idle));
        assert_eq!(receiver.take(&changed(2, &[2, 0])), refused(Refusal::Idle));
        assert_eq!(receiver.take(&changed(3, &[0])), refused(Refusal::Position));
        assert!(receiver.is_empty());
        assert_eq!(receiver.set_fill(7, 5), Ok(0));
        assert_eq!(receiver.take(&UNIT), taken(7, Taken::Kept));
        // open: above its k
        for fill in [0, 513, 2048] {
            assert_eq!(receiver.set_fill(7, fill), refused(Refusal::Fill));
        }
        assert_eq!(receiver.block(7).unwrap().record().fill(), 5);
        assert_eq!(receiver.take(&changed(2, &[2, 0])), refused(Refusal::Idle));
        assert_eq!(receiver.set_fill(7, 512), Ok(0));
        assert_eq!(receiver.take(&changed(2, &[2, 0])), taken(7, Taken::Kept));
        // of the two that were heard one no longer counts, then none
        assert_eq!((receiver.set_fill(7, 5), receiver.set_fill(7, 4), receiver.set_fill(7, 3)), (Ok(1), Ok(1), Ok(0)));
    }

    #[test]
    fn a_close_keeps_the_block_for_more_units() {
        let sent = word(Record::new(Code::C2, 2).with_lsc(12));
        let mut receiver = Receiver::new(0).unwrap();
        for unit in sent.units().unwrap().take(2047) {
            receiver.take(&unit).unwrap();
        }
        assert_eq!(receiver.close(12).unwrap().verdict(), Verdict::Ambiguous);
        receiver.take(&sent.unit(2048).unwrap()).unwrap();
        assert_eq!(receiver.close(12).unwrap().to_string(), "whole: heard 2048, filled 1024, left 0");
        assert_eq!(receiver.take(&sent.unit(3000).unwrap()), taken(12, Taken::Kept));
        assert_eq!(receiver.close(12).unwrap().information(), Some(sent.information()));
        assert_eq!(receiver.close(11), Err(ReceiveError::NotOpen));
        assert!(receiver.remove(12).is_some() && receiver.remove(12).is_none());
        assert_eq!(receiver.close(12), Err(ReceiveError::NotOpen));
    }

    #[test]
    fn answers_are_shown_in_words() {
        assert_eq!(taken(7, Taken::Kept).unwrap().to_string(), "LSC 7: kept");
        assert_eq!(ReceiveError::from(Refusal::Width).to_string(), Refusal::Width.to_string());
        assert_eq!(ReceiveError::Full.to_string(), "full: as many blocks are open as the limit allows");
        assert_eq!(ReceiveError::NotOpen.to_string(), "not open: no block of this LSC is");
    }
}
