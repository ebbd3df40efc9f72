//! A block on board: information, parity and units.
#[cfg(feature = "alloc")]
use alloc::{vec, vec::Vec};
use core::fmt;
use core::iter::FusedIterator;
use core::ops::Range;

use crate::{calls, Record, Refusal, MAX_WIDTH};

/// The widest symbol that a short array serves when its unit is written.
const NARROW: usize = 64;

/// A block on board: its record, its information and the parity that encoding adds. Both are in buffers that it owns or borrows; any type that
/// lends its bytes will do. Symbols are numbered by their LWC, from 1 to n: information symbols have LWC 1 to k, parity symbols k + 1 to n. Of a
/// [short block](Record#a-short-block) LWC fill + 1 to k are not sent: [`Codeword::lwcs`] has those that are.
///
/// ```
/// use lipvezor::{Code, Codeword, Record, Refusal, Unit};
///
/// # fn main() -> Result<(), Refusal> {
/// let record = Record::new(Code::C1, 4).with_protocol(1).with_lsc(7);
/// let information = vec![7; record.information_bytes()];
/// let sent = Codeword::encode(record, &information)?;
/// assert_eq!(sent.symbol(1)?, [7, 7, 7, 7]);
/// assert_eq!(sent.symbol(768)?, [0, 0, 0, 0]); // C1's last parity symbol is the sum of all information symbols
/// assert_eq!(sent.symbol(0), Err(Refusal::Position));
///
/// let unit = sent.unit(512)?;
/// assert_eq!(unit.len(), record.unit_bytes());
/// assert_eq!(Unit::read(&unit)?.lwc, 512);
/// assert_eq!(sent.unit(769), Err(Refusal::Position));
///
/// let wider = Record::new(Code::C1, 5);
/// assert_eq!(Codeword::encode(wider, &information).unwrap_err(), Refusal::Length);
/// # Ok(())
/// # }
/// ```
///
/// A short block, of 1,000 bytes:
///
/// ```
/// use lipvezor::{Code, Codeword, Record, Refusal};
///
/// # fn main() -> Result<(), Refusal> {
/// let record = Record::new(Code::C1, 4).with_fill(250);
/// let sent = Codeword::encode(record, [7; 1000])?;
/// assert_eq!(sent.units()?.len(), 250 + 256);
/// assert_eq!(sent.symbol(250)?, [7, 7, 7, 7]);
/// assert_eq!([251, 512].map(|lwc| sent.symbol(lwc)), [Err(Refusal::Idle), Err(Refusal::Idle)]);
/// assert_eq!(sent.symbol(513)?, sent.parity()[..4]);
///
/// assert_eq!(Codeword::encode(record.with_fill(513), [7; 513 * 4]).unwrap_err(), Refusal::Fill);
/// assert_eq!(Codeword::encode(Record::new(Code::C1, 4), [7; 1000]).unwrap_err(), Refusal::Length);
/// # Ok(())
/// # }
/// ```
///
/// With lent buffers nothing is allocated:
///
/// ```
/// use lipvezor::{Code, Codeword, Record, MAX_UNIT_BYTES};
///
/// # fn main() -> Result<(), lipvezor::Refusal> {
/// let record = Record::new(Code::C1, 4).with_protocol(1).with_lsc(7);
/// let (information, mut parity) = ([7; 512 * 4], [0; 256 * 4]);
/// let sent = Codeword::encode_in(record, &information, &mut parity)?;
/// let mut buffer = [0; MAX_UNIT_BYTES];
/// let unit = &mut buffer[..record.unit_bytes()];
/// for lwc in sent.lwcs() {
///     sent.write_unit(lwc, unit)?;
///     // send it
/// }
/// # Ok(())
/// # }
/// ```
#[derive(Clone, PartialEq, Eq)]
pub struct Codeword<I, #[cfg(feature = "alloc")] P = Vec<u8>, #[cfg(not(feature = "alloc"))] P> {
    record: Record,
    information: I,
    parity: P,
}

#[cfg(feature = "alloc")]
impl<I: AsRef<[u8]>> Codeword<I> {
    /// Encodes [`Record::information_bytes`] bytes, with a parity buffer of its own.
    ///
    /// Refusals: code, width, fill, length. For a code or width that is refused no parity is allocated. Protocol ID and LSC count only when units
    /// are written.
    pub fn encode(record: Record, information: I) -> Result<Codeword<I>, Refusal> {
        Codeword::encode_in(record, information, vec![0; record.parity_bytes()])
    }
}

impl<I: AsRef<[u8]>, P: AsRef<[u8]> + AsMut<[u8]>> Codeword<I, P> {
    /// Encodes [`Record::information_bytes`] bytes into a given parity buffer of [`Record::parity_bytes`] bytes. What that held is overwritten.
    ///
    /// Refusals: code, width, fill, length.
    pub fn encode_in(record: Record, information: I, mut parity: P) -> Result<Codeword<I, P>, Refusal> {
        calls::encode(&record, information.as_ref(), parity.as_mut())?;
        Ok(Codeword { record, information, parity })
    }
}

impl<I: AsRef<[u8]>, P: AsRef<[u8]>> Codeword<I, P> {
    /// The block's numbers.
    #[must_use]
    pub fn record(&self) -> Record {
        self.record
    }

    /// The information, fill symbols one after the other.
    #[must_use]
    pub fn information(&self) -> &[u8] {
        self.information.as_ref()
    }

    /// The parity, m symbols one after the other.
    #[must_use]
    pub fn parity(&self) -> &[u8] {
        self.parity.as_ref()
    }

    /// The LWCs of the units that are sent, in order: 1 to fill, and k + 1 to n.
    pub fn lwcs(&self) -> Lwcs {
        self.record.lwcs()
    }

    /// The symbol of an LWC, copied to an output of exactly W bytes.
    ///
    /// Refusals: length, position, idle.
    pub fn copy_symbol(&self, lwc: usize, out: &mut [u8]) -> Result<(), Refusal> {
        calls::show(&self.record, self.information(), self.parity(), lwc, out)
    }

    /// The symbol of an LWC.
    ///
    /// Refusals: position, idle.
    #[cfg(feature = "alloc")]
    pub fn symbol(&self, lwc: usize) -> Result<Vec<u8>, Refusal> {
        let mut symbol = vec![0; self.record.w()];
        self.copy_symbol(lwc, &mut symbol)?;
        Ok(symbol)
    }

    /// The unit of an LWC, without a CRC-32, into an output of exactly [`Record::unit_bytes`] bytes.
    ///
    /// Refusals: label, length, position, idle.
    pub fn write_unit(&self, lwc: usize, out: &mut [u8]) -> Result<(), Refusal> {
        // a narrow symbol does not pay for the widest one's array
        if self.record.w() <= NARROW {
            self.write_unit_by::<NARROW>(lwc, out)
        } else {
            self.write_unit_by::<MAX_WIDTH>(lwc, out)
        }
    }

    /// The same, with an array for symbols of up to N bytes.
    fn write_unit_by<const N: usize>(&self, lwc: usize, out: &mut [u8]) -> Result<(), Refusal> {
        let mut symbol = [0; N];
        let symbol = &mut symbol[..self.record.w()];
        match self.copy_symbol(lwc, symbol) {
            Ok(()) => calls::write(&self.record, lwc, symbol, out),
            // the LWC is refused; write answers so too, or what it tries before that
            Err(_) => calls::write(&self.record, lwc, &[], out),
        }
    }

    /// The unit of an LWC, without a CRC-32.
    ///
    /// Refusals: label, position, idle.
    #[cfg(feature = "alloc")]
    pub fn unit(&self, lwc: usize) -> Result<Vec<u8>, Refusal> {
        let mut unit = vec![0; self.record.unit_bytes()];
        self.write_unit(lwc, &mut unit)?;
        Ok(unit)
    }

    /// All units that are sent, in the order of LWC.
    ///
    /// Refusals: label.
    #[cfg(feature = "alloc")]
    pub fn units(&self) -> Result<Units<'_>, Refusal> {
        // the bytes that the first unit is written from are those of all units
        let word = Codeword { record: self.record, information: self.information(), parity: self.parity() };
        word.unit(1)?;
        Ok(Units { lwcs: word.lwcs(), word })
    }

    /// The two buffers, information and parity.
    #[must_use]
    pub fn into_buffers(self) -> (I, P) {
        (self.information, self.parity)
    }
}

impl<I, P> fmt::Debug for Codeword<I, P> {
    fn fmt(&self, f: &mut fmt::Formatter<'_>) -> fmt::Result {
        f.debug_struct("Codeword").field("record", &self.record).finish_non_exhaustive()
    }
}

/// The LWCs of the units that are sent of a block, in order, from [`Codeword::lwcs`] and [`Record::lwcs`]: 1 to fill, and k + 1 to n.
///
/// ```
/// use lipvezor::{Code, Codeword, Record};
///
/// # fn main() -> Result<(), lipvezor::Refusal> {
/// let sent = Codeword::encode(Record::new(Code::C1, 1), [0; 512])?;
/// assert!(sent.lwcs().eq(1..=768));
/// let short = Codeword::encode(Record::new(Code::C1, 1).with_fill(100), [0; 100])?;
/// assert!(short.lwcs().eq((1..=100).chain(513..=768)));
/// // every other unit, the last first
/// for lwc in sent.lwcs().rev().step_by(2) {
///     let unit = sent.unit(lwc)?;
/// }
/// # Ok(())
/// # }
/// ```
#[must_use]
#[derive(Clone, Debug, PartialEq, Eq)]
pub struct Lwcs {
    information: Range<usize>,
    parity: Range<usize>,
}

impl Lwcs {
    /// Of a record; none, if its code or fill is refused.
    pub(crate) fn of(record: Record) -> Lwcs {
        let (fill, k, n) = (record.fill(), record.k(), record.n());
        if (1..=k).contains(&fill) {
            Lwcs { information: 1..fill + 1, parity: k + 1..n + 1 }
        } else {
            Lwcs { information: 0..0, parity: 0..0 }
        }
    }
}

impl Iterator for Lwcs {
    type Item = usize;

    #[inline]
    fn next(&mut self) -> Option<usize> {
        self.information.next().or_else(|| self.parity.next())
    }

    fn nth(&mut self, n: usize) -> Option<usize> {
        let before = self.information.len();
        self.information.nth(n).or_else(|| self.parity.nth(n - before))
    }

    fn size_hint(&self) -> (usize, Option<usize>) {
        let length = self.information.len() + self.parity.len();
        (length, Some(length))
    }
}

impl DoubleEndedIterator for Lwcs {
    #[inline]
    fn next_back(&mut self) -> Option<usize> {
        self.parity.next_back().or_else(|| self.information.next_back())
    }

    fn nth_back(&mut self, n: usize) -> Option<usize> {
        let before = self.parity.len();
        self.parity.nth_back(n).or_else(|| self.information.nth_back(n - before))
    }
}

impl ExactSizeIterator for Lwcs {}

impl FusedIterator for Lwcs {}

/// The units that are sent of a block, in the order of LWC, from [`Codeword::units`]. A unit knows its LWC.
///
/// ```
/// use lipvezor::{Code, Codeword, Record, Unit};
///
/// # fn main() -> Result<(), lipvezor::Refusal> {
/// let sent = Codeword::encode(Record::new(Code::C1, 1), [0; 512])?;
/// assert_eq!(sent.units()?.len(), sent.lwcs().len());
/// for unit in sent.units()? {
///     println!("LWC {}", Unit::read(&unit)?.lwc);
/// }
/// # Ok(())
/// # }
/// ```
#[cfg(feature = "alloc")]
#[must_use]
#[derive(Clone, Debug)]
pub struct Units<'a> {
    word: Codeword<&'a [u8], &'a [u8]>,
    lwcs: Lwcs,
}

#[cfg(feature = "alloc")]
impl Units<'_> {
    fn unit(&self, lwc: usize) -> Vec<u8> {
        self.word.unit(lwc).expect("label and LWC are in range")
    }
}

#[cfg(feature = "alloc")]
impl Iterator for Units<'_> {
    type Item = Vec<u8>;

    fn next(&mut self) -> Option<Vec<u8>> {
        self.lwcs.next().map(|lwc| self.unit(lwc))
    }

    fn nth(&mut self, n: usize) -> Option<Vec<u8>> {
        self.lwcs.nth(n).map(|lwc| self.unit(lwc))
    }

    fn size_hint(&self) -> (usize, Option<usize>) {
        self.lwcs.size_hint()
    }
}

#[cfg(feature = "alloc")]
impl DoubleEndedIterator for Units<'_> {
    fn next_back(&mut self) -> Option<Vec<u8>> {
        self.lwcs.next_back().map(|lwc| self.unit(lwc))
    }
}

#[cfg(feature = "alloc")]
impl ExactSizeIterator for Units<'_> {}

#[cfg(feature = "alloc")]
impl FusedIterator for Units<'_> {}

#[cfg(all(test, feature = "alloc"))]
mod tests {
    use super::*;
    use crate::{Code, Unit};

    fn word(record: Record) -> Codeword<Vec<u8>> {
        let information: Vec<u8> = (0..record.information_bytes()).map(|i| (i * 31 % 253) as u8).collect();
        Codeword::encode(record, information).unwrap()
    }

    #[test]
    fn a_symbol_is_the_one_that_show_copies() {
        for (&code, w) in Code::ALL.iter().zip([1, 3, 5, 2, 16, 7]) {
            let word = word(Record::new(code, w));
            let all = [word.information(), word.parity()].concat();
            assert!(word.lwcs().eq(1..=code.n()));
            for (lwc, expected) in word.lwcs().zip(all.chunks(w)) {
                assert_eq!(word.symbol(lwc).as_deref(), Ok(expected), "LWC {lwc}");
                assert_eq!(Unit::read(&word.unit(lwc).unwrap()).unwrap().symbol, expected, "LWC {lwc}");
            }
            for lwc in [0, code.n() + 1, usize::MAX / w, usize::MAX - 1, usize::MAX] {
                assert_eq!(word.symbol(lwc), Err(Refusal::Position), "LWC {lwc}");
            }
            for length in [0, w - 1, w + 1] {
                let mut out = vec![0xEE; length];
                assert_eq!([0, 1].map(|lwc| word.copy_symbol(lwc, &mut out)), [Err(Refusal::Length); 2]);
                assert!(out.iter().all(|&x| x == 0xEE));
            }
        }
    }

    #[test]
    fn a_short_block_has_the_symbols_of_a_full_one_with_zeros() {
        for (&code, w) in Code::ALL.iter().zip([1, 3, 5, 2, 16, 7]) {
            let (n, k) = (code.n(), code.k());
            for fill in [1, 2, k / 3, k - 1] {
                let short = word(Record::new(code, w).with_fill(fill));
                let mut information = short.information().to_vec();
                assert_eq!(information.len(), fill * w);
                information.resize(k * w, 0);
                let full = Codeword::encode(Record::new(code, w), information).unwrap();
                assert_eq!(short.parity(), full.parity());
                for lwc in short.lwcs() {
                    assert_eq!((short.symbol(lwc), short.unit(lwc)), (full.symbol(lwc), full.unit(lwc)), "LWC {lwc}");
                }
                assert!(short.units().unwrap().eq((1..=fill).chain(k + 1..=n).map(|lwc| full.unit(lwc).unwrap())));
                for lwc in [fill + 1, k] {
                    assert_eq!((short.symbol(lwc), short.unit(lwc)), (Err(Refusal::Idle), Err(Refusal::Idle)), "LWC {lwc}");
                    // what is tried before
                    assert_eq!(short.copy_symbol(lwc, &mut vec![0; w + 1]), Err(Refusal::Length));
                    assert_eq!(short.write_unit(lwc, &mut []), Err(Refusal::Length));
                }
                for lwc in [0, n + 1, usize::MAX] {
                    assert_eq!((short.symbol(lwc), short.unit(lwc)), (Err(Refusal::Position), Err(Refusal::Position)), "LWC {lwc}");
                }
            }
        }
    }

    #[test]
    fn buffers_are_kept_or_borrowed() {
        let record = Record::new(Code::C1, 1);
        let owned = vec![9; 512];
        let place = owned.as_ptr();
        let borrowing = Codeword::encode(record, &owned[..]).unwrap();
        assert_eq!(borrowing.information().as_ptr(), place);
        let parity = borrowing.parity().to_vec();
        let mut lent = [0xEE; 256];
        let lending = Codeword::encode_in(record, &owned, &mut lent).unwrap();
        assert_eq!((lending.information().as_ptr(), lending.parity()), (place, &parity[..]));
        assert!(lending.units().unwrap().eq(borrowing.units().unwrap()));
        assert_eq!(lent[..], parity[..]);
        let owning = Codeword::encode(record, owned).unwrap();
        assert_eq!((owning.information().as_ptr(), owning.parity()), (place, &parity[..]));
        assert_eq!(owning.into_buffers(), (vec![9; 512], parity));
    }

    #[test]
    fn what_does_not_fit_is_refused() {
        for code in [0, 3, 255, usize::MAX].map(Code::from_number) {
            assert_eq!(Codeword::encode(Record::new(code, 1), []).unwrap_err(), Refusal::Code);
        }
        for w in [0, 1025, usize::MAX / 512, usize::MAX] {
            assert_eq!(Codeword::encode(Record::new(Code::C2, w), []).unwrap_err(), Refusal::Width);
        }
        for fill in [0, 513, usize::MAX] {
            assert_eq!(Codeword::encode(Record::new(Code::C1, 1).with_fill(fill), []).unwrap_err(), Refusal::Fill);
            assert_eq!(Codeword::encode(Record::new(Code::C1, 0).with_fill(fill), []).unwrap_err(), Refusal::Width);
        }
        for length in [0, 511, 513] {
            assert_eq!(Codeword::encode(Record::new(Code::C1, 1), vec![0; length]).unwrap_err(), Refusal::Length);
        }
        for length in [0, 99, 101, 512] {
            assert_eq!(Codeword::encode(Record::new(Code::C1, 1).with_fill(100), vec![0; length]).unwrap_err(), Refusal::Length);
        }
        for length in [0, 255, 257] {
            let mut parity = vec![0xEE; length];
            assert_eq!(Codeword::encode_in(Record::new(Code::C1, 1), [0; 512], &mut parity).unwrap_err(), Refusal::Length);
            assert!(parity.iter().all(|&x| x == 0xEE));
        }
    }

    #[test]
    fn a_unit_is_refused_as_write_refuses_it() {
        for (protocol, lsc) in [(8, 1), (0, 0), (0, 65_535)] {
            let word = word(Record::new(Code::C1, 2).with_protocol(protocol).with_lsc(lsc));
            assert_eq!(word.units().unwrap_err(), Refusal::Label);
            assert_eq!(word.unit(0), Err(Refusal::Label));
            assert_eq!(word.write_unit(1, &mut []), Err(Refusal::Label));
            assert_eq!(word.symbol(1).unwrap().len(), 2);
        }
        let word = word(Record::new(Code::C1, 2));
        let length = word.record().unit_bytes();
        for other in [0, length - 1, length + 1] {
            let mut out = vec![0xEE; other];
            assert_eq!([0, 1].map(|lwc| word.write_unit(lwc, &mut out)), [Err(Refusal::Length); 2]);
            assert!(out.iter().all(|&x| x == 0xEE));
        }
        for lwc in [0, 769, usize::MAX] {
            assert_eq!(word.unit(lwc), Err(Refusal::Position));
        }
    }

    #[test]
    fn units_come_from_both_ends() {
        let word = word(Record::new(Code::C1, 1).with_protocol(3).with_lsc(9));
        let all: Vec<Vec<u8>> = (1..=768).map(|lwc| word.unit(lwc).unwrap()).collect();
        let mut units = word.units().unwrap();
        assert_eq!(units.next().as_ref(), all.first());
        assert_eq!(units.next_back().as_ref(), all.last());
        assert_eq!(units.nth(10).as_ref(), all.get(11));
        assert_eq!(units.len(), 768 - 13);
        assert!(units.eq(all[12..767].iter().cloned()));
        assert_eq!(word.units().unwrap().nth(768), None);
        let mut lwcs = word.lwcs();
        assert_eq!((lwcs.next(), lwcs.next_back(), lwcs.nth(10), lwcs.len()), (Some(1), Some(768), Some(12), 768 - 13));
    }

    /// Over the gap, as from a list of them.
    #[test]
    fn lwcs_of_a_short_block_come_from_both_ends() {
        for fill in [1, 2, 3, 300, 511, 512] {
            let lwcs = Record::new(Code::C1, 1).with_fill(fill).lwcs();
            let all: Vec<usize> = (1..=fill).chain(513..=768).collect();
            assert!(lwcs.clone().eq(all.iter().copied()) && lwcs.clone().rev().eq(all.iter().rev().copied()));
            for skip in [0, 1, 2, 255, 256, 257, fill - 1, fill, fill + 1, fill + 255, fill + 256, usize::MAX] {
                let (mut ours, mut plain) = (lwcs.clone(), all.iter().copied());
                assert_eq!((ours.nth(skip), ours.len()), (plain.nth(skip), plain.len()), "fill {fill}, nth {skip}");
                assert_eq!(
                    (ours.next_back(), ours.next(), ours.len()),
                    (plain.next_back(), plain.next(), plain.len()),
                    "fill {fill}, nth {skip}"
                );
                let (mut ours, mut plain) = (lwcs.clone(), all.iter().copied());
                assert_eq!((ours.nth_back(skip), ours.len()), (plain.nth_back(skip), plain.len()), "fill {fill}, nth_back {skip}");
                assert_eq!(
                    (ours.next(), ours.next_back(), ours.len()),
                    (plain.next(), plain.next_back(), plain.len()),
                    "fill {fill}, nth_back {skip}"
                );
            }
            let mut ended = lwcs;
            assert_eq!((ended.by_ref().count(), ended.next(), ended.next_back(), ended.len()), (fill + 256, None, None, 0));
        }
    }

    #[test]
    fn units_of_any_width_are_written() {
        for w in [1, NARROW - 1, NARROW, NARROW + 1, MAX_WIDTH] {
            let word = word(Record::new(Code::C1, w));
            let unit = word.unit(512).unwrap();
            assert_eq!((unit.len(), &unit[unit.len() - w..]), (word.record().unit_bytes(), &word.information()[511 * w..]));
        }
    }

    /// Lends other bytes each time.
    struct Fickle {
        good: Vec<u8>,
        times: core::cell::Cell<usize>,
    }

    impl AsRef<[u8]> for Fickle {
        fn as_ref(&self) -> &[u8] {
            self.times.set(self.times.get() + 1);
            if self.times.get() % 2 == 1 {
                &self.good
            } else {
                &[]
            }
        }
    }

    #[test]
    fn bytes_that_are_lent_otherwise_make_no_panic() {
        let information = Fickle { good: vec![5; 512], times: 0.into() };
        let word = Codeword::encode(Record::new(Code::C1, 1), information).unwrap();
        // lent well at the first call, badly at the second
        assert_eq!(word.units().unwrap_err(), Refusal::Symbol);
        assert_eq!(word.units().unwrap().count(), 768);
    }
}
