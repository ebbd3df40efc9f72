//! The crate's own types against the model: Packer, Codeword, Block, the bytes that Closed gives out, Receiver.
#![cfg(feature = "alloc")]
mod compare;
mod model;

use compare::cases::{self, Case, Loss};
use compare::drafts::{Draft, Extension};
use compare::lists::{Call, List};
use compare::random::Random;
use compare::scripts::{self, Between};
use compare::unit_forms::any_unit;
use compare::units::Reader;
use compare::{ours, seeded, tiles, Stats};
use lipvezor::{Ambiguous, Block, Closed, Codeword, Inconsistent, Packer, ReceiveError, Receiver, Refusal, Symbol, Unit, Work};
use model::answers::{Report, Taken, UnitParts, Verdict};
use model::refusals::{refuse_if, Record};
use model::{blocks, calls, codes, encoder, units, Code, Fault};
use std::collections::BTreeMap;

/// Numbers that are no position of any block.
const BEYOND: [usize; 4] = [3072, 65_536, 1 << 32, usize::MAX];

// ---- packing

/// Random tiles of these lengths.
fn tiles_of(lengths: &[usize], random: &mut Random) -> Vec<Vec<u8>> {
    let tile = |&length: &usize| {
        let mut tile = vec![0; length];
        random.fill(&mut tile);
        tile
    };
    lengths.iter().map(tile).collect()
}

/// What the model packs tiles into, for a record of any numbers.
fn packed(record: Record, tiles: &[Vec<u8>]) -> Result<Vec<u8>, u8> {
    let lengths: Vec<usize> = tiles.iter().map(Vec::len).collect();
    // Where this isn't the output's size, the record is refused.
    let mut out = vec![0x5A; record.fill.min(2048) * record.w.min(1024)];
    calls::pack(record, &tiles.concat(), &lengths, &mut out, Fault::None).map(|()| out)
}

#[test]
fn tiles_packed_at_once() {
    let mut random = seeded();
    let mut stats = Stats::default();
    for code in codes::ALL {
        for (w, fill) in [5, 6, 16, 37, 128].into_iter().flat_map(|w| [1, 2, 30, code.k].map(|fill| (w, fill))) {
            let record = Record { code: code.number, w, protocol: random.below(16), lsc: random.below(70_000), fill };
            for list in tiles::fitting_or_overfull(fill, w - 4).iter().chain(&tiles::wrong(fill, w - 4)) {
                if list.lengths.iter().try_fold(0usize, |sum, &length| sum.checked_add(length)) != Some(list.bytes) {
                    continue;
                }
                let tiles = tiles_of(&list.lengths, &mut random);
                let answer = lipvezor::pack(ours::record(record), &tiles).map_err(Refusal::number);
                assert!(answer == packed(record, &tiles), "{record:?}, {:?}", list.lengths);
                assert_eq!(ours::record(record).rows_needed(&list.lengths), calls::rows_needed(w, &list.lengths));
                stats.count_packed(answer.map(|_| ()));
            }
        }
        for (w, fill) in [(0, 0), (1025, 1), (1, 1), (4, 0), (4, 1), (5, 0), (5, code.k + 1), (1024, usize::MAX)] {
            for (number, lengths) in [(code.number, &[][..]), (code.number, &[0]), (code.number, &[1_100_000; 2]), (3, &[1])] {
                let record = Record { code: number, w, protocol: 0, lsc: 1, fill };
                let tiles = tiles_of(lengths, &mut random);
                let due = packed(record, &tiles).unwrap_err();
                assert_eq!(lipvezor::pack(ours::record(record), &tiles).map_err(Refusal::number), Err(due), "{record:?}");
                assert_eq!(Packer::new(ours::record(record)).map_err(Refusal::number), Err(due), "{record:?}");
                stats.count_packed(Err(due));
            }
        }
    }
    println!("{stats:?}");
    assert!(stats.packed > 1000 && [1, 2, 15, 13, 16, 17].iter().all(|&number| stats.refused[number] > 10), "{stats:?}");
}

/// The crate's packer, and the tiles that it was handed and has not refused.
struct Packers {
    ours: Packer,
    record: Record,
    tiles: Vec<Vec<u8>>,
    stats: Stats,
}

impl Packers {
    fn new(record: Record) -> Packers {
        Packers { ours: Packer::new(ours::record(record)).unwrap(), record, tiles: Vec::new(), stats: Stats::default() }
    }

    fn push(&mut self, tile: Vec<u8>) {
        let answer = self.ours.push(&tile).map_err(Refusal::number);
        self.tiles.push(tile);
        assert_eq!(answer, packed(self.record, &self.tiles).map(|_| ()), "{:?}", self.record);
        if answer.is_err() {
            self.tiles.pop();
        }
        self.stats.count_packed(answer);
    }

    fn set_fill(&mut self, fill: usize) {
        let record = Record { fill, ..self.record };
        let answer = self.ours.set_fill(fill).map_err(Refusal::number);
        assert_eq!(answer, packed(record, &self.tiles).map(|_| ()), "{record:?}");
        if answer.is_ok() {
            self.record = record;
        }
        self.stats.count_packed(answer);
    }

    fn clear(&mut self) {
        self.ours.clear();
        self.tiles.clear();
    }

    /// Both have the same tiles, and pack them into the same; an output of another size stays as it was.
    fn same(&self) {
        let Record { w, fill, .. } = self.record;
        let rows = calls::rows_needed(w, &self.tiles.iter().map(Vec::len).collect::<Vec<_>>());
        assert_eq!((self.ours.record(), self.ours.len(), self.ours.is_empty()), (ours::record(self.record), self.tiles.len(), rows == 0));
        assert_eq!((self.ours.rows(), self.ours.rows_left()), (rows, fill - rows));
        let due = packed(self.record, &self.tiles).unwrap();
        let mut out = vec![0xA5; due.len()];
        self.ours.pack_into(&mut out).unwrap();
        assert!(self.ours.pack() == due && out == due, "{:?}", self.record);
        for length in [0, due.len() - 1, due.len() + 1] {
            let mut out = vec![0xA5; length];
            assert_eq!(self.ours.pack_into(&mut out), Err(Refusal::Length));
            assert!(out == vec![0xA5; length]);
        }
    }
}

#[test]
fn tiles_packed_one_by_one() {
    let mut random = seeded();
    let mut stats = Stats::default();
    for round in 0..300 {
        let code = codes::ALL[round % 6];
        let w = [5, 6, 7, 16, 21, 64][random.below(6)];
        let fill = if round % 50 == 0 { code.k } else { 1 + random.below(30) };
        let mut packers = Packers::new(Record { code: code.number, w, protocol: random.below(16), lsc: random.below(70_000), fill });
        for _ in 0..random.below(40) {
            let (payload, rows, left) = (w - 4, packers.ours.rows(), packers.ours.rows_left());
            match random.below(20) {
                0 => packers.clear(),
                1 => packers.set_fill([0, 1, rows, rows.saturating_sub(1), rows + 5, code.k, code.k + 1, usize::MAX][random.below(8)]),
                choice => {
                    let longer = 1 + random.below(6 * payload);
                    let length =
                        [0, 1, payload, payload + 1, left * payload, left * payload + 1].get(choice - 2).copied().unwrap_or(longer);
                    packers.push(tiles_of(&[length], &mut random).remove(0));
                }
            }
            packers.same();
        }
        stats += packers.stats;
    }
    println!("{stats:?}");
    assert!([stats.packed, stats.refused[13], stats.refused[16], stats.refused[17]].iter().all(|&times| times > 30), "{stats:?}");
}

/// Tiles in as many blocks as they need, the last one short. Of each block as many units as an eighth of m are lost.
#[test]
fn tiles_of_many_blocks_come_back() {
    // A seed by which all that is lost can be filled.
    let mut random = Random::new(1);
    for code in codes::ALL {
        let record = ours::record(Record { code: code.number, w: 21, protocol: 5, lsc: 1, fill: code.k });
        let lengths: Vec<usize> = (0..code.k / 2).map(|_| 1 + random.below(150)).collect();
        let tiles = tiles_of(&lengths, &mut random);
        let mut packer = Packer::new(record).unwrap();
        let mut sent = Vec::new();
        for tile in &tiles {
            if packer.push(tile) == Err(Refusal::Overfull) {
                sent.push(Codeword::encode(record.with_lsc(sent.len() + 1), packer.pack()).unwrap());
                packer.clear();
                packer.push(tile).unwrap();
            }
        }
        packer.set_fill(packer.rows()).unwrap();
        sent.push(Codeword::encode(packer.record().with_lsc(sent.len() + 1), packer.pack()).unwrap());
        assert!(sent.len() > 2 && sent.iter().map(|word| word.record().fill()).sum::<usize>() > code.k * 2, "C{}", code.number);

        let mut receiver = Receiver::new(5).unwrap();
        receiver.set_fill(sent.len(), packer.record().fill()).unwrap();
        let mut recovered = Vec::new();
        for (word, lsc) in sent.iter().zip(1..) {
            let lwcs: Vec<usize> = word.lwcs().collect();
            for &place in &random.shuffled(lwcs.len())[code.m / 8..] {
                receiver.take(&word.unit(lwcs[place]).unwrap()).unwrap();
            }
            let closed = receiver.close(lsc).unwrap();
            assert_eq!((closed.report().filled, closed.information()), (code.m / 8, Some(word.information())), "C{}", code.number);
            recovered.extend(model::tiles::follow(21, closed.information().unwrap()));
            receiver.remove(lsc);
        }
        assert!(recovered == tiles, "C{}", code.number);
    }
}

// ---- sending

#[test]
fn symbols_and_units_of_every_lwc() {
    let mut random = seeded();
    for code in codes::ALL {
        for w in [1, 2, 3, 16, 127, 128, 1024] {
            // Of the widest only the shortest and the longest block.
            let fills = [code.k, 1, 2, code.k / 2, code.k - 1];
            for &fill in if w < 100 { &fills[..] } else { &fills[..2] } {
                let record = Record { code: code.number, w, protocol: random.below(8), lsc: 1 + random.below(65_534), fill };
                let mut information = vec![0; fill * w];
                random.fill(&mut information);
                sent(code, record, &information);
            }
        }
    }
}

/// A codeword with a parity buffer of its own, and one in a lent buffer.
fn sent(code: &Code, record: Record, information: &[u8]) {
    let w = record.w;
    let word = encoder::codeword(code, w, information);
    let mut parity = vec![0xA5; code.m * w];
    let own = Codeword::encode(ours::record(record), information.to_vec()).unwrap();
    let lent = Codeword::encode_in(ours::record(record), information, &mut parity[..]).unwrap();
    let due = (information, &word[code.k * w..]);
    assert!((own.information(), own.parity()) == due && (lent.information(), lent.parity()) == due);

    let mut following = own.units().unwrap();
    assert_eq!(following.len(), record.fill + code.m);
    assert!(own.lwcs().eq(sent_lwcs(code, record.fill)) && lent.lwcs().eq(sent_lwcs(code, record.fill)));
    for lwc in sent_lwcs(code, record.fill) {
        let symbol = &word[(lwc - 1) * w..][..w];
        let unit = units::write(code, w, record.protocol, record.lsc, lwc, symbol);
        let (mut copied, mut written) = (vec![0xA5; w], vec![0x5A; unit.len()]);
        own.copy_symbol(lwc, &mut copied).unwrap();
        own.write_unit(lwc, &mut written).unwrap();
        assert!(copied == symbol && written == unit, "{record:?}, LWC {lwc}");
        assert!(own.symbol(lwc).unwrap() == symbol && own.unit(lwc).unwrap() == unit, "{record:?}, LWC {lwc}");
        assert!(following.next().unwrap() == unit, "{record:?}, LWC {lwc}");
        copied.fill(0);
        written.fill(0);
        lent.copy_symbol(lwc, &mut copied).unwrap();
        lent.write_unit(lwc, &mut written).unwrap();
        assert!(copied == symbol && written == unit, "{record:?}, LWC {lwc}, lent");
    }
    assert_eq!(following.next(), None);
    let size = units::write(code, w, 1, 1, 1, &word[..w]).len();
    not_sent(&own, code, record, size);
    not_sent(&lent, code, record, size);
}

/// The LWCs that are sent of a block of so many information symbols.
fn sent_lwcs(code: &Code, fill: usize) -> impl Iterator<Item = usize> {
    (1..=fill).chain(code.k + 1..=code.n)
}

/// What is refused has left the output as it was.
fn not_sent<I: AsRef<[u8]>, P: AsRef<[u8]>>(word: &Codeword<I, P>, code: &Code, record: Record, size: usize) {
    let Record { w, fill, .. } = record;
    let copy = |lwc: usize, length: usize| {
        let mut out = vec![0xA5; length];
        let answer = word.copy_symbol(lwc, &mut out).map_err(Refusal::number);
        assert!(out == vec![0xA5; length]);
        answer
    };
    let write = |lwc: usize, length: usize| {
        let mut out = vec![0xA5; length];
        let answer = word.write_unit(lwc, &mut out).map_err(Refusal::number);
        assert!(out == vec![0xA5; length]);
        answer
    };
    for lwc in [0, code.n + 1].into_iter().chain(BEYOND.map(|position| position.saturating_add(1))) {
        assert_eq!((copy(lwc, w), write(lwc, size)), (Err(9), Err(9)), "LWC {lwc}");
        assert_eq!((word.symbol(lwc), word.unit(lwc)), (Err(Refusal::Position), Err(Refusal::Position)), "LWC {lwc}");
        assert_eq!((copy(lwc, w + 1), write(lwc, size + 1)), (Err(4), Err(4)), "LWC {lwc}");
    }
    for lwc in [fill + 1, (fill + code.k) / 2 + 1, code.k].into_iter().filter(|lwc| (fill + 1..=code.k).contains(lwc)) {
        assert_eq!((copy(lwc, w), write(lwc, size)), (Err(14), Err(14)), "LWC {lwc}");
        assert_eq!((word.symbol(lwc), word.unit(lwc)), (Err(Refusal::Idle), Err(Refusal::Idle)), "LWC {lwc}");
    }
    for lwc in [1, fill, fill + 1, code.k, code.k + 1, code.n] {
        for (symbol, unit) in [(w - 1, size - 1), (w + 1, size + 1), (2 * w, 0)] {
            assert_eq!((copy(lwc, symbol), write(lwc, unit)), (Err(4), Err(4)), "LWC {lwc}");
        }
    }
}

/// Protocol ID and LSC count when units are written, and not before.
#[test]
fn labels_of_units() {
    let information = [7; 512];
    for (protocol, lsc) in [(8, 1), (usize::MAX, 1), (0, 0), (0, 65_535), (7, usize::MAX)] {
        let record = ours::record(Record { code: 1, w: 1, protocol, lsc, fill: 512 });
        let word = Codeword::encode(record, &information).unwrap();
        assert_eq!(word.symbol(1), Ok(vec![7]));
        assert_eq!(word.unit(1), Err(Refusal::Label));
        assert_eq!(word.unit(0), Err(Refusal::Label));
        assert_eq!(word.write_unit(1, &mut []), Err(Refusal::Label));
        assert_eq!(word.units().unwrap_err(), Refusal::Label);
        assert_eq!(Block::open(record).unwrap_err(), Refusal::Label);
    }
}

/// Both sides of each border: fills 0, 1, k and k + 1 in a record, by every way in.
#[test]
fn fills_of_records() {
    for code in codes::ALL {
        for (fill, fits) in [(0, false), (1, true), (code.k, true), (code.k + 1, false), (usize::MAX, false)] {
            let record = ours::record(Record { code: code.number, w: 2, protocol: 1, lsc: 9, fill });
            let size = if fits { fill * 2 } else { 0 };
            assert_eq!((record.information_bytes(), record.sent()), (size, if fits { fill + code.m } else { 0 }));
            assert_eq!((record.symbol_bytes(), record.unit_bytes(), record.n(), record.k()), (code.n * 2, 16, code.n, code.k));
            // The fill is refused whatever the buffers are, and exact ones are not enough.
            for length in [size, code.k * 2, 0] {
                let due = match (fits, length == size) {
                    (false, _) => Err(Refusal::Fill),
                    (true, false) => Err(Refusal::Length),
                    (true, true) => Ok(()),
                };
                assert_eq!(Codeword::encode(record, vec![7; length]).map(|_| ()), due, "C{}, fill {fill}", code.number);
            }
            let (mut symbols, mut marks) = (vec![0xA5; code.n * 2], vec![0xA5; code.n]);
            let opened = Block::open_in(record, &mut symbols[..], &mut marks[..]).map(|_| ());
            assert_eq!(
                (opened, Block::open(record).map(|_| ())),
                if fits { (Ok(()), Ok(())) } else { (Err(Refusal::Fill), Err(Refusal::Fill)) }
            );
            assert!(symbols.iter().chain(&marks).all(|&byte| byte == if fits { 0 } else { 0xA5 }));
            let mut block = Block::open(record.with_fill(7)).unwrap();
            assert_eq!(block.set_fill(fill).is_ok(), fits);
            assert_eq!(block.record().fill(), if fits { fill } else { 7 });
        }
    }
}

/// Units with LWC fill, fill + 1, k and k + 1, taken by a block.
#[test]
fn units_around_idle_positions() {
    for code in codes::ALL {
        for fill in [1, 2, code.k / 2, code.k - 1, code.k] {
            let record = Record { code: code.number, w: 3, protocol: 1, lsc: 9, fill };
            let mut block = Block::open(ours::record(record)).unwrap();
            for lwc in [fill, fill + 1, code.k, code.k + 1] {
                let idle = fill < lwc && lwc <= code.k;
                let unit = Draft::proper(code, 3, 1, 9, lwc, &[1, 2, 3]).bytes();
                let before = (block.raw_buffers().0.to_vec(), block.raw_buffers().1.to_vec());
                match block.take(&unit) {
                    Ok(_) => assert!(!idle && block.mark(lwc - 1).is_some(), "fill {fill}, LWC {lwc}"),
                    Err(refusal) => {
                        assert_eq!((refusal, idle), (Refusal::Idle, true), "fill {fill}, LWC {lwc}");
                        assert!(block.mark(lwc - 1).is_none() && block.raw_buffers() == (&before.0[..], &before.1[..]));
                    }
                }
                // What else is wrong with the unit comes before, or after.
                let idle_or = |other: Refusal| Err(if idle { Refusal::Idle } else { other });
                assert_eq!(block.take(&Draft::proper(code, 3, 1, 9, lwc, &[1, 2]).bytes()), idle_or(Refusal::Symbol));
                assert_eq!(block.take(&Draft::proper(code, 3, 1, 9, lwc, &[1, 2, 4]).bytes()), idle_or(Refusal::Conflict));
                assert_eq!(block.take(&Draft::proper(code, 3, 1, 8, lwc, &[1, 2, 3]).bytes()), Err(Refusal::Foreign));
            }
        }
    }
}

#[test]
fn largest_sizes() {
    let longest = codes::ALL.iter().flat_map(|code| (1..=1024).map(|w| units::write(code, w, 1, 1, 1, &vec![0; w]).len())).max();
    assert_eq!((lipvezor::MAX_WIDTH, Some(lipvezor::MAX_UNIT_BYTES)), (1024, longest));
}

/// What a unit says by itself.
#[test]
fn units_read() {
    let mut random = seeded();
    let mut stats = Stats::default();
    for code in codes::ALL {
        let reader = Reader::new(code, 3, Fault::None);
        for _ in 0..3000 {
            let unit = any_unit(&reader, code, 3, &mut random);
            let due = units::read(&unit, Fault::None);
            let answer = Unit::read(&unit);
            assert_eq!(answer.map(|read| ours::parts(&unit, &read)).map_err(Refusal::number), due, "{unit:02X?}");
            let code_of = |parts: UnitParts| parts.coding.and_then(|coding| code_of(coding.k, coding.n)).map(|code| code.number);
            let named = |read: Unit<'_>| read.coding.and_then(|coding| coding.code()).map(|code| code.number());
            assert_eq!(answer.ok().and_then(named), due.ok().and_then(code_of), "{unit:02X?}");
            stats.count_read(due);
        }
    }
    assert!(stats.readable > 1000, "{stats:?}");
}

/// The code of k and n.
fn code_of(k: usize, n: usize) -> Option<&'static Code> {
    codes::ALL.into_iter().find(|code| (code.k, code.n) == (k, n))
}

// ---- blocks and what a close gives out

/// What a method answers that a type does not have of its own: its own would be called in place of the trait's, and answer another type.
struct Absent;

/// For types that must not give out bytes by these names.
trait NoBytes {
    fn information(&self) -> Absent {
        Absent
    }
    fn parity(&self) -> Absent {
        Absent
    }
    fn symbols(&self) -> Absent {
        Absent
    }
    fn symbol(&self, _position: usize) -> Absent {
        Absent
    }
    fn symbol_at(&self, _position: usize) -> Absent {
        Absent
    }
    fn bytes(&self) -> Absent {
        Absent
    }
    fn buffers(&self) -> Absent {
        Absent
    }
    fn raw_buffers(&self) -> Absent {
        Absent
    }
}

impl NoBytes for Inconsistent<'_> {}

/// For types that must not give out a whole part.
trait NoParts {
    fn information(&self) -> Absent {
        Absent
    }
    fn parity(&self) -> Absent {
        Absent
    }
    fn buffers(&self) -> Absent {
        Absent
    }
    fn raw_buffers(&self) -> Absent {
        Absent
    }
}

impl NoParts for Ambiguous<'_> {}

/// For a block, which gives out bytes by no name but that of its raw buffers.
trait NoRecovered {
    fn information(&self) -> Absent {
        Absent
    }
    fn parity(&self) -> Absent {
        Absent
    }
    fn symbols(&self) -> Absent {
        Absent
    }
    fn symbol(&self, _position: usize) -> Absent {
        Absent
    }
    fn symbol_at(&self, _position: usize) -> Absent {
        Absent
    }
    fn heard(&self, _position: usize) -> Absent {
        Absent
    }
    fn buffers(&self) -> Absent {
        Absent
    }
}

impl<S, M> NoRecovered for Block<S, M> {}

/// A closed block gives out just what the model has and the verdict allows. At idle positions there is nothing.
fn gives_out(closed: Closed<'_>, report: Report, model: &blocks::Block, record: Record, label: &str) {
    let (symbols, marks) = (model.symbols(), model.marks());
    let (code, w) = (Code::of_number(record.code).unwrap(), record.w);
    let n = code.n;
    let idle = record.fill..code.k;
    let symbol = |position: usize| &symbols[position * w..][..w];
    assert_eq!(ours::report(closed.report()), report, "{label}");
    assert_eq!(ours::verdict(closed.verdict()), report.verdict, "{label}");
    assert_eq!(closed.record(), ours::record(record), "{label}");
    assert_eq!(report.heard + report.filled + report.left, closed.record().sent(), "{label}");
    let word = match report.verdict {
        Verdict::Whole => "whole",
        Verdict::Ambiguous => "ambiguous",
        Verdict::Inconsistent => "inconsistent",
    };
    let Report { heard, filled, left, .. } = report;
    assert_eq!(closed.to_string(), format!("{word}: heard {heard}, filled {filled}, left {left}"), "{label}");
    match closed {
        Closed::Whole(whole) => {
            assert_eq!(report.verdict, Verdict::Whole, "{label}");
            let (information, parity) = (&symbols[..record.fill * w], &symbols[code.k * w..]);
            assert!(closed.information() == Some(information), "{label}");
            assert!(whole.information() == information && whole.parity() == parity, "{label}");
            let due = |position: usize| (!idle.contains(&position)).then(|| symbol(position));
            assert!((0..n).all(|position| whole.symbol_at(position) == due(position)), "{label}");
            assert!(BEYOND.into_iter().chain([n]).all(|position| whole.symbol_at(position).is_none()), "{label}");
        }
        Closed::Ambiguous(ambiguous) => {
            assert_eq!(report.verdict, Verdict::Ambiguous, "{label}");
            assert!(closed.information().is_none(), "{label}");
            let [Absent, Absent] = [ambiguous.information(), ambiguous.parity()];
            let [Absent, Absent] = [ambiguous.buffers(), ambiguous.raw_buffers()];
            let given = |symbol: Symbol<'_>| (symbol.position, ours::mark(symbol.mark), symbol.bytes.to_vec());
            let due = |position: usize| (marks[position] != 0).then(|| (position, marks[position], symbol(position).to_vec()));
            assert!(ambiguous.symbols().map(given).eq((0..n).filter_map(due)), "{label}");
            assert!((0..n).all(|position| ambiguous.symbol_at(position).map(given) == due(position)), "{label}");
            let missing: Vec<usize> = (0..n).filter(|position| marks[*position] == 0 && !idle.contains(position)).collect();
            assert!(ambiguous.missing().eq(missing.iter().copied()), "{label}");
            assert!(ambiguous.missing().rev().eq(missing.iter().rev().copied()), "{label}");
            assert!(BEYOND.into_iter().chain([n]).all(|position| ambiguous.symbol_at(position).is_none()), "{label}");
        }
        Closed::Inconsistent(inconsistent) => {
            assert_eq!(report.verdict, Verdict::Inconsistent, "{label}");
            assert!(closed.information().is_none(), "{label}");
            let [Absent, Absent, Absent] = [inconsistent.information(), inconsistent.parity(), inconsistent.symbols()];
            let [Absent, Absent, Absent] = [inconsistent.symbol(0), inconsistent.symbol_at(0), inconsistent.bytes()];
            let [Absent, Absent] = [inconsistent.buffers(), inconsistent.raw_buffers()];
        }
        other => panic!("{label}: {other:?}"),
    }
}

/// A block shows its marks and its raw buffers, and no more. At idle positions it has no marks, and they are not missing.
fn shows<S: AsRef<[u8]> + AsMut<[u8]>, M: AsRef<[u8]> + AsMut<[u8]>>(block: &Block<S, M>, model: &blocks::Block, label: &str) {
    let (symbols, marks) = (model.symbols(), model.marks());
    let n = marks.len();
    let idle = block.record().fill()..block.record().k();
    let due = |position: usize| (!idle.contains(&position)).then_some(marks[position]);
    assert!(block.raw_buffers() == (symbols, marks), "{label}");
    assert!((0..n).all(|position| block.mark(position).map(ours::mark) == due(position)), "{label}");
    assert!(block.missing().eq((0..n).filter(|&position| due(position) == Some(0))), "{label}");
    assert!(BEYOND.into_iter().chain([n]).all(|position| block.mark(position).is_none()), "{label}");
    let [Absent, Absent, Absent] = [block.information(), block.parity(), block.symbols()];
    let [Absent, Absent, Absent, Absent] = [block.symbol(0), block.symbol_at(0), block.heard(0), block.buffers()];
}

/// Makes all calls of a list on a block of the crate and one of the model.
fn follow<S: AsRef<[u8]> + AsMut<[u8]>, M: AsRef<[u8]> + AsMut<[u8]>>(mut block: Block<S, M>, list: &List) -> Stats {
    let mut stats = Stats::default();
    let mut model = blocks::Block::open(list.record, Fault::None).unwrap();
    let mut work = Work::of(block.record());
    shows(&block, &model, &list.label);
    for (index, call) in list.calls.iter().enumerate() {
        let label = format!("{}, call {index}", list.label);
        match call {
            Call::Take(unit) => {
                let answer = block.take(unit).map(ours::taken).map_err(Refusal::number);
                assert_eq!(answer, model.take(unit), "{label}");
                stats.count_taken(answer);
            }
            &Call::Close { words, bytes, dirt } => {
                let due = model.close(words, bytes);
                let answer = if due.is_ok() && dirt % 2 == 0 {
                    block.close(&mut work)
                } else {
                    block.close_with(&mut vec![dirt; words], &mut vec![dirt as u8; bytes])
                };
                match (answer, due) {
                    (Ok(closed), Ok(report)) => gives_out(closed, report, &model, list.record, &label),
                    (answer, due) => assert_eq!(answer.map_err(Refusal::number).err(), due.err(), "{label}"),
                }
                stats.count_closed(due);
            }
        }
        shows(&block, &model, &label);
    }
    stats
}

#[test]
fn blocks_give_out_what_the_verdict_allows() {
    let mut random = seeded();
    for code in codes::ALL {
        let step = if code.k == 512 { 11 } else { 7 };
        let mut stats = Stats::default();
        for (index, loss) in cases::chosen(code, &mut random).iter().enumerate().step_by(step) {
            let case = loss.sent(code, [1, 2, 3, 16][index / step % 4], &mut random);
            let between = if random.chance(0.8) { Between::Harmless } else { Between::Anything };
            let list = scripts::list(&case, between, &mut random);
            let record = ours::record(list.record);
            stats += if index % 2 == 0 {
                follow(Block::open(record).unwrap(), &list)
            } else {
                let (mut symbols, mut marks) = (vec![0xA5; code.n * case.w], vec![0x5A; code.n]);
                follow(Block::open_in(record, &mut symbols[..], &mut marks[..]).unwrap(), &list)
            };
        }
        println!("C{}: {stats:?}", code.number);
        assert!([stats.kept, stats.repeated, stats.refused[12], stats.refused[4]].iter().all(|&times| times > 0), "{stats:?}");
        assert!([stats.whole, stats.ambiguous, stats.inconsistent].iter().all(|&times| times > 0), "{stats:?}");
    }
}

#[test]
fn short_blocks_give_out_what_the_verdict_allows() {
    let mut random = seeded();
    for code in codes::ALL {
        let mut stats = Stats::default();
        for fill in [1, 2, code.k / 3, code.k - 1] {
            let step = if code.k == 512 { 3 } else { 11 };
            for (index, loss) in cases::chosen_short(code, fill, &mut random).iter().enumerate().step_by(step) {
                let case = loss.sent_short(code, [1, 2, 3, 16][index / step % 4], fill, &mut random);
                let between = if random.chance(0.8) { Between::Harmless } else { Between::Anything };
                let list = scripts::list(&case, between, &mut random);
                stats += follow(Block::open(ours::record(list.record)).unwrap(), &list);
                set_late(&list, &mut random);
            }
        }
        println!("C{}: {stats:?}", code.number);
        assert!([stats.kept, stats.repeated, stats.refused[14]].iter().all(|&times| times > 0), "{stats:?}");
        assert!([stats.whole, stats.ambiguous, stats.inconsistent].iter().all(|&times| times > 0), "{stats:?}");
    }
}

/// A block that is told its fill somewhere in a list does from then on as one that was opened with it; until then it is another one's, often a
/// full one's, and its closes say nothing.
fn set_late(list: &List, random: &mut Random) {
    let (code, Record { fill, w, .. }) = (Code::of_number(list.record.code).unwrap(), list.record);
    let before = if random.chance(0.7) { code.k } else { fill + random.below(code.k + 1 - fill) };
    let told_at = random.below(list.calls.len());
    let mut block = Block::open(ours::record(Record { fill: before, ..list.record })).unwrap();
    let mut model = blocks::Block::open(list.record, Fault::None).unwrap();
    let mut work = Work::of(block.record());
    let mut told = false;
    for (index, call) in list.calls.iter().enumerate() {
        let label = format!("{}, fill {before} until call {told_at}, call {index}", list.label);
        if index == told_at {
            block.set_fill(fill).unwrap();
            told = true;
        }
        match call {
            Call::Take(unit) => {
                let (answer, due) = (block.take(unit).map(ours::taken).map_err(Refusal::number), model.take(unit));
                assert!(answer == due || !told && due == Err(14), "{label}: {answer:?}, due {due:?}");
            }
            &Call::Close { words, bytes, .. } => {
                let due = model.close(words, bytes);
                let answer = block.close_with(&mut vec![7; words], &mut vec![7; bytes]);
                assert_eq!(answer.is_ok(), due.is_ok(), "{label}");
                if told {
                    answer.into_iter().zip(due).for_each(|(closed, report)| gives_out(closed, report, &model, list.record, &label));
                }
            }
        }
    }
    let report = model.close(code.work_words(), code.m * w).unwrap();
    gives_out(block.close(&mut work).unwrap(), report, &model, list.record, &list.label);
    shows(&block, &model, &list.label);
}

/// All information heard, and a wrong symbol among it: what a look at the marks alone would give out.
#[test]
fn nothing_of_an_inconsistent_block() {
    for code in codes::ALL {
        let record = Record { code: code.number, w: 2, protocol: 1, lsc: 9, fill: code.k };
        let mut information = vec![0; code.k * 2];
        seeded().fill(&mut information);
        let word = Codeword::encode(ours::record(record), &information).unwrap();
        let mut block = Block::open(ours::record(record)).unwrap();
        let mut model = blocks::Block::open(record, Fault::None).unwrap();
        for lwc in word.lwcs() {
            let mut unit = word.unit(lwc).unwrap();
            if lwc == code.k {
                *unit.last_mut().unwrap() ^= 1;
            }
            assert_eq!(block.take(&unit).map(ours::taken).map_err(Refusal::number), model.take(&unit));
        }
        let report = model.close(code.work_words(), code.m * 2).unwrap();
        assert_eq!(report, Report { verdict: Verdict::Inconsistent, heard: code.n, filled: 0, left: 0 });
        let mut work = Work::of(ours::record(record));
        let closed = block.close(&mut work).unwrap();
        assert!(matches!(closed, Closed::Inconsistent(_)));
        gives_out(closed, report, &model, record, "a wrong symbol");
        shows(&block, &model, "a wrong symbol");
    }
}

// ---- many blocks

/// Why the plain receiver takes a unit not.
#[derive(Clone, Copy, Debug, PartialEq)]
enum Why {
    Refused(u8),
    Full,
    NotOpen,
}

impl From<u8> for Why {
    fn from(number: u8) -> Why {
        Why::Refused(number)
    }
}

fn why(error: ReceiveError) -> Why {
    match error {
        ReceiveError::Refused(refusal) => Why::Refused(refusal.number()),
        ReceiveError::Full => Why::Full,
        ReceiveError::NotOpen => Why::NotOpen,
        other => panic!("{other:?}"),
    }
}

/// A block of the model, with the units that it kept.
struct PlainBlock {
    record: Record,
    block: blocks::Block,
    kept: Vec<Vec<u8>>,
}

impl PlainBlock {
    fn open(record: Record) -> Result<PlainBlock, u8> {
        Ok(PlainBlock { record, block: blocks::Block::open(record, Fault::None)?, kept: Vec::new() })
    }

    fn take(&mut self, unit: &[u8]) -> Result<Taken, u8> {
        let taken = self.block.take(unit)?;
        if taken == Taken::Kept {
            self.kept.push(unit.to_vec());
        }
        Ok(taken)
    }

    /// One of this fill, which was handed the units that this one kept; and how many of these it refused.
    fn with_fill(&self, fill: usize) -> Result<(PlainBlock, usize), u8> {
        let mut other = PlainBlock::open(Record { fill, ..self.record })?;
        let answers: Vec<Result<Taken, u8>> = self.kept.iter().map(|unit| other.take(unit)).collect();
        assert!(answers.iter().all(|&answer| answer == Ok(Taken::Kept) || answer == Err(14)));
        Ok((other, answers.iter().filter(|answer| answer.is_err()).count()))
    }
}

/// A receiver as a map from LSC to the model's block, and one to the fills of those that are not open.
struct Plain {
    protocol: usize,
    limit: usize,
    blocks: BTreeMap<usize, PlainBlock>,
    fills: BTreeMap<usize, usize>,
}

impl Plain {
    fn take(&mut self, unit: &[u8]) -> Result<(usize, Taken), Why> {
        let parts = units::read(unit, Fault::None)?;
        if let Some(block) = self.blocks.get_mut(&parts.lsc) {
            return Ok((parts.lsc, block.take(unit)?));
        }
        let mut block = PlainBlock::open(self.record(&parts)?)?;
        let taken = block.take(unit)?;
        if self.blocks.len() >= self.limit {
            return Err(Why::Full);
        }
        self.blocks.insert(parts.lsc, block);
        self.fills.remove(&parts.lsc);
        Ok((parts.lsc, taken))
    }

    /// Of the block that a unit opens, if it names one: 3, 7.
    fn record(&self, parts: &UnitParts) -> Result<Record, u8> {
        refuse_if(parts.lsc == 0 || parts.lsc == 65_535, 3)?;
        let coding = parts.coding.ok_or(7)?;
        let code = code_of(coding.k, coding.n).ok_or(7)?;
        refuse_if(coding.w == 0 || coding.w > 1024 || coding.seed != 0, 7)?;
        let fill = self.fills.get(&parts.lsc).copied().unwrap_or(code.k);
        Ok(Record { code: code.number, w: coding.w, protocol: self.protocol, lsc: parts.lsc, fill })
    }

    /// 3, 13.
    fn set_fill(&mut self, lsc: usize, fill: usize) -> Result<usize, Why> {
        refuse_if(lsc == 0 || lsc >= 65_535, 3)?;
        if let Some(block) = self.blocks.get_mut(&lsc) {
            let (other, refused) = block.with_fill(fill)?;
            *block = other;
            return Ok(refused);
        }
        refuse_if(fill == 0 || fill > 2048, 13)?;
        self.fills.insert(lsc, fill);
        Ok(0)
    }

    fn close(&mut self, lsc: usize) -> Result<(Report, Record, &blocks::Block), Why> {
        let PlainBlock { record, block, .. } = self.blocks.get_mut(&lsc).ok_or(Why::NotOpen)?;
        let code = Code::of_number(record.code).unwrap();
        let report = block.close(code.work_words(), code.m * record.w)?;
        Ok((report, *record, block))
    }

    fn remove(&mut self, lsc: usize) -> Option<PlainBlock> {
        self.fills.remove(&lsc);
        self.blocks.remove(&lsc)
    }
}

/// The crate's receiver and the plain one.
struct Receivers {
    ours: Receiver,
    plain: Plain,
    stats: Stats,
    full: usize,
    not_open: usize,
    /// Heard symbols that no longer count.
    lost: usize,
}

impl Receivers {
    fn new(protocol: usize, limit: usize) -> Receivers {
        let ours = Receiver::new(protocol).unwrap().with_limit(limit);
        assert_eq!((ours.protocol(), ours.limit(), ours.len(), ours.is_empty()), (protocol, limit, 0, true));
        let plain = Plain { protocol, limit, blocks: BTreeMap::new(), fills: BTreeMap::new() };
        Receivers { ours, plain, stats: Stats::default(), full: 0, not_open: 0, lost: 0 }
    }

    fn take(&mut self, unit: &[u8]) {
        let answer = self.ours.take(unit).map(|received| (received.lsc, ours::taken(received.taken))).map_err(why);
        assert_eq!(answer, self.plain.take(unit), "{unit:02X?}");
        match answer {
            Ok((lsc, taken)) => {
                self.stats.count_taken(Ok(taken));
                self.same_block(lsc);
            }
            Err(Why::Refused(number)) => self.stats.count_taken(Err(number)),
            Err(_) => self.full += 1,
        }
        self.same_blocks();
    }

    /// A fill told of an open block shows in full only after the next close.
    fn set_fill(&mut self, lsc: usize, fill: usize) {
        let answer = self.ours.set_fill(lsc, fill).map_err(why);
        assert_eq!(answer, self.plain.set_fill(lsc, fill), "LSC {lsc}, fill {fill}");
        match answer {
            Ok(lost) if self.plain.blocks.contains_key(&lsc) => {
                self.lost += lost;
                self.close(lsc);
            }
            Err(Why::Refused(number)) => self.stats.count_taken(Err(number)),
            _ => {}
        }
        self.same_blocks();
    }

    fn close(&mut self, lsc: usize) {
        match (self.ours.close(lsc), self.plain.close(lsc)) {
            (Ok(closed), Ok((report, record, model))) => {
                gives_out(closed, report, model, record, &format!("LSC {lsc}"));
                self.stats.count_closed(Ok(report));
                self.same_block(lsc);
            }
            (answer, due) => {
                assert_eq!(answer.map_err(why).err(), due.err(), "LSC {lsc}");
                self.not_open += 1;
            }
        }
        self.same_blocks();
    }

    fn remove(&mut self, lsc: usize) {
        match (self.ours.remove(lsc), self.plain.remove(lsc)) {
            (Some(block), Some(PlainBlock { record, block: model, .. })) => {
                assert_eq!(block.record(), ours::record(record));
                assert!(block.into_raw_buffers() == (model.symbols().to_vec(), model.marks().to_vec()), "LSC {lsc}");
            }
            (block, model) => assert!(block.is_none() && model.is_none(), "LSC {lsc}"),
        }
        self.same_blocks();
    }

    /// The same LSCs are open.
    fn same_blocks(&self) {
        assert!(self.ours.lscs().eq(self.plain.blocks.keys().copied()));
        assert_eq!((self.ours.len(), self.ours.is_empty()), (self.plain.blocks.len(), self.plain.blocks.is_empty()));
    }

    fn same_block(&self, lsc: usize) {
        let PlainBlock { record, block: model, .. } = &self.plain.blocks[&lsc];
        let block = self.ours.block(lsc).unwrap();
        assert_eq!(block.record(), ours::record(*record));
        shows(block, model, &format!("LSC {lsc}"));
    }
}

/// A block whose units come: the positions that are still to come, and those that came.
struct Sender {
    record: Record,
    case: Case,
    order: Vec<usize>,
    came: Vec<usize>,
}

impl Sender {
    fn new(record: Record, loss: &Loss, random: &mut Random) -> Sender {
        let code = Code::of_number(record.code).unwrap();
        let case = loss.sent_short(code, record.w, record.fill, random);
        let order = random.shuffled(code.n).into_iter().filter(|&position| !case.lost[position]).collect();
        Sender { record, case, order, came: Vec::new() }
    }

    fn next(&mut self) -> Option<Vec<u8>> {
        let position = self.order.pop()?;
        self.came.push(position);
        Some(self.draft(position).bytes())
    }

    fn draft(&self, position: usize) -> Draft {
        let Record { w, protocol, lsc, .. } = self.record;
        Draft::proper(self.case.code, w, protocol, lsc, position + 1, &self.case.symbols[position * w..][..w])
    }

    /// The unit of a position that came, or of the first, again or spoilt.
    fn disturbance(&self, random: &mut Random) -> Vec<u8> {
        let (code, w) = (self.case.code, self.record.w);
        let mut draft = self.draft(if self.came.is_empty() { 0 } else { self.came[random.below(self.came.len())] });
        let other = codes::ALL[random.below(codes::ALL.len())];
        if self.record.fill < code.k && random.chance(0.15) {
            draft.lwc = (self.record.fill + 1 + random.below(code.k - self.record.fill)) as u16;
            return draft.bytes();
        }
        match random.below(18) {
            // Repeated.
            0..=2 => {}
            // Contradicting.
            3 | 4 => draft.symbol[random.below(w)] ^= 1 + random.below(255) as u8,
            5 => draft.protocol ^= 1 + random.below(7) as u8,
            6 => draft.lsc = [0, 65_535][random.below(2)],
            7 => draft.lsc = 1 + random.below(65_534) as u16,
            8 => draft.lwc = [0, code.n as u16 + 1, 65_535][random.below(3)],
            9 => draft.symbol.push(0),
            10 => draft.symbol.truncate(random.below(w)),
            11 => draft.extensions = vec![Extension::coding([w + 1, code.k, code.n, 0])],
            12 => draft.extensions = vec![Extension::coding([[0, 1025, 1 << 31][random.below(3)], code.k, code.n, 0])],
            13 => draft.extensions = vec![Extension::coding([w, other.k, other.n, random.below(2)])],
            14 => draft.extensions = vec![Extension::coding([w, code.k, code.n + 1, 0])],
            15 => draft.extensions[0].kind = [0, 2, 255][random.below(3)],
            16 => draft.extensions.insert(random.below(2), Extension::new(77, vec![9; random.below(200)])),
            _ => {
                let mut unit = draft.bytes();
                unit.truncate(random.below(unit.len()));
                return unit;
            }
        }
        draft.bytes()
    }
}

/// Few symbols of a code lost, and so many wrong.
fn few(code: &Code, wrong: usize, random: &mut Random) -> Loss {
    let mut lost = random.shuffled(code.n);
    lost.truncate(wrong + random.below(code.m / 2));
    let wrong = lost.split_off(lost.len() - wrong);
    Loss { label: "few lost".to_owned(), lost, wrong }
}

/// The blocks' units come mixed, with disturbances, closes and removals between them. Every other block is short, and its fill is told before its
/// first unit, or after its last; another one may be told meanwhile. A block is closed and removed after its last unit.
fn mixed(limit: usize, random: &mut Random) -> Receivers {
    let protocol = random.below(8);
    let mut receivers = Receivers::new(protocol, limit);
    let shapes = [(1, 1), (1, 3), (2, 1), (4, 16), (7, 130), (5, 2), (8, 1), (4, 1), (1, 2)];
    let lscs = [1, 2, 255, 256, 257, 40_000, 40_001, 65_533, 65_534];
    let mut senders = Vec::new();
    for (index, ((number, w), lsc)) in shapes.into_iter().zip(lscs).enumerate() {
        let code = Code::of_number(number).unwrap();
        let loss = match index % 3 {
            0 => few(code, 0, random),
            1 => few(code, 1, random),
            _ => cases::any(code, random),
        };
        let fill = if index % 2 == 0 { code.k } else { [1, 2, code.k / 3, code.k - 1][random.below(4)] };
        if random.chance(0.5) {
            receivers.set_fill(lsc, fill);
        }
        senders.push(Sender::new(Record { code: number, w, protocol, lsc, fill }, &loss, random));
    }
    while !senders.is_empty() {
        let chosen = random.below(senders.len());
        let sender = &mut senders[chosen];
        let lsc = sender.record.lsc;
        if random.chance(0.1) {
            receivers.take(&sender.disturbance(random));
        }
        match sender.next() {
            Some(unit) => receivers.take(&unit),
            None => {
                receivers.set_fill(lsc, sender.record.fill);
                receivers.close(lsc);
                receivers.remove(lsc);
                senders.swap_remove(chosen);
            }
        }
        if random.chance(0.002) {
            let fills = [0, 1, 2, 100, 511, 512, 513, 2047, 2048, 2049, usize::MAX];
            receivers.set_fill([lsc, lsc, lsc, 4, 0, 65_535][random.below(6)], fills[random.below(fills.len())]);
        }
        if random.chance(0.002) {
            receivers.close([lsc, 3, 0, usize::MAX][random.below(4)]);
        }
        if random.chance(0.0005) {
            receivers.remove([lsc, 3, usize::MAX][random.below(3)]);
        }
        // Blocks that a wrong LSC opened.
        let stray: Vec<usize> = receivers.ours.lscs().filter(|lsc| !lscs.contains(lsc)).collect();
        stray.into_iter().filter(|_| random.chance(0.05)).for_each(|lsc| receivers.remove(lsc));
    }
    receivers
}

#[test]
fn receiver_and_a_map_of_blocks() {
    let mut random = seeded();
    let mut stats = Stats::default();
    let (mut full, mut not_open, mut lost) = (0, 0, 0);
    for limit in [7, 4, 1, Receiver::DEFAULT_LIMIT, 3] {
        let receivers = mixed(limit, &mut random);
        full += receivers.full;
        not_open += receivers.not_open;
        lost += receivers.lost;
        stats += receivers.stats;
    }
    println!("{stats:?}, full {full}, not open {not_open}, no longer counted {lost}");
    assert!([3, 6, 7, 8, 9, 10, 12, 13, 14, 20].iter().all(|&number| stats.refused[number] > 10), "{stats:?}");
    assert!([stats.kept, stats.repeated, full, not_open, lost].iter().all(|&times| times > 10), "{stats:?}, {full}, {not_open}, {lost}");
    assert!([stats.whole, stats.ambiguous, stats.inconsistent].iter().all(|&times| times > 0), "{stats:?}");
}

/// Where none may be open, what is refused is refused, and the rest is full.
#[test]
fn receiver_with_no_place() {
    let mut random = seeded();
    let mut receivers = Receivers::new(5, 0);
    let record = Record { code: 1, w: 3, protocol: 5, lsc: 1000, fill: 512 };
    let sender = Sender::new(record, &few(&codes::C1, 0, &mut random), &mut random);
    for _ in 0..500 {
        receivers.take(&sender.disturbance(&mut random));
    }
    assert!(receivers.full > 50 && receivers.ours.is_empty());
    let answer = receivers.ours.take(&sender.draft(0).bytes());
    assert_eq!(answer.map_err(why).map(|received| received.lsc), Err(Why::Full));

    // With a place for one it is taken, and stays where there is none again.
    let mut receiver = receivers.ours.with_limit(1);
    assert_eq!(receiver.take(&sender.draft(0).bytes()).map(|received| received.lsc), Ok(1000));
    let mut receiver = receiver.with_limit(0);
    assert_eq!(receiver.take(&sender.draft(1).bytes()).map(|received| received.lsc), Ok(1000));
    assert_eq!(receiver.close(1000).unwrap().report().heard, 2);
}

#[test]
fn receivers_of_any_protocol() {
    for protocol in 0..8 {
        assert_eq!(Receiver::new(protocol).unwrap().protocol(), protocol);
    }
    for protocol in [8, 256, usize::MAX] {
        assert_eq!(Receiver::new(protocol).unwrap_err(), Refusal::Label);
    }
}
