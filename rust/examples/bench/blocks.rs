//! Blocks on board and on the ground, and what is measured on them by any layer.
use crate::buffer::Buffer;
use crate::layers::{Closing, Found, Layer, Ours, Packing};
use crate::random::Random;
use lipvezor::{calls, Code, Record, Taken};
use std::hint::black_box;

/// The record of the blocks of a code and width.
pub fn record(code: Code, w: usize) -> Record {
    Record::new(code, w).with_protocol(5).with_lsc(300)
}

/// A seed for what is random of them.
pub fn seed(record: Record) -> u64 {
    (record.code().number() * 2048 + record.w()) as u64
}

/// Tiles, and the information of a block that they are packed into.
pub struct Tiles {
    pub record: Record,
    pub joined: Buffer<u8>,
    lengths: Vec<usize>,
    pub information: Buffer<u8>,
}

impl Tiles {
    /// So many random tiles of so many bytes each.
    pub fn new(record: Record, count: usize, length: usize) -> Tiles {
        let mut joined = Buffer::new(count * length);
        Random::new(seed(record)).fill(&mut joined);
        Tiles { record, joined, lengths: vec![length; count], information: Buffer::new(record.information_bytes()) }
    }

    /// Megabytes of all tiles.
    pub fn megabytes(&self) -> f64 {
        self.joined.len() as f64 / 1e6
    }
}

pub fn pack<L: Packing>(t: &mut Tiles) {
    L::pack(black_box(&t.record), &t.joined, &t.lengths, &mut t.information).unwrap();
}

/// What is sent of one block.
#[derive(Clone)]
pub struct Sending {
    pub record: Record,
    pub information: Buffer<u8>,
    pub parity: Buffer<u8>,
}

impl Sending {
    pub fn new(record: Record) -> Sending {
        let mut information = Buffer::new(record.information_bytes());
        Random::new(seed(record)).fill(&mut information);
        let mut sent = Sending { record, information, parity: Buffer::new(record.parity_bytes()) };
        encode::<Ours>(&mut sent);
        sent
    }

    /// Of a position that is sent.
    fn symbol(&self, i: usize) -> &[u8] {
        let (w, k) = (self.record.w(), self.record.k());
        if i < k {
            &self.information[i * w..(i + 1) * w]
        } else {
            &self.parity[(i - k) * w..(i - k + 1) * w]
        }
    }

    /// All n symbols; idle ones are zero.
    pub fn word(&self) -> Vec<u8> {
        let mut word = self.information.to_vec();
        word.resize(self.record.k() * self.record.w(), 0);
        word.extend_from_slice(&self.parity);
        word
    }

    /// Megabytes of information.
    pub fn megabytes(&self) -> f64 {
        self.information.len() as f64 / 1e6
    }
}

pub fn encode<L: Layer>(s: &mut Sending) {
    L::encode(black_box(&s.record), &s.information, &mut s.parity).unwrap();
}

/// The units of a block, one after the other, or each on a border of so many bytes.
pub struct Units {
    sent: Sending,
    pub bytes: Buffer<u8>,
    stride: usize,
}

impl Units {
    /// The border is a divisor of 16.
    pub fn new(sent: &Sending, border: usize) -> Units {
        let stride = sent.record.unit_bytes().next_multiple_of(border);
        let mut units = Units { sent: sent.clone(), bytes: Buffer::new(sent.record.n() * stride), stride };
        write::<Ours>(&mut units);
        units
    }
}

pub fn write<L: Layer>(u: &mut Units) {
    let record = black_box(&u.sent.record);
    let each = record.unit_bytes();
    for (i, unit) in u.bytes.chunks_exact_mut(u.stride).enumerate() {
        L::write(record, i + 1, u.sent.symbol(i), &mut unit[..each]).unwrap();
    }
}

/// A block that is received, with the work buffers, and what close answered.
pub struct Receiving {
    record: Record,
    pub symbols: Buffer<u8>,
    pub marks: Buffer<u8>,
    pub words: Buffer<u64>,
    pub bytes: Buffer<u8>,
    pub found: Option<Found>,
}

impl Receiving {
    pub fn new(record: Record) -> Receiving {
        Receiving {
            record,
            symbols: Buffer::new(record.symbol_bytes()),
            marks: Buffer::new(record.n()),
            words: Buffer::new(record.work_words()),
            bytes: Buffer::new(record.work_bytes()),
            found: None,
        }
    }

    /// Bytes of all its buffers.
    pub fn size(&self) -> usize {
        self.symbols.len() + self.marks.len() + self.words.len() * 8 + self.bytes.len()
    }

    /// The block has heard all symbols of a word but the lost and the idle ones, as open and take leave it. The work buffers hold anything but
    /// zeros.
    pub fn hear(&mut self, word: &[u8], lost: &[usize]) {
        self.words.fill(0xA5A5_A5A5);
        self.bytes.fill(0xA5);
        self.symbols.copy_from_slice(word);
        self.marks.fill(1);
        self.marks[self.record.fill()..self.record.k()].fill(0);
        let w = self.record.w();
        for &i in lost {
            self.symbols[i * w..(i + 1) * w].fill(0);
            self.marks[i] = 0;
        }
        self.found = None;
    }

    pub fn work_is_zero(&self) -> bool {
        self.words.iter().fold(0, |all, word| all | word) == 0 && self.bytes.iter().fold(0, |all, byte| all | byte) == 0
    }
}

pub fn close<L: Closing>(b: &mut Receiving) {
    let record = black_box(&b.record);
    b.found = Some(L::close(record, &mut b.symbols, &mut b.marks, &mut b.words, &mut b.bytes).unwrap());
}

/// A block, and all units of it, which stand one after the other.
pub struct Taking {
    pub block: Receiving,
    units: Units,
}

impl Taking {
    pub fn new(sent: &Sending) -> Taking {
        Taking { block: Receiving::new(sent.record), units: Units::new(sent, 1) }
    }
}

pub fn open(t: &mut Taking) {
    let b = &mut t.block;
    calls::open(&b.record, &mut calls::Buffers::new(&mut b.symbols, &mut b.marks)).unwrap();
}

pub fn take<L: Layer>(t: &mut Taking) {
    let b = &mut t.block;
    let record = black_box(&b.record);
    let mut lent = L::lend(&mut b.symbols, &mut b.marks);
    for unit in t.units.bytes.chunks_exact(t.units.stride) {
        // not assert_eq!, for which the compiler may store each answer
        assert!(L::take(record, &mut lent, unit) == Ok(Taken::Kept));
    }
}
