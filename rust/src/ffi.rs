//! The archive's functions over slices. This is the only module with unsafe code: each call hands over a slice's own pointer and length, and
//! Rust sees to it that a buffer lent to be written overlaps no other.
#![allow(unsafe_code)]

use core::marker::PhantomData;

use crate::Record;

/// `lipvezor_codeword`: a block's buffers on board.
#[repr(C)]
struct Codeword {
    information: *const u8,
    information_length: usize,
    parity: *mut u8,
    parity_length: usize,
}

/// A block's two buffers as open, take and close are lent them, symbols and marks. Made once, it serves any number of calls.
///
/// The buffers are borrowed as long as this is there.
// lipvezor_buffers in C
#[repr(C)]
#[derive(Debug)]
pub struct Buffers<'a> {
    symbols: *mut u8,
    symbols_length: usize,
    marks: *mut u8,
    marks_length: usize,
    lent: PhantomData<&'a mut [u8]>,
}

impl<'a> Buffers<'a> {
    /// Symbols and marks, each of any length: the calls refuse what is not exactly [`Record::symbol_bytes`] and [`Record::n`] bytes.
    #[inline]
    #[must_use]
    pub fn new(symbols: &'a mut [u8], marks: &'a mut [u8]) -> Buffers<'a> {
        let (symbols_length, marks_length) = (symbols.len(), marks.len());
        Buffers { symbols: symbols.as_mut_ptr(), symbols_length, marks: marks.as_mut_ptr(), marks_length, lent: PhantomData }
    }
}

/// `lipvezor_work`: work space of a close.
#[repr(C)]
struct Work {
    words: *mut u64,
    words_length: usize,
    bytes: *mut u8,
    bytes_length: usize,
}

/// `lipvezor_parts`: what read finds.
#[repr(C)]
#[derive(Default)]
pub struct Parts {
    pub protocol: usize,
    pub count: usize,
    pub lwc: usize,
    pub lsc: usize,
    pub symbol: usize,
    pub coding: usize,
    pub w: usize,
    pub k: usize,
    pub n: usize,
    pub seed: usize,
}

/// `lipvezor_taken`: what take did.
#[repr(C)]
#[derive(Default)]
pub struct Taken {
    pub result: usize,
}

/// `lipvezor_report`: what close found.
#[repr(C)]
#[derive(Default)]
pub struct Report {
    pub verdict: usize,
    pub heard: usize,
    pub filled: usize,
    pub left: usize,
}

mod c {
    use super::{Buffers, Codeword, Parts, Record, Report, Taken, Work};

    extern "C" {
        pub fn lipvezor_version() -> usize;
        pub fn lipvezor_n(code: usize) -> usize;
        pub fn lipvezor_k(code: usize) -> usize;
        pub fn lipvezor_m(code: usize) -> usize;
        pub fn lipvezor_information_bytes(code: usize, w: usize, fill: usize) -> usize;
        pub fn lipvezor_parity_bytes(code: usize, w: usize) -> usize;
        pub fn lipvezor_symbol_bytes(code: usize, w: usize) -> usize;
        pub fn lipvezor_unit_bytes(code: usize, w: usize) -> usize;
        pub fn lipvezor_work_words(code: usize) -> usize;
        pub fn lipvezor_work_bytes(code: usize, w: usize) -> usize;
        pub fn lipvezor_rows_needed(w: usize, lengths: *const usize, lengths_length: usize) -> usize;
        pub fn lipvezor_pack(
            block: *const Record,
            tiles: *const u8,
            tiles_length: usize,
            lengths: *const usize,
            lengths_length: usize,
            out: *mut u8,
            out_length: usize,
        ) -> u8;
        pub fn lipvezor_encode(block: *const Record, codeword: *const Codeword) -> u8;
        pub fn lipvezor_show(block: *const Record, codeword: *const Codeword, lwc: usize, out: *mut u8, out_length: usize) -> u8;
        pub fn lipvezor_write(
            block: *const Record,
            lwc: usize,
            symbol: *const u8,
            symbol_length: usize,
            out: *mut u8,
            out_length: usize,
        ) -> u8;
        pub fn lipvezor_read(unit: *const u8, unit_length: usize, parts: *mut Parts) -> u8;
        pub fn lipvezor_open(block: *const Record, buffers: *const Buffers<'_>) -> u8;
        pub fn lipvezor_take(
            block: *const Record,
            buffers: *const Buffers<'_>,
            unit: *const u8,
            unit_length: usize,
            taken: *mut Taken,
        ) -> u8;
        pub fn lipvezor_close(block: *const Record, buffers: *const Buffers<'_>, work: *const Work, report: *mut Report) -> u8;
    }
}

// An archive from before 0.3.0 takes its arguments otherwise and has no lipvezor_version: it must not link. Any other that is not of the crate's
// version is found by version::check.
#[used]
static VERSION: unsafe extern "C" fn() -> usize = c::lipvezor_version;

// Safety, for every call below: numbers may be any; a slice's pointer is valid and aligned for its length, also where that is 0; a reference
// to a record is valid; the callee keeps no pointer.

#[inline]
pub fn version() -> usize {
    unsafe { c::lipvezor_version() }
}

#[inline]
pub fn n(code: usize) -> usize {
    unsafe { c::lipvezor_n(code) }
}

#[inline]
pub fn k(code: usize) -> usize {
    unsafe { c::lipvezor_k(code) }
}

#[inline]
pub fn m(code: usize) -> usize {
    unsafe { c::lipvezor_m(code) }
}

#[inline]
pub fn information_bytes(code: usize, w: usize, fill: usize) -> usize {
    unsafe { c::lipvezor_information_bytes(code, w, fill) }
}

#[inline]
pub fn parity_bytes(code: usize, w: usize) -> usize {
    unsafe { c::lipvezor_parity_bytes(code, w) }
}

#[inline]
pub fn symbol_bytes(code: usize, w: usize) -> usize {
    unsafe { c::lipvezor_symbol_bytes(code, w) }
}

#[inline]
pub fn unit_bytes(code: usize, w: usize) -> usize {
    unsafe { c::lipvezor_unit_bytes(code, w) }
}

#[inline]
pub fn work_words(code: usize) -> usize {
    unsafe { c::lipvezor_work_words(code) }
}

#[inline]
pub fn work_bytes(code: usize, w: usize) -> usize {
    unsafe { c::lipvezor_work_bytes(code, w) }
}

#[inline]
pub fn rows_needed(w: usize, lengths: &[usize]) -> usize {
    unsafe { c::lipvezor_rows_needed(w, lengths.as_ptr(), lengths.len()) }
}

#[inline]
pub fn pack(block: &Record, tiles: &[u8], lengths: &[usize], out: &mut [u8]) -> u8 {
    let (out, out_length) = (out.as_mut_ptr(), out.len());
    unsafe { c::lipvezor_pack(block, tiles.as_ptr(), tiles.len(), lengths.as_ptr(), lengths.len(), out, out_length) }
}

#[inline]
pub fn encode(block: &Record, information: &[u8], parity: &mut [u8]) -> u8 {
    let (information, information_length, parity_length) = (information.as_ptr(), information.len(), parity.len());
    unsafe { c::lipvezor_encode(block, &Codeword { information, information_length, parity: parity.as_mut_ptr(), parity_length }) }
}

#[inline]
pub fn show(block: &Record, information: &[u8], parity: &[u8], lwc: usize, out: &mut [u8]) -> u8 {
    let (information, information_length, parity_length) = (information.as_ptr(), information.len(), parity.len());
    // show only reads the parity
    let codeword = Codeword { information, information_length, parity: parity.as_ptr().cast_mut(), parity_length };
    unsafe { c::lipvezor_show(block, &codeword, lwc, out.as_mut_ptr(), out.len()) }
}

#[inline]
pub fn write(block: &Record, lwc: usize, symbol: &[u8], out: &mut [u8]) -> u8 {
    unsafe { c::lipvezor_write(block, lwc, symbol.as_ptr(), symbol.len(), out.as_mut_ptr(), out.len()) }
}

#[inline]
pub fn read(unit: &[u8], parts: &mut Parts) -> u8 {
    unsafe { c::lipvezor_read(unit.as_ptr(), unit.len(), parts) }
}

#[inline]
pub fn open(block: &Record, buffers: &mut Buffers<'_>) -> u8 {
    unsafe { c::lipvezor_open(block, buffers) }
}

#[inline]
pub fn take(block: &Record, buffers: &mut Buffers<'_>, unit: &[u8], taken: &mut Taken) -> u8 {
    unsafe { c::lipvezor_take(block, buffers, unit.as_ptr(), unit.len(), taken) }
}

#[inline]
pub fn close(block: &Record, buffers: &mut Buffers<'_>, words: &mut [u64], bytes: &mut [u8], report: &mut Report) -> u8 {
    let work = Work { words: words.as_mut_ptr(), words_length: words.len(), bytes: bytes.as_mut_ptr(), bytes_length: bytes.len() };
    unsafe { c::lipvezor_close(block, buffers, &work, report) }
}
