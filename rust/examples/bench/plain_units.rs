//! Write and take in plain Rust: the steps of `sending::writer`, `unit_reader` and `block::take`.
use crate::plain_tables::{check_block, check_code, check_fill, check_label, check_length, check_lwc, Layout};
use lipvezor::{Record, Refusal, Taken};

/// An output that is written from the front.
struct Output<'a> {
    bytes: &'a mut [u8],
    at: usize,
}

impl Output<'_> {
    fn byte(&mut self, x: usize) {
        self.bytes[self.at] = x as u8;
        self.at += 1;
    }

    fn pair(&mut self, x: usize) {
        self.byte(x >> 8);
        self.byte(x);
    }

    /// A number from 128 to 16,383, in its two bytes.
    fn sdnv_2(&mut self, v: usize) {
        self.byte(128 | v >> 7);
        self.byte(v & 127);
    }

    /// A number below 16,384.
    fn sdnv(&mut self, v: usize) {
        if v >= 128 {
            self.sdnv_2(v);
        } else {
            self.byte(v);
        }
    }
}

#[inline(never)]
pub fn write(record: Record, lwc: usize, symbol: &[u8], out: &mut [u8]) -> Result<(), Refusal> {
    let layout = check_code(record)?;
    check_label(record)?;
    check_fill(record, layout)?;
    let (k, n, w) = (layout.k, layout.n(), record.w());
    let value = if w >= 128 { 7 } else { 6 };
    check_length(out.len(), 8 + value + w)?;
    check_lwc(record, layout, lwc)?;
    if symbol.len() != w {
        return Err(Refusal::Symbol);
    }
    let mut out = Output { bytes: out, at: 0 };
    out.byte(16 + record.protocol() * 2);
    out.byte(1);
    out.pair(lwc);
    out.pair(record.lsc());
    out.byte(1);
    out.byte(value);
    out.sdnv(w);
    out.sdnv_2(k);
    out.sdnv_2(n);
    out.byte(0);
    out.bytes[out.at..].copy_from_slice(symbol);
    Ok(())
}

/// What a unit's coding parameters say.
#[derive(PartialEq)]
struct Parameters {
    w: usize,
    k: usize,
    n: usize,
    seed: usize,
}

/// What a unit says, and where its symbol starts.
struct Parts {
    protocol: usize,
    lwc: usize,
    lsc: usize,
    symbol: usize,
    coding: Option<Parameters>,
}

/// How the reading of a number ends: with the number and the position after it, with the bytes, or at a byte that can't be accepted.
enum Sdnv {
    Whole(usize, usize),
    Unfinished,
    Wrong,
}

fn number_at(s: &[u8], at: usize) -> Sdnv {
    let mut value = 0;
    for more in 0..5 {
        let Some(&b) = s.get(at + more) else {
            return Sdnv::Unfinished;
        };
        value = value * 128 + (b % 128) as usize;
        if b < 128 {
            return if value > 0xFFFF_FFFF { Sdnv::Wrong } else { Sdnv::Whole(value, at + more + 1) };
        }
        if value == 0 {
            return Sdnv::Wrong;
        }
    }
    Sdnv::Wrong
}

/// The same as an answer, with the refusal for bytes that end early.
fn number_or(early: Refusal, s: &[u8], at: usize) -> Result<(usize, usize), Refusal> {
    match number_at(s, at) {
        Sdnv::Whole(value, end) => Ok((value, end)),
        Sdnv::Unfinished => Err(early),
        Sdnv::Wrong => Err(Refusal::Number),
    }
}

fn read_parameters(v: &[u8]) -> Result<Parameters, Refusal> {
    let (w, at) = number_or(Refusal::ExtensionKind, v, 0)?;
    let (k, at) = number_or(Refusal::ExtensionKind, v, at)?;
    let (n, at) = number_or(Refusal::ExtensionKind, v, at)?;
    let (seed, at) = number_or(Refusal::ExtensionKind, v, at)?;
    if at != v.len() {
        return Err(Refusal::ExtensionKind);
    }
    Ok(Parameters { w, k, n, seed })
}

/// The extension at a position, if it is of type 1, and the position after it. `came` says whether a type 1 came before.
fn read_extension(s: &[u8], came: bool, at: usize) -> Result<(Option<Parameters>, usize), Refusal> {
    let kind = *s.get(at).ok_or(Refusal::Extension)?;
    if kind == 0 || kind == 255 || came && kind == 1 {
        return Err(Refusal::ExtensionKind);
    }
    let (len, start) = number_or(Refusal::Extension, s, at + 1)?;
    let value = s.get(start..start + len).ok_or(Refusal::Extension)?;
    if kind != 1 {
        return Ok((None, start + len));
    }
    Ok((Some(read_parameters(value)?), start + len))
}

fn read(s: &[u8]) -> Result<Parts, Refusal> {
    let [first, count, w1, w0, c1, c0, ..] = *s else {
        return Err(Refusal::Header);
    };
    if first / 16 != 1 || first % 2 != 0 || count == 0 {
        return Err(Refusal::Header);
    }
    let mut coding = None;
    let mut at = 6;
    for _ in 0..count {
        let (found, end) = read_extension(s, coding.is_some(), at)?;
        coding = coding.or(found);
        at = end;
    }
    Ok(Parts {
        protocol: (first / 2 % 8) as usize,
        lwc: u16::from_be_bytes([w1, w0]) as usize,
        lsc: u16::from_be_bytes([c1, c0]) as usize,
        symbol: at,
        coding,
    })
}

/// A number from 128 to 16,383, in its two bytes.
fn sdnv_2(v: usize) -> [u8; 2] {
    [128 | (v >> 7) as u8, (v & 127) as u8]
}

/// What a unit says whose bytes before its symbol are those that `write` makes for these numbers, whatever its LWC.
fn read_expected(layout: &Layout, record: Record, s: &[u8]) -> Option<Parts> {
    let (w, protocol, lsc) = (record.w(), record.protocol(), record.lsc());
    let (k, n) = (layout.k, layout.n());
    let [first, count, w1, w0, c1, c0, a, b, c, d, e, f, g, h, i, ..] = *s else {
        return None;
    };
    if [first, count] != [16 + protocol as u8 * 2, 1] || u16::from_be_bytes([c1, c0]) as usize != lsc {
        return None;
    }
    let ([k1, k0], [n1, n0]) = (sdnv_2(k), sdnv_2(n));
    let symbol = if w < 128 {
        if [a, b, c, d] != [1, 6, w as u8, k1] || [e, f, g, h] != [k0, n1, n0, 0] {
            return None;
        }
        14
    } else {
        let [w1, w0] = sdnv_2(w);
        if [a, b, c, d] != [1, 7, w1, w0] || [e, f, g, h] != [k1, k0, n1, n0] || i != 0 {
            return None;
        }
        15
    };
    let coding = Some(Parameters { w, k, n, seed: 0 });
    Some(Parts { protocol, lwc: u16::from_be_bytes([w1, w0]) as usize, lsc, symbol, coding })
}

/// The position of a unit of `len` bytes that says these parts.
fn admit(layout: &Layout, record: Record, parts: Parts, len: usize) -> Result<usize, Refusal> {
    if parts.coding != Some(Parameters { w: record.w(), k: layout.k, n: layout.n(), seed: 0 }) {
        return Err(Refusal::Parameters);
    }
    if parts.lsc != record.lsc() || parts.protocol != record.protocol() {
        return Err(Refusal::Foreign);
    }
    check_lwc(record, layout, parts.lwc)?;
    if len - parts.symbol != record.w() {
        return Err(Refusal::Symbol);
    }
    Ok(parts.lwc - 1)
}

#[inline(never)]
pub fn take(record: Record, symbols: &mut [u8], marks: &mut [u8], unit: &[u8]) -> Result<Taken, Refusal> {
    let layout = check_block(record, symbols, marks)?;
    let position = match read_expected(layout, record, unit) {
        Some(parts) => admit(layout, record, parts, unit.len())?,
        None => admit(layout, record, read(unit)?, unit.len())?,
    };
    let w = record.w();
    let symbol = &unit[unit.len() - w..];
    let place = &mut symbols[position * w..(position + 1) * w];
    match marks[position] {
        0 | 2 => {
            marks[position] = 1;
            place.copy_from_slice(symbol);
            Ok(Taken::Kept)
        }
        1 if place == symbol => Ok(Taken::Repeated),
        1 => Err(Refusal::Conflict),
        _ => Err(Refusal::Mark),
    }
}
