//! Units in which every string of some bytes stands at one place.
use super::units::{read, Reader};
use super::{Difference, Stats};
use crate::model::{codes, Fault};

/// Bytes at both sides of the borders of a number.
pub const EDGES: [u8; 8] = [0x00, 0x01, 0x7F, 0x80, 0x81, 0x8F, 0x90, 0xFF];

/// The first six bytes of a unit of the reader's block.
fn header(count: u8) -> Vec<u8> {
    vec![0x1A, count, 0x00, 0x01, 0x03, 0xE8]
}

/// What stands before an only extension, before the first of two, and before the second after type 1.
fn starts() -> [Vec<u8>; 3] {
    [header(1), header(2), [&header(2)[..], &[1, 4, 3, 3, 3, 0]].concat()]
}

/// Compares units with each string of so many of these bytes between two parts.
fn each_string(
    before: &[u8],
    bytes: &[u8],
    length: usize,
    after: &[u8],
    mut compare: impl FnMut(&[u8]) -> Result<(), Difference>,
) -> Result<(), Difference> {
    let mut unit = [before, &vec![0; length], after].concat();
    for string in 0..bytes.len().pow(length as u32) {
        let mut rest = string;
        for byte in &mut unit[before.len()..][..length] {
            *byte = bytes[rest % bytes.len()];
            rest /= bytes.len();
        }
        compare(&unit)?;
    }
    Ok(())
}

/// All bytes, up to three, where extensions begin; only read.
pub fn short_units(fault: Fault) -> Result<Stats, Difference> {
    let bytes: Vec<u8> = (0..=255).collect();
    let mut stats = Stats::default();
    for start in starts() {
        for length in 0..=3 {
            each_string(&start, &bytes, length, &[], |unit| {
                stats.count_read(read(unit, fault)?);
                Ok(())
            })?;
        }
    }
    Ok(stats)
}

/// Edge bytes, up to six, where a length begins, of type 1 and of another; with no bytes after them and with some.
pub fn lengths(fault: Fault) -> Result<Stats, Difference> {
    let mut reader = Reader::new(&codes::C1, 1, fault);
    for start in starts() {
        for kind in [1, 2] {
            let before = [&start[..], &[kind]].concat();
            for length in 0..=6 {
                for after in [&[][..], &[1; 300]] {
                    each_string(&before, &EDGES, length, after, |unit| reader.compare(unit))?;
                }
            }
        }
    }
    Ok(reader.stats)
}

/// Edge bytes, up to seven, as type 1's value, with a length that is one too small, true, and one too large; with no byte after them and
/// with one.
pub fn coding_values(fault: Fault) -> Result<Stats, Difference> {
    let mut reader = Reader::new(&codes::C1, 1, fault);
    for length in 0..=7usize {
        for said in length.saturating_sub(1)..=length + 1 {
            let before = [&header(1)[..], &[1, said as u8]].concat();
            for after in [&[][..], &[1]] {
                each_string(&before, &EDGES, length, after, |unit| reader.compare(unit))?;
            }
        }
    }
    Ok(reader.stats)
}
