//! Tiles in rows: each byte of a row is decided by its place alone. And the tiles read back by following the chains.
use super::Fault;
use std::collections::BTreeSet;
use std::iter::successors;

/// Bytes of a row before its payload: next LWC and count.
const HEAD: usize = 4;

/// The rows of a tile of so many bytes.
fn rows_of(w: usize, length: usize, fault: Fault) -> usize {
    let payload = w - HEAD;
    match fault {
        Fault::FullLastRowGoesOn => (length / payload).saturating_add(1),
        _ => length.div_ceil(payload),
    }
}

/// The rows of tiles of these lengths, as a sum that can't wrap.
pub fn rows(w: usize, lengths: &[usize], fault: Fault) -> u128 {
    lengths.iter().map(|&length| rows_of(w, length, fault) as u128).sum()
}

/// For each number, the sum of those before it.
fn sums_before(numbers: impl Iterator<Item = usize>) -> Vec<usize> {
    let next = |sum: &mut usize, number: usize| Some(std::mem::replace(sum, *sum + number));
    numbers.scan(0, next).collect()
}

/// What a row has of a tile.
struct Part {
    next: usize,
    /// So many of the joined bytes, from this one on.
    first: usize,
    count: usize,
    /// What the row says of that.
    said: usize,
}

/// Tiles in rows of w bytes.
pub struct Packing<'a> {
    w: usize,
    tiles: &'a [u8],
    lengths: &'a [usize],
    /// For each tile, the joined bytes and the rows before it.
    bytes_before: Vec<usize>,
    rows_before: Vec<usize>,
    fault: Fault,
}

impl<'a> Packing<'a> {
    /// For lengths that add up to the bytes.
    pub fn new(w: usize, tiles: &'a [u8], lengths: &'a [usize], fault: Fault) -> Packing<'a> {
        let bytes_before = sums_before(lengths.iter().copied());
        let rows_before = sums_before(lengths.iter().map(|&length| rows_of(w, length, fault)));
        Packing { w, tiles, lengths, bytes_before, rows_before, fault }
    }

    /// What a row has, if it is used. Rows count from 0 here, so that the LWC of the following one is row + 2.
    fn part(&self, row: usize) -> Option<Part> {
        let tile = self.rows_before.partition_point(|&before| before <= row).checked_sub(1)?;
        let (length, payload) = (self.lengths[tile], self.w - HEAD);
        let (index, rows) = (row - self.rows_before[tile], rows_of(self.w, length, self.fault));
        let done = index * payload;
        let count = payload.min(length.saturating_sub(done));
        let goes_on = index + 1 < rows || self.fault == Fault::NextTileChained && tile + 1 < self.lengths.len();
        let next = match self.fault {
            _ if !goes_on => 0,
            Fault::NextFromZero => row + 1,
            _ => row + 2,
        };
        let said = if self.fault == Fault::CountOfTile { length } else { count };
        (index < rows).then_some(Part { next, first: self.bytes_before[tile] + done, count, said })
    }

    /// The byte at an offset of a row, unless a fault leaves what was there.
    fn byte(&self, part: Option<&Part>, offset: usize) -> Option<u8> {
        let Some(part) = part else { return (self.fault != Fault::UnusedRowsLeft).then_some(0) };
        let (next, said) = ((part.next as u16).to_be_bytes(), (part.said as u16).to_be_bytes());
        match offset {
            0 | 1 => Some(next[offset]),
            2 | 3 => Some(said[offset - 2]),
            _ if offset - HEAD < part.count => Some(self.tiles[part.first + offset - HEAD]),
            _ => (self.fault != Fault::PaddingLeft).then_some(0),
        }
    }

    /// As many rows as the output has.
    pub fn put(&self, out: &mut [u8]) {
        for (row, bytes) in out.chunks_exact_mut(self.w).enumerate() {
            let part = self.part(row);
            for (offset, byte) in bytes.iter_mut().enumerate() {
                *byte = self.byte(part.as_ref(), offset).unwrap_or(*byte);
            }
        }
    }
}

/// The tiles in rows of w bytes: a chain begins at a row that has bytes and is no row's next, and its rows' bytes are joined.
pub fn follow(w: usize, rows: &[u8]) -> Vec<Vec<u8>> {
    let rows: Vec<&[u8]> = rows.chunks_exact(w).collect();
    let number = |lwc: usize, at: usize| usize::from(rows[lwc - 1][at]) * 256 + usize::from(rows[lwc - 1][at + 1]);
    let (next, count) = (|lwc: usize| number(lwc, 0), |lwc: usize| number(lwc, 2));
    let named: BTreeSet<usize> = (1..=rows.len()).map(next).collect();
    let chain = |first: usize| successors(Some(first), |&lwc| Some(next(lwc)).filter(|&next| next != 0));
    let tile = |first: usize| chain(first).flat_map(|lwc| rows[lwc - 1][HEAD..][..count(lwc)].to_vec()).collect();
    (1..=rows.len()).filter(|&lwc| count(lwc) > 0 && !named.contains(&lwc)).map(tile).collect()
}
