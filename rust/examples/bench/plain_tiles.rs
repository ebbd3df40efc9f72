//! Pack in plain Rust, written from the requirements: its steps need not be the archive's.
use crate::plain_tables::{check_code, check_fill, check_length};
use lipvezor::{Record, Refusal};

/// Bytes of a row before its payload: next LWC and count.
const HEAD: usize = 4;

/// Refusals 16 and 17. Answers the rows that the tiles need.
fn check_tiles(record: Record, tiles: &[u8], lengths: &[usize]) -> Result<usize, Refusal> {
    let payload = record.w() - HEAD;
    let (mut sum, mut rows) = (0usize, 0);
    for &length in lengths {
        if length == 0 {
            return Err(Refusal::Tiles);
        }
        sum = sum.checked_add(length).ok_or(Refusal::Tiles)?;
        rows += length.div_ceil(payload);
    }
    if sum != tiles.len() {
        return Err(Refusal::Tiles);
    }
    if rows > record.fill() {
        return Err(Refusal::Overfull);
    }
    Ok(rows)
}

fn put_head(row: &mut [u8], next: u16, count: usize) {
    row[..2].copy_from_slice(&next.to_be_bytes());
    row[2..HEAD].copy_from_slice(&(count as u16).to_be_bytes());
}

#[inline(never)]
pub fn pack(record: Record, mut tiles: &[u8], lengths: &[usize], out: &mut [u8]) -> Result<(), Refusal> {
    let layout = check_code(record)?;
    let w = record.w();
    if w <= HEAD {
        return Err(Refusal::Narrow);
    }
    check_fill(record, layout)?;
    check_length(out.len(), record.fill() * w)?;
    let rows = check_tiles(record, tiles, lengths)?;

    let payload = w - HEAD;
    let (used, unused) = out.split_at_mut(rows * w);
    unused.fill(0);
    let mut rows = used.chunks_exact_mut(w).zip(1u16..);
    for &length in lengths {
        let (tile, others) = tiles.split_at(length);
        tiles = others;
        // all rows of a tile but its last are full and go on
        let (full, last) = tile.split_at((length - 1) / payload * payload);
        for (part, (row, lwc)) in full.chunks_exact(payload).zip(&mut rows) {
            put_head(row, lwc + 1, payload);
            row[HEAD..].copy_from_slice(part);
        }
        if let Some((row, _)) = rows.next() {
            put_head(row, 0, last.len());
            let (bytes, padding) = row[HEAD..].split_at_mut(last.len());
            bytes.copy_from_slice(last);
            padding.fill(0);
        }
    }
    Ok(())
}
