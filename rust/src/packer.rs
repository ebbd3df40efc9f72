//! Tiles, packed into the information of a block.
use alloc::vec;
use alloc::vec::Vec;
use core::fmt;

use crate::{calls, Record, Refusal};

/// Collects tiles for one block, and packs them into its information. A tile is 1 byte or more that belong together, such as a part of a scene; it
/// may be more than a symbol holds. The packer keeps a copy of its bytes.
///
/// ```
/// use lipvezor::{Code, Codeword, Packer, Record};
///
/// # fn main() -> Result<(), lipvezor::Refusal> {
/// let record = Record::new(Code::C1, 16).with_fill(20);
/// let mut packer = Packer::new(record)?;
/// packer.push([7; 100])?; // 9 rows of up to 12 bytes
/// packer.push(b"a short one")?;
/// assert_eq!((packer.len(), packer.rows(), packer.rows_left()), (2, 10, 10));
///
/// let sent = Codeword::encode(record, packer.pack())?;
/// assert_eq!(sent.information().len(), 20 * 16);
/// # Ok(())
/// # }
/// ```
///
/// # Block after block
///
/// A tile that needs more rows than are left is refused with [`Refusal::Overfull`]. The packer has then not changed: its tiles are packed, and the
/// refused one begins the next block. The last block has the rows that its tiles need, and no others. (Units do not carry the
/// [fill](Record#a-short-block): the ground has to know it.)
///
/// ```
/// use lipvezor::{Code, Codeword, Packer, Record, Refusal};
///
/// # fn main() -> Result<(), Refusal> {
/// let tiles: Vec<Vec<u8>> = (0..100).map(|i| vec![i as u8; 300 + 10 * i]).collect();
/// let record = Record::new(Code::C1, 64);
/// let mut packer = Packer::new(record)?;
/// let mut sent = Vec::new();
/// for tile in &tiles {
///     match packer.push(tile) {
///         Err(Refusal::Overfull) => {
///             sent.push(Codeword::encode(record.with_lsc(1 + sent.len()), packer.pack())?);
///             packer.clear();
///             packer.push(tile)?; // refused again if it needs more than a whole block
///         }
///         answer => answer?,
///     }
/// }
/// packer.set_fill(packer.rows())?;
/// sent.push(Codeword::encode(packer.record().with_lsc(1 + sent.len()), packer.pack())?);
/// assert_eq!(sent.iter().map(|word| word.record().fill()).collect::<Vec<_>>(), [512, 512, 369]);
/// # Ok(())
/// # }
/// ```
///
/// # Rows
///
/// Row r is the information symbol of LWC r, from 1 on. Each tile begins a row of its own, and every row but a tile's last is full. Rows that are
/// left over, up to the fill, are all zeros.
///
/// | bytes | what |
/// |---|---|
/// | 0, 1 | next, big-endian: r + 1 where the tile goes on in the following row, 0 where it ends here |
/// | 2, 3 | count of the tile bytes in this row, big-endian: 1 to W - 4 |
/// | 4 ... | the tile bytes, then zeros to the row's end |
///
/// The crate does not take tiles out of rows again. From the information of a packed block that closed whole they are read so:
///
/// ```
/// use lipvezor::{pack, Code, Record};
///
/// # fn main() -> Result<(), lipvezor::Refusal> {
/// let record = Record::new(Code::C1, 7).with_fill(9);
/// let information = pack(record, ["a tile", "b", "the third tile"])?;
/// assert_eq!(information[..14], *b"\0\x02\0\x03a t\0\0\0\x03ile");
///
/// let (mut tiles, mut tile) = (Vec::new(), Vec::new());
/// for row in information.chunks(record.w()) {
///     let [next, count] = [0, 2].map(|at| usize::from(u16::from_be_bytes([row[at], row[at + 1]])));
///     tile.extend_from_slice(&row[4..4 + count]);
///     if next == 0 && count > 0 {
///         tiles.push(std::mem::take(&mut tile));
///     }
/// }
/// assert_eq!(tiles, [&b"a tile"[..], b"b", b"the third tile"]);
/// # Ok(())
/// # }
/// ```
#[derive(Clone, PartialEq, Eq)]
pub struct Packer {
    record: Record,
    tiles: Vec<u8>,
    lengths: Vec<usize>,
    rows: usize,
}

/// Whether the archive packs tiles with these numbers.
fn check(record: Record) -> Result<(), Refusal> {
    // pack refuses the numbers before it refuses an output of no bytes
    match calls::pack(&record, &[], &[], &mut []) {
        Err(Refusal::Length) => Ok(()),
        answer => answer,
    }
}

impl Packer {
    /// A packer without tiles for a block of a record's code, W and fill. Protocol ID and LSC do not count.
    ///
    /// Refusals: code, width, narrow, fill.
    pub fn new(record: Record) -> Result<Packer, Refusal> {
        check(record)?;
        Ok(Packer { record, tiles: Vec::new(), lengths: Vec::new(), rows: 0 })
    }

    /// The block's numbers.
    #[must_use]
    pub fn record(&self) -> Record {
        self.record
    }

    /// Adds a tile after the others.
    ///
    /// Refusals: tiles (it has no bytes), overfull (it needs more rows than are left). The packer has then not changed.
    pub fn push(&mut self, tile: impl AsRef<[u8]>) -> Result<(), Refusal> {
        let tile = tile.as_ref();
        if tile.is_empty() {
            return Err(Refusal::Tiles);
        }
        let rows = self.record.rows_needed(&[tile.len()]);
        if rows > self.rows_left() {
            return Err(Refusal::Overfull);
        }
        self.tiles.extend_from_slice(tile);
        self.lengths.push(tile.len());
        self.rows += rows;
        Ok(())
    }

    /// How many tiles there are.
    #[must_use]
    pub fn len(&self) -> usize {
        self.lengths.len()
    }

    /// Whether there is no tile.
    #[must_use]
    pub fn is_empty(&self) -> bool {
        self.lengths.is_empty()
    }

    /// The rows that the tiles need.
    #[must_use]
    pub fn rows(&self) -> usize {
        self.rows
    }

    /// The rows that are left. A tile of up to W - 4 times as many bytes still fits.
    #[must_use]
    pub fn rows_left(&self) -> usize {
        self.record.fill() - self.rows
    }

    /// Sets the fill, and keeps the tiles. With [`Packer::rows`] the block has no row that is left over.
    ///
    /// Refusals: fill, overfull (the tiles need more rows). The packer then keeps the fill that it had.
    pub fn set_fill(&mut self, fill: usize) -> Result<(), Refusal> {
        let record = self.record.with_fill(fill);
        check(record)?;
        if self.rows > fill {
            return Err(Refusal::Overfull);
        }
        self.record = record;
        Ok(())
    }

    /// The information of a block with these tiles: [`Record::information_bytes`] bytes, for [`Codeword::encode`](crate::Codeword::encode). The
    /// packer keeps its tiles.
    #[must_use]
    pub fn pack(&self) -> Vec<u8> {
        let mut information = vec![0; self.record.information_bytes()];
        self.pack_into(&mut information).expect("what was pushed fits");
        information
    }

    /// The same, into an output of exactly [`Record::information_bytes`] bytes. What that held is overwritten.
    ///
    /// Refusals: length.
    pub fn pack_into(&self, out: &mut [u8]) -> Result<(), Refusal> {
        calls::pack(&self.record, &self.tiles, &self.lengths, out)
    }

    /// Takes all tiles away, for the next block. The record and the memory stay.
    pub fn clear(&mut self) {
        self.tiles.clear();
        self.lengths.clear();
        self.rows = 0;
    }
}

/// Numbers and counts alone: the bytes are not for a log.
impl fmt::Debug for Packer {
    fn fmt(&self, f: &mut fmt::Formatter<'_>) -> fmt::Result {
        let mut shown = f.debug_struct("Packer");
        shown.field("record", &self.record).field("tiles", &self.len()).field("rows", &self.rows).finish_non_exhaustive()
    }
}

/// Packs tiles into the information of one block: [`Record::information_bytes`] bytes, in [rows](Packer#rows), for
/// [`Codeword::encode`](crate::Codeword::encode). [`Record::rows_needed`] says beforehand which fill will do. A [`Packer`] takes tiles one by one,
/// and tells when a block is full.
///
/// ```
/// use lipvezor::{pack, Code, Codeword, Record, Refusal};
///
/// # fn main() -> Result<(), Refusal> {
/// let record = Record::new(Code::C4, 32).with_fill(40);
/// let tiles = [vec![1; 300], vec![2; 5], vec![3; 600]];
/// let sent = Codeword::encode(record, pack(record, &tiles)?)?;
/// assert_eq!(sent.lwcs().len(), 40 + 128);
///
/// assert_eq!(pack(record.with_fill(33), &tiles), Err(Refusal::Overfull)); // 11 + 1 + 22 rows
/// assert_eq!(pack(record, [&[1, 2][..], &[]]), Err(Refusal::Tiles));
/// # Ok(())
/// # }
/// ```
///
/// Refusals: code, width, narrow, fill, tiles (one has no bytes), overfull. All tiles are looked at, unless one before them has no bytes. Nothing is
/// allocated where the record is refused.
pub fn pack(record: Record, tiles: impl IntoIterator<Item = impl AsRef<[u8]>>) -> Result<Vec<u8>, Refusal> {
    let mut packer = Packer::new(record)?;
    let mut overfull = false;
    for tile in tiles {
        match packer.push(tile) {
            // a later one may have no bytes, which is tried before
            Err(Refusal::Overfull) => overfull = true,
            answer => answer?,
        }
    }
    if overfull {
        return Err(Refusal::Overfull);
    }
    Ok(packer.pack())
}

#[cfg(test)]
mod tests {
    use alloc::format;

    use super::*;
    use crate::{Code, Codeword, MAX_WIDTH};

    /// Tiles of these lengths, with bytes that are never 0.
    fn tiles(lengths: &[usize]) -> Vec<Vec<u8>> {
        let byte = |i: usize, at: usize| (1 + (i * 31 + at * 7) % 255) as u8;
        lengths.iter().enumerate().map(|(i, &length)| (0..length).map(|at| byte(i, at)).collect()).collect()
    }

    /// What packing makes of tiles, row by row.
    fn due(record: Record, tiles: &[Vec<u8>]) -> Vec<u8> {
        let mut rows: Vec<Vec<u8>> = Vec::new();
        for tile in tiles {
            let parts = tile.chunks(record.w() - 4);
            let last = rows.len() + parts.len();
            for part in parts {
                let (lwc, count) = (rows.len() + 1, part.len() as u16);
                let next = if lwc < last { lwc as u16 + 1 } else { 0 };
                rows.push([&next.to_be_bytes()[..], &count.to_be_bytes(), part].concat());
            }
        }
        assert!(rows.len() <= record.fill());
        rows.resize(record.fill(), Vec::new());
        rows.iter_mut().for_each(|row| row.resize(record.w(), 0));
        rows.concat()
    }

    #[test]
    fn tiles_lie_in_rows_of_their_own() {
        for &code in Code::ALL {
            for w in [5, 6, 16, 127, 128, 300, MAX_WIDTH] {
                let room = w - 4;
                for lengths in [
                    &[][..],
                    &[1],
                    &[room],
                    &[room + 1],
                    &[room * 300],
                    &[1, 1, 1],
                    &[room - 1, room, room + 1, 2 * room - 1, 2 * room, 2 * room + 1],
                    &[room * code.k() - room, 1],
                    &[room * code.k()],
                ] {
                    // lengths of 0 where W is 5
                    let tiles = tiles(&lengths.iter().map(|&length| length.max(1)).collect::<Vec<_>>());
                    let full = Record::new(code, w);
                    let rows = full.rows_needed(&tiles.iter().map(Vec::len).collect::<Vec<_>>());
                    for fill in [rows.max(1), code.k().min(rows + 1), code.k()] {
                        let record = full.with_fill(fill);
                        let mut packer = Packer::new(record).unwrap();
                        tiles.iter().for_each(|tile| packer.push(tile).unwrap());
                        assert_eq!((packer.len(), packer.is_empty()), (tiles.len(), tiles.is_empty()));
                        assert_eq!((packer.rows(), packer.rows_left()), (rows, fill - rows));
                        let information = packer.pack();
                        assert!(information == due(record, &tiles), "{record}, {lengths:?}");
                        assert!(pack(record, &tiles).unwrap() == information);
                        let mut lent = vec![0xEE; information.len()];
                        packer.pack_into(&mut lent).unwrap();
                        assert!(lent == information);
                        assert_eq!(Codeword::encode(record, lent).unwrap().information().len(), fill * w);
                    }
                }
            }
        }
    }

    #[test]
    fn as_many_tiles_as_rows_fit() {
        for &code in Code::ALL {
            let mut packer = Packer::new(Record::new(code, 100)).unwrap();
            for i in 0..code.k() {
                assert_eq!((packer.rows(), packer.push([i as u8])), (i, Ok(())));
            }
            assert_eq!((packer.push([1]), packer.rows_left(), packer.len()), (Err(Refusal::Overfull), 0, code.k()));
            assert_eq!(packer.pack()[(code.k() - 1) * 100..][..5], [0, 0, 0, 1, 255]);
        }
    }

    #[test]
    fn a_refused_tile_changes_nothing() {
        let mut packer = Packer::new(Record::new(Code::C1, 16).with_fill(10)).unwrap();
        assert_eq!(
            [0, 121, 10_000].map(|length| packer.push(vec![1; length])),
            [Refusal::Tiles, Refusal::Overfull, Refusal::Overfull].map(Err)
        );
        assert!(packer.is_empty() && packer.rows() == 0);
        packer.push([1; 13]).unwrap();
        let before = packer.clone();
        assert_eq!([0, 97].map(|length| packer.push(vec![1; length])), [Err(Refusal::Tiles), Err(Refusal::Overfull)]);
        assert!(packer == before);
        packer.push([1; 96]).unwrap();
        assert_eq!((packer.rows(), packer.rows_left()), (10, 0));
        // of no bytes before too many rows
        assert_eq!((packer.push([]), packer.push([1])), (Err(Refusal::Tiles), Err(Refusal::Overfull)));
        assert_eq!(packer.len(), 2);
    }

    #[test]
    fn numbers_of_any_size_are_refused() {
        let none: [&[u8]; 0] = [];
        let refused = |record: Record, due: Refusal| {
            assert_eq!(Packer::new(record).unwrap_err(), due, "{record}");
            // before what the tiles are
            assert_eq!((pack(record, none), pack(record, [[]]), pack(record, [[1; 10_000]])), (Err(due), Err(due), Err(due)), "{record}");
        };
        for code in [0, 3, 255, usize::MAX].map(Code::from_number) {
            [5, 0, 4, usize::MAX].iter().for_each(|&w| refused(Record::new(code, w).with_fill(0), Refusal::Code));
        }
        for &code in Code::ALL {
            for fill in [0, 1, code.k(), code.k() + 1, usize::MAX] {
                let widths = [0, MAX_WIDTH + 1, usize::MAX / 1024, usize::MAX];
                widths.iter().for_each(|&w| refused(Record::new(code, w).with_fill(fill), Refusal::Width));
                (1..5).for_each(|w| refused(Record::new(code, w).with_fill(fill), Refusal::Narrow));
            }
            for w in [5, MAX_WIDTH] {
                let fills = [0, code.k() + 1, usize::MAX / w, usize::MAX];
                fills.iter().for_each(|&fill| refused(Record::new(code, w).with_fill(fill), Refusal::Fill));
                // the label does not count
                let record = Record::new(code, w).with_protocol(8).with_lsc(0);
                assert_eq!(pack(record, none).unwrap(), vec![0; code.k() * w]);
                assert_eq!(Packer::new(record).unwrap().record(), record);
            }
        }
    }

    #[test]
    fn a_tile_of_no_bytes_is_refused_before_too_many_rows() {
        let record = Record::new(Code::C1, 16).with_fill(10);
        for (lengths, due) in [
            (&[120][..], Ok(())),
            (&[121], Err(Refusal::Overfull)),
            (&[121, 0], Err(Refusal::Tiles)),
            (&[0, 121], Err(Refusal::Tiles)),
            (&[108, 1, 1], Err(Refusal::Overfull)),
            (&[108, 13, 1], Err(Refusal::Overfull)),
            (&[108, 13, 1, 0], Err(Refusal::Tiles)),
            (&[1, 0, 1], Err(Refusal::Tiles)),
        ] {
            assert_eq!(pack(record, tiles(lengths)).map(|_| ()), due, "{lengths:?}");
            // as the call itself does
            let mut out = [0xEE; 160];
            assert_eq!(calls::pack(&record, &tiles(lengths).concat(), lengths, &mut out), due, "{lengths:?}");
            assert_eq!(out == [0xEE; 160], due.is_err());
        }
    }

    #[test]
    fn a_fill_is_set_where_the_tiles_fit() {
        let tiles = tiles(&[60, 61, 5]);
        let full = Record::new(Code::C7, 64).with_lsc(9);
        let mut packer = Packer::new(full).unwrap();
        tiles.iter().for_each(|tile| packer.push(tile).unwrap());
        let refused =
            [(0, Refusal::Fill), (1, Refusal::Overfull), (3, Refusal::Overfull), (513, Refusal::Fill), (usize::MAX, Refusal::Fill)];
        for (fill, due) in refused {
            assert_eq!((packer.set_fill(fill), packer.record()), (Err(due), full));
        }
        for fill in [4, 5, 512] {
            assert_eq!((packer.set_fill(fill), packer.record(), packer.rows_left()), (Ok(()), full.with_fill(fill), fill - 4));
            assert_eq!(packer.pack(), due(full.with_fill(fill), &tiles));
        }
        // without tiles any fill will do
        packer.clear();
        assert_eq!([1, 512, 0].map(|fill| packer.set_fill(fill)), [Ok(()), Ok(()), Err(Refusal::Fill)]);
    }

    #[test]
    fn a_cleared_packer_is_a_new_one_with_its_memory() {
        let record = Record::new(Code::C1, 16);
        let mut packer = Packer::new(record).unwrap();
        tiles(&[100, 200, 300]).iter().for_each(|tile| packer.push(tile).unwrap());
        let memory = |packer: &Packer| (packer.tiles.as_ptr(), packer.tiles.capacity(), packer.lengths.as_ptr(), packer.lengths.capacity());
        let before = memory(&packer);
        packer.clear();
        assert!(packer == Packer::new(record).unwrap() && memory(&packer) == before);
        assert_eq!(packer.pack(), vec![0; 512 * 16]);
        packer.push([5; 600]).unwrap();
        assert_eq!((memory(&packer), packer.pack()), (before, due(record, &[vec![5; 600]])));
    }

    #[test]
    fn an_output_of_another_size_is_refused() {
        let mut packer = Packer::new(Record::new(Code::C1, 16).with_fill(10)).unwrap();
        packer.push([1; 100]).unwrap();
        for length in [0, 1, 144, 159, 161, 512 * 16] {
            let mut out = vec![0xEE; length];
            assert_eq!(packer.pack_into(&mut out), Err(Refusal::Length));
            assert!(out.iter().all(|&x| x == 0xEE));
        }
    }

    #[test]
    fn a_packer_is_shown_without_its_bytes() {
        let mut packer = Packer::new(Record::new(Code::C1, 16)).unwrap();
        packer.push([0xAB; 100]).unwrap();
        let shown = format!("{packer:?}");
        assert!(shown.ends_with(", tiles: 1, rows: 9, .. }") && !shown.contains("171"), "{shown}");
    }
}
