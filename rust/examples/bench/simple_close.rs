//! Close by plain least-weight Gauss-Jordan elimination on packed rows with a digit for each position: in each turn the row of least weight among
//! those without a pivot gets its lowest position as pivot, and is added to all other rows that have it.
use crate::layers::Found;
use crate::plain_close::{check_close, know_idle, tell};
use crate::plain_rows::{add, lowest, only, weight, System, Tally};
use crate::plain_tables::Layout;
use lipvezor::{Record, Refusal};

/// The weight that stands for a row that has its pivot.
const DONE: usize = usize::MAX;

/// Adds one symbol to two others, rows j and h.
fn add_both(rows: &mut [u8], w: usize, j: usize, h: usize, symbol: &[u8]) {
    let (before, on) = rows.split_at_mut(j.max(h) * w);
    let both = before[j.min(h) * w..][..w].iter_mut().zip(&mut on[..w]);
    for ((d, e), s) in both.zip(symbol) {
        *d ^= *s;
        *e ^= *s;
    }
}

/// Adds a symbol at each of the rows, two at a time.
fn add_at(rows: &mut [u8], w: usize, js: &[usize], symbol: &[u8]) {
    let pairs = js.chunks_exact(2);
    let rest = pairs.remainder();
    for pair in pairs {
        add_both(rows, w, pair[0], pair[1], symbol);
    }
    for &j in rest {
        add(&mut rows[j * w..][..w], symbol);
    }
}

/// The equations of a block.
fn build(system: &mut System, layout: &Layout, fill: usize, symbols: &[u8], marks: &[u8]) {
    let (w, stride) = (system.w, system.stride());
    system.rows.fill(0);
    system.rhs.fill(0);
    for (row, addresses) in layout.table.iter().enumerate() {
        for x in (row * layout.q..(row + 1) * layout.q).take_while(|&x| x < fill) {
            let step = x % layout.q;
            let js = layout.check_rows(addresses, step);
            if marks[x] == 1 {
                add_at(system.rhs, w, &js[..addresses.len()], &symbols[x * w..(x + 1) * w]);
            } else {
                for &j in &js[..addresses.len()] {
                    system.rows[j * stride + x / 64] |= 1 << (x % 64);
                }
            }
        }
    }
    for t in 0..layout.m {
        let x = layout.k + t;
        let last = (t + 1).min(layout.m - 1);
        if marks[x] == 1 {
            add_at(system.rhs, w, &[t, t + 1][..=last - t], &symbols[x * w..(x + 1) * w]);
        } else {
            for j in t..=last {
                system.rows[j * stride + x / 64] |= 1 << (x % 64);
            }
        }
    }
}

/// Adds row r to each other row that has position p, and weighs those that have no pivot yet anew.
fn sweep<T: Tally>(system: &mut System, weights: &mut [usize], r: usize, p: usize, tally: &mut T) {
    let mut from = 0;
    while let Some(j) = system.next(p, from, |j| j != r) {
        system.add_row(r, j);
        tally.addition();
        if weights[j] != DONE {
            weights[j] = weight(system.row(j));
        }
        from = j + 1;
    }
}

fn eliminate<T: Tally>(system: &mut System, m: usize, tally: &mut T) {
    let mut weights = [0; 1024];
    let weights = &mut weights[..m];
    for (r, place) in weights.iter_mut().enumerate() {
        *place = weight(system.row(r));
    }
    for _ in 0..m {
        let least = weights.iter().enumerate().filter(|(_, &w)| w != 0 && w != DONE).min_by_key(|(_, &w)| w);
        let Some((r, _)) = least else {
            return;
        };
        if let Some(p) = lowest(system.row(r)) {
            system.set_pivot(r, p as u64 + 1);
            weights[r] = DONE;
            sweep(system, weights, r, p, tally);
        }
    }
}

/// What is read off the reduced equations: each position that stands alone in a row is filled.
fn settle(system: &System, symbols: &mut [u8], marks: &mut [u8]) -> bool {
    let w = system.w;
    for (symbol, mark) in symbols.chunks_exact_mut(w).zip(marks.iter_mut()) {
        if *mark != 1 {
            *mark = 0;
            symbol.fill(0);
        }
    }
    if !system.consistent() {
        return false;
    }
    for (row, rhs) in system.rows.chunks_exact(system.stride()).zip(system.rhs.chunks_exact(w)) {
        let (row, pivot) = row.split_at(system.words);
        if pivot[0] != 0 && only(row, pivot[0] as usize - 1) {
            let p = pivot[0] as usize - 1;
            symbols[p * w..(p + 1) * w].copy_from_slice(rhs);
            marks[p] = 2;
        }
    }
    true
}

#[inline(never)]
pub fn close<T: Tally>(
    record: Record,
    symbols: &mut [u8],
    marks: &mut [u8],
    words: &mut [u64],
    bytes: &mut [u8],
    tally: &mut T,
) -> Result<Found, Refusal> {
    let layout = check_close(record, symbols, marks, words, bytes)?;
    let w = record.w();
    let packed = layout.n() / 64;
    let mut system = System { rows: &mut words[..layout.m * (packed + 1)], rhs: &mut bytes[..], words: packed, w };
    know_idle(record, layout, symbols, marks);
    build(&mut system, layout, record.fill(), symbols, marks);
    eliminate(&mut system, layout.m, tally);
    let ok = settle(&system, symbols, marks);
    words.fill(0);
    bytes.fill(0);
    Ok(tell(record, layout, ok, marks))
}
