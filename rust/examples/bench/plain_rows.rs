//! Packed equations and elimination in plain Rust: the steps of `elimination`.
const CLOSED: u16 = 65535;

/// Counts row additions, or doesn't.
pub trait Tally {
    fn addition(&mut self);
}

impl Tally for () {
    fn addition(&mut self) {}
}

impl Tally for usize {
    fn addition(&mut self) {
        *self += 1;
    }
}

/// Adds one symbol to another.
pub fn add(to: &mut [u8], from: &[u8]) {
    for (d, s) in to.iter_mut().zip(from) {
        *d ^= *s;
    }
}

/// Two different parts of a slice, where a part is `len` long: one to read and one to change.
fn two<T>(all: &mut [T], from: usize, to: usize, len: usize) -> (&[T], &mut [T]) {
    if from < to {
        let (before, on) = all.split_at_mut(to * len);
        (&before[from * len..][..len], &mut on[..len])
    } else {
        let (before, on) = all.split_at_mut(from * len);
        (&on[..len], &mut before[to * len..][..len])
    }
}

/// The packed equations: rows of `words` words and a pivot word, right-hand sides of `w` bytes.
pub struct System<'a> {
    pub rows: &'a mut [u64],
    pub rhs: &'a mut [u8],
    pub words: usize,
    pub w: usize,
}

impl System<'_> {
    pub fn stride(&self) -> usize {
        self.words + 1
    }

    /// The digits of row r, without the pivot word.
    pub fn row(&self, r: usize) -> &[u64] {
        &self.rows[r * self.stride()..][..self.words]
    }

    pub fn has(&self, r: usize, p: usize) -> bool {
        self.row(r)[p / 64] >> (p % 64) & 1 == 1
    }

    pub fn set_pivot(&mut self, r: usize, pivot: u64) {
        let at = r * self.stride() + self.words;
        self.rows[at] = pivot;
    }

    /// The first row from `from` on that has position p and for which `wanted` holds.
    pub fn next(&self, p: usize, from: usize, wanted: impl Fn(usize) -> bool) -> Option<usize> {
        let (word, bit) = (p / 64, 1 << (p % 64));
        let mut rows = self.rows[from * self.stride()..].chunks_exact(self.stride()).zip(from..);
        rows.find(|&(row, j)| row[word] & bit != 0 && wanted(j)).map(|(_, j)| j)
    }

    /// Adds row r to row j. The pivot word takes no part.
    pub fn add_row(&mut self, r: usize, j: usize) {
        let (row, other) = two(self.rows, r, j, self.words + 1);
        for (d, s) in other[..self.words].iter_mut().zip(&row[..self.words]) {
            *d ^= *s;
        }
        let (rhs, other) = two(self.rhs, r, j, self.w);
        add(other, rhs);
    }

    /// No equation without unknowns fails.
    pub fn consistent(&self) -> bool {
        let mut equations = self.rows.chunks_exact(self.stride()).zip(self.rhs.chunks_exact(self.w));
        equations.all(|(row, rhs)| row[self.words] != 0 || rhs.iter().fold(0, |all, b| all | b) == 0)
    }
}

pub fn weight(row: &[u64]) -> usize {
    let mut n = 0;
    for word in row {
        if *word != 0 {
            n += word.count_ones() as usize;
        }
    }
    n
}

fn weigh(system: &System, hints: &mut [u16]) {
    for (hint, row) in hints.iter_mut().zip(system.rows.chunks_exact(system.stride())) {
        *hint = match weight(&row[..system.words]) {
            0 => CLOSED,
            w => w as u16,
        };
    }
}

/// A row with the least hint, or the first from row `from` on, round the end, whose hint is at most `enough`.
fn pick(hints: &[u16], from: usize, enough: u16) -> Option<usize> {
    let mut best = None;
    let mut least = CLOSED;
    for part in [from..hints.len(), 0..from] {
        let start = part.start;
        for (i, &hint) in hints[part].iter().enumerate() {
            if hint < least {
                best = Some(start + i);
                if hint <= enough {
                    return best;
                }
                least = hint;
            }
        }
    }
    best
}

fn joined(a: u16, b: u16) -> u16 {
    match a as u64 + b as u64 {
        s if s < 3 => 1,
        s if s > 60000 => 60000,
        s => (s - 2) as u16,
    }
}

/// The rows that are not CLOSED, in no order.
struct Open {
    list: [u16; 1024],
    count: usize,
}

impl Open {
    fn new(hints: &[u16]) -> Open {
        let mut open = Open { list: [0; 1024], count: 0 };
        for (j, &hint) in hints.iter().enumerate() {
            if hint != CLOSED {
                open.list[open.count] = j as u16;
                open.count += 1;
            }
        }
        open
    }
}

/// Row r goes into each other row of the list that has position p, and leaves the list.
fn push<T: Tally>(system: &mut System, hints: &mut [u16], open: &mut Open, r: usize, p: usize, tally: &mut T) {
    let mut mine = None;
    let (word, bit, stride) = (p / 64, 1 << (p % 64), system.stride());
    for i in 0..open.count {
        let j = open.list[i] as usize;
        if system.rows[j * stride + word] & bit == 0 {
            continue;
        }
        if j == r {
            mine = Some(i);
            continue;
        }
        system.add_row(r, j);
        hints[j] = joined(hints[j], hints[r]);
        tally.addition();
    }
    hints[r] = CLOSED;
    if let Some(i) = mine {
        open.count -= 1;
        open.list[i] = open.list[open.count];
    }
}

/// The forward pass. Answers how many turns it took; `order` has each turn's row and position.
fn prepare<T: Tally>(system: &mut System, order: &mut [(u16, u16)], m: usize, tally: &mut T) -> usize {
    let mut hints = [0; 1024];
    let hints = &mut hints[..m];
    weigh(system, hints);
    let mut open = Open::new(hints);
    let mut from = 0;
    let mut enough = 1;
    for (t, place) in order[..m].iter_mut().enumerate() {
        let Some(r) = pick(hints, from, enough) else {
            return t;
        };
        from = r;
        enough = hints[r];
        *place = match lowest(system.row(r)) {
            Some(p) => {
                push(system, hints, &mut open, r, p, tally);
                (r as u16, p as u16)
            }
            None => {
                hints[r] = CLOSED;
                (r as u16, 0)
            }
        };
    }
    m
}

/// A mask of the digits of word i that two rows have.
fn shared_in(system: &System, i: usize) -> u64 {
    let mut seen = 0;
    let mut shared = 0;
    for row in system.rows.chunks_exact(system.stride()) {
        shared |= seen & row[i];
        seen |= row[i];
    }
    shared
}

/// The rows whose pivot from the first part stands in no other row get it at once.
fn finish_all_alone(system: &mut System, done: &mut [bool], order: &[(u16, u16)]) {
    let mut masks = [0; 48];
    for (i, mask) in masks[..system.words].iter_mut().enumerate() {
        *mask = shared_in(system, i);
    }
    for &(r, p) in order {
        let (r, p) = (r as usize, p as usize);
        if p / 64 < system.words && masks[p / 64] >> (p % 64) & 1 == 0 && system.has(r, p) {
            system.set_pivot(r, p as u64 + 1);
            done[r] = true;
        }
    }
}

pub fn lowest(row: &[u64]) -> Option<usize> {
    let i = row.iter().position(|&word| word != 0)?;
    Some(i * 64 + row[i].trailing_zeros() as usize)
}

/// The row has no digit but p.
pub fn only(row: &[u64], p: usize) -> bool {
    row.iter().enumerate().all(|(i, &word)| word == if i == p / 64 { 1 << (p % 64) } else { 0 })
}

/// Adds row r to each other row that has position p.
fn sweep<T: Tally>(system: &mut System, r: usize, p: usize, tally: &mut T) {
    let mut from = 0;
    while let Some(j) = system.next(p, from, |j| j != r) {
        system.add_row(r, j);
        tally.addition();
        from = j + 1;
    }
}

/// Gives row r a pivot, the guess if it can be, and takes that position out of every other row.
fn finish_row<T: Tally>(system: &mut System, done: &mut [bool], r: usize, guess: usize, tally: &mut T) {
    if done[r] {
        return;
    }
    let guessed = guess / 64 < system.words && system.has(r, guess);
    let pivot = if guessed { Some(guess) } else { lowest(system.row(r)) };
    match pivot {
        Some(p) => {
            system.set_pivot(r, p as u64 + 1);
            sweep(system, r, p, tally);
        }
        None => system.set_pivot(r, 0),
    }
    done[r] = true;
}

pub fn eliminate<T: Tally>(system: &mut System, m: usize, tally: &mut T) {
    let mut order = [(0, 0); 1024];
    let turns = prepare(system, &mut order, m, tally);
    let order = &order[..turns];
    let mut done = [false; 1024];
    finish_all_alone(system, &mut done, order);
    for &(r, guess) in order.iter().rev() {
        finish_row(system, &mut done, r as usize, guess as usize, tally);
    }
    for r in 0..m {
        finish_row(system, &mut done, r, 0, tally);
    }
}
