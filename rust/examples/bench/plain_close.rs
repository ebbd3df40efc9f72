//! Close in plain Rust: the steps of `decoder` and `block::close`, in their order.
use crate::layers::Found;
use crate::plain_gather::{cancels, put_sum, restore};
use crate::plain_rows::{eliminate, only, System, Tally};
use crate::plain_tables::{by_most, check_block, check_length, Layout, Positions};
use lipvezor::{Record, Refusal, Verdict};

/// What is known of a position.
#[derive(Clone, Copy, PartialEq)]
enum Known {
    Heard,
    Open,
    /// Settled by a step.
    Step(u16),
    /// A pivot, by its number.
    Pivot(u16),
    /// A pivot whose equation stands in a row.
    Solved(u16),
}

/// How many open positions each check row has, and a bit for each that came to have just one.
struct Counts {
    open: [u8; 1024],
    ready: [u64; 16],
}

impl Counts {
    fn new(layout: &Layout, marks: &[u8]) -> Counts {
        let mut counts = Counts { open: [0; 1024], ready: [0; 16] };
        for (x, &mark) in marks.iter().enumerate() {
            if mark != 1 {
                let (js, n) = layout.column(x);
                for &j in &js[..n] {
                    counts.open[j] += 1;
                }
            }
        }
        for (ready, open) in counts.ready.iter_mut().zip(counts.open.chunks_exact(64)) {
            *ready = open.iter().rev().fold(0, |bits, &c| bits << 1 | u64::from(c == 1));
        }
        counts
    }

    /// Position x is no longer open.
    fn close(&mut self, layout: &Layout, x: usize) {
        let (js, n) = layout.column(x);
        for &j in &js[..n] {
            self.open[j] -= 1;
            self.ready[j / 64] |= u64::from(self.open[j] == 1) << (j % 64);
        }
    }

    /// The lowest row that is ready, which then is not any more.
    fn next(&mut self) -> Option<usize> {
        let i = self.ready.iter().position(|&bits| bits != 0)?;
        let j = i * 64 + self.ready[i].trailing_zeros() as usize;
        self.ready[i] &= self.ready[i] - 1;
        Some(j)
    }
}

/// The index of the only open position.
fn single(known: &[Known], xs: &[u32]) -> Option<usize> {
    let (mut at, mut found) = (0, 0);
    for (i, &x) in xs.iter().enumerate() {
        let open = known[x as usize] == Known::Open;
        at = if open { i } else { at };
        found += usize::from(open);
    }
    (found == 1).then_some(at)
}

/// How the missing positions are restored: by steps, and by pivots that are put off. The first `early` steps came before any pivot. There is room for
/// the largest code, as in `decoder`.
struct Plan<const MOST: usize> {
    layout: &'static Layout,
    w: usize,
    positions: Positions<MOST>,
    known: [Known; 3072],
    steps: [(u16, u16); 1024],
    turns: usize,
    early: usize,
    pivots: [u16; 3072],
    put_off: usize,
    used: [bool; 1024],
}

impl<const MOST: usize> Plan<MOST> {
    fn new(layout: &'static Layout, w: usize, fill: usize, marks: &[u8]) -> Plan<MOST> {
        let mut known = [Known::Heard; 3072];
        for (known, &mark) in known.iter_mut().zip(marks) {
            *known = if mark == 1 { Known::Heard } else { Known::Open };
        }
        Plan {
            layout,
            w,
            positions: Positions::lay(layout, fill),
            known,
            steps: [(0, 0); 1024],
            turns: 0,
            early: 0,
            pivots: [0; 3072],
            put_off: 0,
            used: [false; 1024],
        }
    }

    /// Settles every missing position by a check row, or puts it off; a pivot counts as zero.
    fn peel(&mut self, symbols: &mut [u8], marks: &[u8]) {
        if marks.iter().fold(0, |missing, &mark| missing | (mark ^ 1)) == 0 {
            return;
        }
        let w = self.w;
        let mut counts = Counts::new(self.layout, marks);
        self.settle(symbols, &mut counts);
        for x in 0..marks.len() {
            if self.known[x] == Known::Open {
                symbols[x * w..(x + 1) * w].fill(0);
                self.known[x] = Known::Pivot(self.put_off as u16);
                self.pivots[self.put_off] = x as u16;
                self.put_off += 1;
                counts.close(self.layout, x);
                self.settle(symbols, &mut counts);
            }
        }
    }

    /// Steps until no row is ready.
    fn settle(&mut self, symbols: &mut [u8], counts: &mut Counts) {
        while let Some(r) = counts.next() {
            if let Some(p) = self.step(r, symbols) {
                counts.close(self.layout, p);
            }
        }
    }

    /// Restores the only open position of check row r.
    fn step(&mut self, r: usize, symbols: &mut [u8]) -> Option<usize> {
        let mut xs = [0; MOST];
        let n = self.positions.of_row(r, &mut xs);
        let i = single(&self.known, &xs[..n])?;
        let p = xs[i] as usize;
        xs[i] = xs[n - 1];
        restore(self.w, p, &xs[..n - 1], symbols);
        self.known[p] = Known::Step(self.turns as u16);
        self.steps[self.turns] = (r as u16, p as u16);
        self.turns += 1;
        self.used[r] = true;
        if self.put_off == 0 {
            self.early = self.turns;
        }
        Some(p)
    }

    /// The check rows that no step used.
    fn remaining(&self) -> impl Iterator<Item = usize> + '_ {
        (0..self.layout.m).filter(|&j| !self.used[j])
    }

    /// Each of them adds up to zero.
    fn hold(&self, symbols: &[u8]) -> bool {
        let mut xs = [0; MOST];
        self.remaining().all(|j| {
            let n = self.positions.of_row(j, &mut xs);
            cancels(self.w, &xs[..n], symbols)
        })
    }

    /// Their sums, one after the other.
    fn sums(&self, symbols: &[u8], bytes: &mut [u8]) {
        let mut xs = [0; MOST];
        for (i, j) in self.remaining().enumerate() {
            let n = self.positions.of_row(j, &mut xs);
            put_sum(self.w, i, false, &xs[..n], symbols, bytes);
        }
    }

    /// Row t becomes what the positions of check row j other than p are in terms of the pivots.
    fn express(&self, t: usize, j: usize, p: Option<usize>, packed: usize, words: &mut [u64]) {
        let stride = packed + 1;
        let mut xs = [0; MOST];
        let n = self.positions.of_row(j, &mut xs);
        let (before, on) = words.split_at_mut(t * stride);
        let (row, after) = on.split_at_mut(stride);
        row.fill(0);
        for &x in &xs[..n] {
            if Some(x as usize) == p {
                continue;
            }
            match self.known[x as usize] {
                Known::Step(s) if s as usize >= self.early => add_words(&mut row[..packed], &before[s as usize * stride..]),
                Known::Pivot(u) => row[u as usize / 64] ^= 1 << (u % 64),
                Known::Solved(h) => {
                    let equation = &after[(h as usize - t - 1) * stride..][..stride];
                    let u = equation[packed] - 1;
                    add_words(&mut row[..packed], equation);
                    row[u as usize / 64] ^= 1 << (u % 64);
                }
                _ => {}
            }
        }
    }

    fn express_steps(&self, packed: usize, words: &mut [u64]) {
        for t in self.early..self.turns {
            let (j, p) = self.steps[t];
            self.express(t, j as usize, Some(p as usize), packed, words);
        }
    }

    /// Each pivot that a row has gets the row's right-hand side.
    fn put_pivots(&mut self, system: &System, symbols: &mut [u8]) {
        let w = self.w;
        for (i, (row, rhs)) in system.rows.chunks_exact(system.stride()).zip(system.rhs.chunks_exact(w)).enumerate() {
            if row[system.words] != 0 {
                let p = self.pivots[row[system.words] as usize - 1] as usize;
                symbols[p * w..(p + 1) * w].copy_from_slice(rhs);
                self.known[p] = Known::Solved((self.turns + i) as u16);
            }
        }
    }

    /// Restores once more what hangs on pivots.
    fn again(&self, symbols: &mut [u8]) {
        let mut xs = [0; MOST];
        for &(r, p) in &self.steps[self.early..self.turns] {
            let n = self.positions.of_row(r as usize, &mut xs);
            let (p, last) = (p as u32, xs[n - 1]);
            for x in &mut xs[..n] {
                *x = if *x == p { last } else { *x };
            }
            restore(self.w, p as usize, &xs[..n - 1], symbols);
        }
    }

    fn all_solved(&self) -> bool {
        self.pivots[..self.put_off].iter().all(|&p| matches!(self.known[p as usize], Known::Solved(_)))
    }

    /// Position p hangs on no free pivot.
    fn determined(&self, p: usize, packed: usize, words: &[u64]) -> bool {
        let row = |t: u16| &words[t as usize * (packed + 1)..][..packed + 1];
        match self.known[p] {
            Known::Step(t) if t as usize >= self.early => row(t)[..packed].iter().fold(0, |all, word| all | word) == 0,
            Known::Solved(h) => only(&row(h)[..packed], row(h)[packed] as usize - 1),
            Known::Pivot(_) => false,
            _ => true,
        }
    }

    /// What follows where pivots were put off. Answers whether there is a solution.
    fn by_pivots<T: Tally>(&mut self, symbols: &mut [u8], marks: &mut [u8], words: &mut [u64], bytes: &mut [u8], tally: &mut T) -> bool {
        let packed = self.put_off.div_ceil(64);
        let rest = self.layout.m - self.turns;
        self.sums(symbols, bytes);
        self.express_steps(packed, words);
        for (t, j) in (self.turns..).zip(self.remaining()) {
            self.express(t, j, None, packed, words);
        }
        let rows = &mut words[self.turns * (packed + 1)..][..rest * (packed + 1)];
        let mut system = System { rows, rhs: bytes, words: packed, w: self.w };
        eliminate(&mut system, rest, tally);
        if !system.consistent() {
            return finish(false, self.w, symbols, marks);
        }
        self.put_pivots(&system, symbols);
        self.again(symbols);
        if self.all_solved() {
            return finish(true, self.w, symbols, marks);
        }
        self.express_steps(packed, words);
        mark(self.w, symbols, marks, |p| self.determined(p, packed, words));
        true
    }
}

fn add_words(to: &mut [u64], from: &[u64]) {
    for (d, s) in to.iter_mut().zip(from) {
        *d ^= *s;
    }
}

/// Zero bytes and mark 0 wherever a missing position is left open; mark 2 elsewhere.
fn mark(w: usize, symbols: &mut [u8], marks: &mut [u8], filled: impl Fn(usize) -> bool) {
    for (i, mark) in marks.iter_mut().enumerate() {
        if *mark == 1 {
            continue;
        }
        if filled(i) {
            *mark = 2;
        } else {
            *mark = 0;
            symbols[i * w..(i + 1) * w].fill(0);
        }
    }
}

/// The same where all are filled or none is. Answers which.
fn finish(ok: bool, w: usize, symbols: &mut [u8], marks: &mut [u8]) -> bool {
    if ok {
        for mark in marks {
            *mark = if *mark == 1 { 1 } else { 2 };
        }
    } else {
        mark(w, symbols, marks, |_| false);
    }
    ok
}

/// Close's refusals.
pub fn check_close(record: Record, symbols: &[u8], marks: &[u8], words: &[u64], bytes: &[u8]) -> Result<&'static Layout, Refusal> {
    let layout = check_block(record, symbols, marks)?;
    check_length(words.len(), layout.m * (layout.n() / 64 + 1))?;
    check_length(bytes.len(), layout.m * record.w())?;
    if marks.iter().any(|&mark| mark > 2) {
        return Err(Refusal::Mark);
    }
    Ok(layout)
}

/// Sets symbols and marks of the idle positions: zero, and known for what follows.
pub fn know_idle(record: Record, layout: &Layout, symbols: &mut [u8], marks: &mut [u8]) {
    symbols[record.fill() * record.w()..layout.k * record.w()].fill(0);
    marks[record.fill()..layout.k].fill(1);
}

/// The verdict, from the marks afterwards. Idle positions have mark 0 then, and don't count.
pub fn tell(record: Record, layout: &Layout, ok: bool, marks: &mut [u8]) -> Found {
    marks[record.fill()..layout.k].fill(0);
    let counts = |marks: &[u8], v| marks.iter().filter(|&&mark| mark == v).count();
    let count = |v| counts(&marks[..record.fill()], v) + counts(&marks[layout.k..], v);
    let (heard, filled, left) = (count(1), count(2), count(0));
    let verdict = match (ok, left) {
        (false, _) => Verdict::Inconsistent,
        (true, 0) => Verdict::Whole,
        (true, _) => Verdict::Ambiguous,
    };
    (verdict, [heard, filled, left])
}

/// Answers whether there is a solution.
fn solve<const MOST: usize>(
    layout: &'static Layout,
    record: Record,
    symbols: &mut [u8],
    marks: &mut [u8],
    words: &mut [u64],
    bytes: &mut [u8],
    tally: &mut impl Tally,
) -> bool {
    let w = record.w();
    let mut plan = Plan::<MOST>::new(layout, w, record.fill(), marks);
    plan.peel(symbols, marks);
    if plan.put_off == 0 {
        finish(plan.hold(symbols), w, symbols, marks)
    } else {
        plan.by_pivots(symbols, marks, words, bytes, tally)
    }
}

#[inline(never)]
pub fn close<T: Tally>(
    record: Record,
    symbols: &mut [u8],
    marks: &mut [u8],
    words: &mut [u64],
    bytes: &mut [u8],
    tally: &mut T,
) -> Result<Found, Refusal> {
    let layout = check_close(record, symbols, marks, words, bytes)?;
    know_idle(record, layout, symbols, marks);
    let ok = by_most!(layout, solve(layout, record, symbols, marks, words, bytes, tally));
    words.fill(0);
    bytes.fill(0);
    Ok(tell(record, layout, ok, marks))
}
