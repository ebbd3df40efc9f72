//! The codes as plain Rust has them, and the checks that several calls share.
use crate::tables;
use lipvezor::{Code, Record, Refusal};

/// A code's numbers, and its table: the addresses of each table row.
pub struct Layout {
    pub k: usize,
    pub m: usize,
    pub q: usize,
    pub a: usize,
    /// At least as many positions as a check row has: 16, 24 or 56.
    pub most: usize,
    pub table: &'static [&'static [usize]],
}

/// By number.
static LAYOUTS: [Option<Layout>; 9] = [
    None,
    Some(Layout { k: 512, m: 256, q: 32, a: 8, most: 16, table: &tables::C1 }),
    Some(Layout { k: 2048, m: 1024, q: 128, a: 8, most: 16, table: &tables::C2 }),
    None,
    Some(Layout { k: 512, m: 128, q: 16, a: 8, most: 24, table: &tables::C4 }),
    Some(Layout { k: 2048, m: 512, q: 64, a: 8, most: 24, table: &tables::C5 }),
    None,
    Some(Layout { k: 512, m: 64, q: 8, a: 8, most: 56, table: &tables::C7 }),
    Some(Layout { k: 2048, m: 256, q: 32, a: 8, most: 56, table: &tables::C8 }),
];

/// A call of a function that is compiled for each `most`, its parameter, so that no code pays for the longer check rows of another.
macro_rules! by_most {
    ($layout:expr, $function:ident($($argument:expr),*)) => {
        match $layout.most {
            16 => $function::<16>($($argument),*),
            24 => $function::<24>($($argument),*),
            _ => $function::<56>($($argument),*),
        }
    };
}
pub(crate) use by_most;

impl Layout {
    pub fn of(code: Code) -> Option<&'static Layout> {
        LAYOUTS.get(code.number())?.as_ref()
    }

    pub fn n(&self) -> usize {
        self.k + self.m
    }

    /// The check row that the symbol `step` of a table row touches by one of the row's addresses.
    pub fn check_row(&self, address: usize, step: usize) -> usize {
        let j = address + step * self.a;
        if j < self.m {
            j
        } else {
            j - self.m
        }
    }

    /// The same for all addresses of a table row.
    pub fn check_rows(&self, addresses: &[usize], step: usize) -> [usize; 8] {
        let mut js = [0; 8];
        for (j, &address) in js.iter_mut().zip(addresses) {
            *j = self.check_row(address, step);
        }
        js
    }

    /// The check rows of position x, at the front, and how many.
    #[inline]
    pub fn column(&self, x: usize) -> ([usize; 8], usize) {
        if x < self.k {
            let addresses = self.table[x / self.q];
            return (self.check_rows(addresses, x % self.q), addresses.len());
        }
        let t = x - self.k;
        ([t, t + 1, 0, 0, 0, 0, 0, 0], if t + 1 == self.m { 1 } else { 2 })
    }
}

/// The positions of the check rows that are sent: the steps of `encoder::positions`. An address belongs to the check rows of one remainder modulo a,
/// its class; the table is laid out by class once, and then each position of a check row follows by one addition. Table rows that are idle as a
/// whole are not laid out.
pub struct Positions<const MOST: usize> {
    layout: &'static Layout,
    fill: u32,
    /// No table row is idle in part.
    whole: bool,
    firsts: [[u32; MOST]; 8],
    ends: [[u32; MOST]; 8],
    counts: [usize; 8],
}

impl<const MOST: usize> Positions<MOST> {
    pub fn lay(layout: &'static Layout, fill: usize) -> Positions<MOST> {
        // entries beyond a class's count stay in range too
        let (firsts, ends) = ([[0; MOST]; 8], [[u32::MAX; MOST]; 8]);
        let rows = fill.div_ceil(layout.q);
        let mut all = Positions { layout, fill: fill as u32, whole: rows * layout.q == fill, firsts, ends, counts: [0; 8] };
        for (addresses, end) in layout.table[..rows].iter().zip((layout.q..).step_by(layout.q)) {
            for &address in *addresses {
                let r = address % layout.a;
                let i = all.counts[r];
                all.firsts[r][i] = (end - address / layout.a) as u32;
                all.ends[r][i] = end as u32;
                all.counts[r] += 1;
            }
        }
        all
    }

    /// The information positions of check row s * a + r that are sent, at the front of xs. Answers how many.
    #[inline]
    pub fn information(&self, s: usize, r: usize, xs: &mut [u32; MOST]) -> usize {
        let q = self.layout.q as u32;
        for ((x, &first), &end) in xs.iter_mut().zip(&self.firsts[r]).zip(&self.ends[r]) {
            let further = first + s as u32;
            *x = if further < end { further } else { further - q };
        }
        let n = self.counts[r];
        if self.whole {
            return n;
        }
        // of the last table row some are idle, and its entries, 8 at most, are the last of a class
        let first = n.saturating_sub(8);
        let mut kept = first;
        for e in first..n {
            let x = xs[e];
            xs[kept] = x;
            kept += usize::from(x < self.fill);
        }
        kept
    }

    /// All positions of check row j that are sent, at the front of xs. Answers how many.
    #[inline]
    pub fn of_row(&self, j: usize, xs: &mut [u32; MOST]) -> usize {
        let n = self.information(j / self.layout.a, j % self.layout.a, xs);
        let parity = (self.layout.k + j) as u32;
        xs[n] = parity;
        if j == 0 {
            return n + 1;
        }
        xs[n + 1] = parity - 1;
        n + 2
    }
}

/// Refusals 1 and 2.
pub fn check_code(record: Record) -> Result<&'static Layout, Refusal> {
    let layout = Layout::of(record.code()).ok_or(Refusal::Code)?;
    if record.w() == 0 || record.w() > 1024 {
        return Err(Refusal::Width);
    }
    Ok(layout)
}

/// Refusal 3.
pub fn check_label(record: Record) -> Result<(), Refusal> {
    if record.lsc() == 0 || record.lsc() > 65534 || record.protocol() > 7 {
        return Err(Refusal::Label);
    }
    Ok(())
}

/// Refusal 13.
pub fn check_fill(record: Record, layout: &Layout) -> Result<(), Refusal> {
    if record.fill() == 0 || record.fill() > layout.k {
        return Err(Refusal::Fill);
    }
    Ok(())
}

/// Refusals 9 and 14.
pub fn check_lwc(record: Record, layout: &Layout, lwc: usize) -> Result<(), Refusal> {
    if lwc == 0 || lwc > layout.n() {
        return Err(Refusal::Position);
    }
    if lwc > record.fill() && lwc <= layout.k {
        return Err(Refusal::Idle);
    }
    Ok(())
}

/// Refusal 4.
pub fn check_length(is: usize, asked: usize) -> Result<(), Refusal> {
    if is != asked {
        return Err(Refusal::Length);
    }
    Ok(())
}

/// Refusals 1 to 3, 13 and 4, of a block.
pub fn check_block(record: Record, symbols: &[u8], marks: &[u8]) -> Result<&'static Layout, Refusal> {
    let layout = check_code(record)?;
    check_label(record)?;
    check_fill(record, layout)?;
    check_length(symbols.len(), layout.n() * record.w())?;
    check_length(marks.len(), layout.n())?;
    Ok(layout)
}
