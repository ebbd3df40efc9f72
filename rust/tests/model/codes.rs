//! The codes, their check rows, and the place of an LWC.
use super::{tables, Fault};

/// A row of table 4-1 with its table of accumulator indices.
pub struct Code {
    pub number: usize,
    pub n: usize,
    pub k: usize,
    pub m: usize,
    pub q: usize,
    pub a: usize,
    pub table: &'static [&'static [usize]],
}

pub static C1: Code = Code { number: 1, n: 768, k: 512, m: 256, q: 32, a: 8, table: &tables::C1 };
pub static C2: Code = Code { number: 2, n: 3072, k: 2048, m: 1024, q: 128, a: 8, table: &tables::C2 };
pub static C4: Code = Code { number: 4, n: 640, k: 512, m: 128, q: 16, a: 8, table: &tables::C4 };
pub static C5: Code = Code { number: 5, n: 2560, k: 2048, m: 512, q: 64, a: 8, table: &tables::C5 };
pub static C7: Code = Code { number: 7, n: 576, k: 512, m: 64, q: 8, a: 8, table: &tables::C7 };
pub static C8: Code = Code { number: 8, n: 2304, k: 2048, m: 256, q: 32, a: 8, table: &tables::C8 };
pub static ALL: [&Code; 6] = [&C1, &C2, &C4, &C5, &C7, &C8];

impl Code {
    pub fn of_number(number: usize) -> Option<&'static Code> {
        ALL.into_iter().find(|code| code.number == number)
    }

    /// The check rows that u_x touches.
    pub fn touched(&self, x: usize) -> impl Iterator<Item = usize> + '_ {
        self.table[x / self.q].iter().map(move |y| (y + (x % self.q) * self.a) % self.m)
    }

    /// The positions in each check row.
    pub fn check_rows(&self, fault: Fault) -> Vec<Vec<usize>> {
        let mut rows = vec![Vec::new(); self.m];
        for x in 0..self.k {
            for j in self.touched(x) {
                rows[j].push(x);
            }
        }
        for (j, row) in rows.iter_mut().enumerate() {
            row.push(self.k + j);
            if j > 0 {
                row.push(self.k + j - 1);
            } else if fault == Fault::Row0JoinedToLast {
                row.push(self.k + self.m - 1);
            }
        }
        rows
    }

    /// The position of an LWC, if it has one.
    pub fn position(&self, lwc: usize, fault: Fault) -> Option<usize> {
        let position = if fault == Fault::LwcKAsParity && lwc >= self.k { lwc } else { lwc.checked_sub(1)? };
        (position < self.n).then_some(position)
    }

    /// 64-bit words of close's first work buffer.
    pub fn work_words(&self) -> usize {
        self.m * (self.n / 64 + 1)
    }
}
