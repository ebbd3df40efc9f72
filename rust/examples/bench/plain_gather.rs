//! Sums of symbols that stand anywhere in a buffer: the steps of `buffers::gather`. Each chunk is summed in an array of its own and written once.

/// What is done with a sum, for the N bytes of a symbol from byte c on. Answers whether to go on.
trait Sum {
    fn chunk<const N: usize>(&mut self, c: usize) -> bool;
}

/// Goes over the bytes of a symbol: 64 at a time, then 16, of which the last reach back; one by one in narrow symbols.
#[inline(always)]
fn over(w: usize, sum: &mut impl Sum) -> bool {
    if w < 16 {
        return (0..w).all(|c| sum.chunk::<1>(c));
    }
    let mut c = 0;
    while w - c >= 64 {
        if !sum.chunk::<64>(c) {
            return false;
        }
        c += 64;
    }
    while w - c > 16 {
        if !sum.chunk::<16>(c) {
            return false;
        }
        c += 16;
    }
    c == w || sum.chunk::<16>(w - 16)
}

/// The N bytes from index `at` on.
#[inline(always)]
fn part<const N: usize>(bytes: &[u8], at: usize) -> [u8; N] {
    bytes[at..at + N].try_into().unwrap()
}

/// `sum` plus the N bytes from byte c on of the symbols xs.
#[inline(always)]
fn gather<const N: usize>(mut sum: [u8; N], w: usize, c: usize, xs: &[u32], from: &[u8]) -> [u8; N] {
    for &x in xs {
        let chunk: [u8; N] = part(from, x as usize * w + c);
        sum = std::array::from_fn(|i| sum[i] ^ chunk[i]);
    }
    sum
}

struct Put<'a> {
    w: usize,
    j: usize,
    carry: bool,
    xs: &'a [u32],
    from: &'a [u8],
    to: &'a mut [u8],
}

impl Sum for Put<'_> {
    #[inline(always)]
    fn chunk<const N: usize>(&mut self, c: usize) -> bool {
        let at = self.j * self.w + c;
        let start = if self.carry { part(self.to, at - self.w) } else { [0; N] };
        let sum: [u8; N] = gather(start, self.w, c, self.xs, self.from);
        self.to[at..at + N].copy_from_slice(&sum);
        true
    }
}

/// Symbol j of `to` becomes the sum of the symbols xs of `from`, and of the symbol before it where that is to be carried on.
#[inline]
pub fn put_sum(w: usize, j: usize, carry: bool, xs: &[u32], from: &[u8], to: &mut [u8]) {
    over(w, &mut Put { w, j, carry, xs, from, to });
}

struct Restore<'a> {
    w: usize,
    p: usize,
    xs: &'a [u32],
    symbols: &'a mut [u8],
}

impl Sum for Restore<'_> {
    #[inline(always)]
    fn chunk<const N: usize>(&mut self, c: usize) -> bool {
        let sum = gather([0; N], self.w, c, self.xs, self.symbols);
        let at = self.p * self.w + c;
        self.symbols[at..at + N].copy_from_slice(&sum);
        true
    }
}

/// Symbol p becomes the sum of the symbols xs, of which it is none.
#[inline]
pub fn restore(w: usize, p: usize, xs: &[u32], symbols: &mut [u8]) {
    over(w, &mut Restore { w, p, xs, symbols });
}

struct Cancels<'a> {
    w: usize,
    xs: &'a [u32],
    symbols: &'a [u8],
}

impl Sum for Cancels<'_> {
    #[inline(always)]
    fn chunk<const N: usize>(&mut self, c: usize) -> bool {
        let sum = gather([0; N], self.w, c, self.xs, self.symbols);
        sum.iter().fold(0, |all, b| all | b) == 0
    }
}

/// The symbols xs add up to zero.
#[inline]
pub fn cancels(w: usize, xs: &[u32], symbols: &[u8]) -> bool {
    over(w, &mut Cancels { w, xs, symbols })
}
