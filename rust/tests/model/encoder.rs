//! The encoder of 4.2.1, which accumulates.
use super::{Code, Fault};

/// The parity of up to k symbols of w bytes; the others up to k are zero.
pub fn parity(code: &Code, w: usize, information: &[u8], fault: Fault) -> Vec<u8> {
    // Step 1.
    let mut p = vec![0; code.m * w];
    // Steps 2 to 4: the first symbol of each q at the addresses of its row, each next one a further. Zero adds nothing.
    for (group, row) in information.chunks(code.q * w).zip(code.table) {
        let mut addresses = row.to_vec();
        for u in group.chunks_exact(w) {
            for address in &mut addresses {
                add(&mut p[*address * w..][..w], u);
                *address = (*address + code.a) % code.m;
            }
        }
    }
    if fault == Fault::Row0JoinedToLast {
        let last = p[(code.m - 1) * w..].to_vec();
        add(&mut p[..w], &last);
    }
    // Step 5.
    for x in 1..code.m {
        let (before, from) = p.split_at_mut(x * w);
        add(&mut from[..w], &before[(x - 1) * w..]);
    }
    p
}

/// The codeword of up to k symbols of w bytes; the others up to k are zero.
pub fn codeword(code: &Code, w: usize, information: &[u8]) -> Vec<u8> {
    let mut word = information.to_vec();
    word.resize(code.k * w, 0);
    word.extend(parity(code, w, information, Fault::None));
    word
}

/// The positions at which the codeword of these single information symbols, all of one value, isn't zero.
pub fn support(code: &Code, information: &[usize]) -> Vec<usize> {
    let mut u = vec![0; code.k];
    for &x in information {
        u[x] ^= 1;
    }
    let word = codeword(code, 1, &u);
    (0..code.n).filter(|&i| word[i] != 0).collect()
}

/// Byte-wise exclusive or.
pub fn add(sum: &mut [u8], symbol: &[u8]) {
    for (s, b) in sum.iter_mut().zip(symbol) {
        *s ^= b;
    }
}
