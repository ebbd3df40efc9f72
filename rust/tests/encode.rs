//! Encode against the model and the sample blocks.
mod compare;
mod model;

use compare::{ours, suite, Stats};
use model::refusals::Record;
use model::{codes, Code, Fault};
use std::ops::RangeInclusive;

#[test]
fn encode_agrees_with_the_model() {
    let mut random = compare::seeded();
    let mut stats = Stats::default();
    for code in codes::ALL {
        for w in suite::WIDTHS {
            let rounds = 6400 / (w + 15);
            stats += compare::encode::compare(code, w, rounds, Fault::None, &mut random).unwrap();
        }
    }
    println!("compared {} encoded blocks", stats.encoded);
}

/// Few of the widest symbols.
#[test]
fn encode_of_short_blocks() {
    let mut random = compare::seeded();
    let mut stats = Stats::default();
    for code in codes::ALL {
        for (w, rounds) in [(1, 60), (5, 30), (16, 30), (17, 20), (64, 10), (100, 10), (1024, 2)] {
            stats += compare::encode::compare_short(code, w, rounds, Fault::None, &mut random).unwrap();
        }
    }
    println!("compared {} encoded blocks", stats.encoded);
}

/// Every fill of every code, with symbols of one byte: each information symbol more adds its own parity.
#[test]
fn every_fill() {
    for code in codes::ALL {
        let mut information = vec![0; code.k];
        compare::seeded().fill(&mut information);
        let mut expected = vec![0; code.m];
        for fill in 1..=code.k {
            let u = information[fill - 1];
            for position in &model::encoder::support(code, &[fill - 1])[1..] {
                expected[position - code.k] ^= u;
            }
            let mut parity = vec![0xEE; code.m];
            ours::encode(Record { fill, ..record(code, 1) }, &information[..fill], &mut parity).unwrap();
            assert!(parity == expected, "C{}, fill {fill}", code.number);
        }
    }
}

fn record(code: &Code, w: usize) -> Record {
    Record { code: code.number, w, protocol: 0, lsc: 1, fill: code.k }
}

/// The parity of a block in which only u_x isn't zero.
fn only(code: &Code, x: usize, symbol: [u8; 3]) -> Vec<[u8; 3]> {
    let mut information = vec![0; code.k * 3];
    information[x * 3..][..3].copy_from_slice(&symbol);
    let mut parity = vec![0xEE; code.m * 3];
    ours::encode(record(code, 3), &information, &mut parity).unwrap();
    parity.chunks_exact(3).map(|p| p.try_into().unwrap()).collect()
}

fn check_only(code: &Code, x: usize, ranges: &[RangeInclusive<usize>]) {
    let v = [0x01, 0x80, 0xC7];
    for (j, p) in only(code, x, v).into_iter().enumerate() {
        let expected = if ranges.iter().any(|range| range.contains(&j)) { v } else { [0; 3] };
        assert_eq!(p, expected, "p_{j} of C{} with u_{x} alone", code.number);
    }
}

/// The samples of the requirements, and more that the encoder of `tests/vectors/encode.py` gives.
#[test]
fn single_information_symbols() {
    check_only(&codes::C1, 0, &[41..=59, 72..=97, 222..=255]);
    check_only(&codes::C1, 511, &[7..=18, 33..=60, 142..=255]);
    check_only(&codes::C2, 0, &[33..=203, 222..=644, 730..=759]);
    check_only(&codes::C2, 2047, &[121..=330, 439..=604]);
    check_only(&codes::C4, 0, &[54..=64, 72..=115, 122..=127]);
    check_only(&codes::C4, 511, &[9..=30, 75..=101, 125..=127]);
    check_only(&codes::C5, 0, &[10..=48, 116..=167, 494..=511]);
    check_only(&codes::C5, 2047, &[165..=274, 449..=462]);
    check_only(&codes::C7, 0, &[2..=5, 9..=18, 45..=47, 60..=63]);
    check_only(&codes::C7, 511, &[15..=20, 25..=39, 51..=57]);
    check_only(&codes::C8, 0, &[31..=79, 100..=137, 161..=197, 213..=255]);
    check_only(&codes::C8, 2047, &[55..=57, 65..=84, 147..=159]);
}

/// Every information symbol alone at once: u_x has bit x set and no other, so p_j has the bits of the symbols that it sums.
#[test]
fn every_information_symbol() {
    for code in codes::ALL {
        let w = code.k / 8;
        let mut information = vec![0; code.k * w];
        for x in 0..code.k {
            information[x * w + x / 8] = 1 << (x % 8);
        }
        let mut parity = vec![0xEE; code.m * w];
        ours::encode(record(code, w), &information, &mut parity).unwrap();
        for x in 0..code.k {
            let support = model::encoder::support(code, &[x]);
            let sums = (0..code.m).filter(|j| parity[j * w + x / 8] >> (x % 8) & 1 == 1).map(|j| code.k + j);
            assert!(sums.eq(support[1..].iter().copied()), "u_{x} of C{}", code.number);
        }
    }
}

/// The last parity symbol is the sum of the first so many information symbols: those of table rows with an odd number of addresses.
#[test]
fn last_parity_symbols() {
    let mut random = compare::seeded();
    let w = 5;
    for _ in 0..100 {
        for (code, summed) in
            [(&codes::C1, 512), (&codes::C2, 0), (&codes::C4, 512), (&codes::C5, 1024), (&codes::C7, 384), (&codes::C8, 128)]
        {
            let mut information = vec![0; code.k * w];
            random.fill(&mut information);
            let mut parity = vec![0; code.m * w];
            ours::encode(record(code, w), &information, &mut parity).unwrap();
            let mut expected = vec![0; w];
            information.chunks_exact(w).take(summed).for_each(|u| model::encoder::add(&mut expected, u));
            assert_eq!(parity[parity.len() - w..], expected, "C{}", code.number);
        }
    }
}
