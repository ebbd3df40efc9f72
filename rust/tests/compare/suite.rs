//! The comparisons of blocks and of packed tiles, each from a seed.
use super::random::Random;
use super::scripts::{self, Between};
use super::{cases, closes, lists, tiles, Difference, Stats};
use crate::model::{Code, Fault};
use std::time::Instant;

/// The widths that tests use.
pub const WIDTHS: [usize; 6] = [1, 2, 3, 16, 1023, 1024];

/// All chosen losses of a code. Symbols are wide now and then, of the longer codes seldom.
pub fn chosen_blocks(code: &'static Code, fault: Fault, seed: u64) -> Result<Stats, Difference> {
    let mut random = Random::new(seed);
    let mut stats = Stats::default();
    let between_wide = if code.n < 1000 { 50 } else { 100 };
    for (index, loss) in cases::chosen(code, &mut random).iter().enumerate() {
        let w = match index % between_wide {
            17 => 1023,
            33 => 1024,
            narrow => WIDTHS[narrow % 4],
        };
        let case = loss.sent(code, w, &mut random);
        stats += lists::compare(&scripts::list(&case, Between::Harmless, &mut random), fault)?;
    }
    Ok(stats)
}

/// The chosen losses of blocks of chosen fills, each closed once, with anything at the idle positions.
pub fn short_closes(code: &'static Code, fault: Fault, seed: u64) -> Result<Stats, Difference> {
    let mut random = Random::new(seed);
    let mut stats = Stats::default();
    for fill in cases::chosen_fills(code) {
        for (index, loss) in cases::chosen_short(code, fill, &mut random).iter().enumerate() {
            let w = if index % 40 == 17 { 1024 } else { WIDTHS[index % 4] };
            let case = loss.sent_short(code, w, fill, &mut random);
            stats += closes::compare(&case, fault, &mut random)?;
        }
    }
    Ok(stats)
}

/// One in so many of them as lists of calls.
pub fn short_lists(code: &'static Code, fault: Fault, seed: u64) -> Result<Stats, Difference> {
    let mut random = Random::new(seed);
    let mut stats = Stats::default();
    let step = if code.n < 1000 { 3 } else { 9 };
    for fill in cases::chosen_fills(code) {
        for (index, loss) in cases::chosen_short(code, fill, &mut random).iter().enumerate().skip(fill % step).step_by(step) {
            let w = if index == 0 { 1024 } else { WIDTHS[index % 4] };
            let case = loss.sent_short(code, w, fill, &mut random);
            stats += lists::compare(&scripts::list(&case, Between::Harmless, &mut random), fault)?;
        }
    }
    Ok(stats)
}

/// Random losses until an instant, of full blocks and of short ones.
pub fn random_blocks(code: &'static Code, fault: Fault, seed: u64, until: Instant) -> Result<Stats, Difference> {
    let mut random = Random::new(seed);
    let mut stats = Stats::default();
    while Instant::now() < until {
        let w = if random.chance(0.01) { 1023 + random.below(2) } else { WIDTHS[random.below(4)] };
        let fill = if random.chance(0.4) { code.k } else { cases::any_fill(code, &mut random) };
        let case = cases::any_short(code, fill, &mut random).sent_short(code, w, fill, &mut random);
        stats += closes::compare(&case, fault, &mut random)?;
        let between = if random.chance(0.5) { Between::Harmless } else { Between::Anything };
        stats += lists::compare(&scripts::list(&case, between, &mut random), fault)?;
    }
    Ok(stats)
}

/// All chosen tiles of a code, in blocks of few rows and of many; and numbers that pack refuses.
pub fn chosen_tiles(code: &'static Code, fault: Fault, seed: u64) -> Result<Stats, Difference> {
    let mut random = Random::new(seed);
    let mut stats = tiles::refused_numbers(code, fault, &mut random)?;
    for w in tiles::WIDTHS {
        for fill in [1, 2, code.k / 2, code.k - 1, code.k] {
            stats += tiles::chosen(code, w, fill, fault, &mut random)?;
        }
    }
    Ok(stats)
}

/// Random tiles until an instant.
pub fn random_tiles(code: &'static Code, fault: Fault, seed: u64, until: Instant) -> Result<Stats, Difference> {
    let mut random = Random::new(seed);
    let mut stats = Stats::default();
    while Instant::now() < until {
        stats += tiles::any(code, fault, &mut random)?;
    }
    Ok(stats)
}
