//! Runs the archive and the model side by side.
#![allow(dead_code)]

pub mod all_strings;
pub mod cases;
pub mod closes;
pub mod drafts;
pub mod encode;
pub mod fills;
pub mod lists;
pub mod low_weight;
pub mod ours;
#[path = "../../support/random.rs"]
pub mod random;
pub mod scripts;
pub mod suite;
pub mod tiles;
pub mod unit_forms;
pub mod units;

use crate::model::answers::{Report, Taken, UnitParts, Verdict};
use crate::model::refusals::Record;
use crate::model::Code;
use random::Random;
use std::collections::BTreeMap;
use std::fmt;
use std::ops::AddAssign;

/// Where the archive and the model part.
pub struct Difference(pub String);

/// As plain text, so that it can be read where a test unwraps it.
impl fmt::Debug for Difference {
    fn fmt(&self, f: &mut fmt::Formatter<'_>) -> fmt::Result {
        f.write_str(&self.0)
    }
}

/// A difference unless both are equal.
pub fn same<T: PartialEq + fmt::Debug>(archive: T, model: T, what: impl FnOnce() -> String) -> Result<(), Difference> {
    if archive == model {
        Ok(())
    } else {
        Err(Difference(format!("{}: archive {archive:?}, model {model:?}", what())))
    }
}

/// As `same`, for buffers: only the first place is told.
pub fn same_buffer<T: PartialEq + fmt::Debug>(archive: &[T], model: &[T], what: impl FnOnce() -> String) -> Result<(), Difference> {
    if archive == model {
        return Ok(());
    }
    let place = archive.iter().zip(model).position(|(a, b)| a != b);
    Err(Difference(match place {
        Some(i) => format!("{}, at {i}: archive {:?}, model {:?}", what(), archive[i], model[i]),
        None => format!("{}: archive has {}, model {}", what(), archive.len(), model.len()),
    }))
}

/// A verdict counts every position but the idle ones.
pub fn all_counted(record: Record, answer: Result<Report, u8>, what: impl FnOnce() -> String) -> Result<(), Difference> {
    let Ok(Report { heard, filled, left, .. }) = answer else { return Ok(()) };
    let code = Code::of_number(record.code).expect("of another code there is no verdict");
    same(heard + filled + left, record.fill + code.m, || format!("{}, sum of the counts", what()))
}

/// The largest number of a refusal.
const LARGEST: usize = 20;

/// What was compared.
#[derive(Clone, Debug, Default)]
pub struct Stats {
    pub blocks: usize,
    pub calls: usize,
    pub kept: usize,
    pub repeated: usize,
    /// By number, from 1.
    pub refused: [usize; LARGEST + 1],
    pub whole: usize,
    pub ambiguous: usize,
    pub inconsistent: usize,
    pub packed: usize,
    pub encoded: usize,
    pub units: usize,
    /// Units that read takes, whatever take says.
    pub readable: usize,
    pub shown: usize,
}

impl Stats {
    /// The refusals that came, and how often.
    pub fn refusals(&self) -> BTreeMap<usize, usize> {
        self.refused.into_iter().enumerate().filter(|&(_, times)| times > 0).collect()
    }

    /// For a unit that is only read.
    pub fn count_read(&mut self, answer: Result<UnitParts, u8>) {
        self.units += 1;
        match answer {
            Ok(_) => self.readable += 1,
            Err(number) => self.count_refused(number),
        }
    }

    pub fn count_taken(&mut self, answer: Result<Taken, u8>) {
        match answer {
            Ok(Taken::Kept) => self.kept += 1,
            Ok(Taken::Repeated) => self.repeated += 1,
            Err(number) => self.count_refused(number),
        }
    }

    pub fn count_closed(&mut self, answer: Result<Report, u8>) {
        match answer.map(|report| report.verdict) {
            Ok(Verdict::Whole) => self.whole += 1,
            Ok(Verdict::Ambiguous) => self.ambiguous += 1,
            Ok(Verdict::Inconsistent) => self.inconsistent += 1,
            Err(number) => self.count_refused(number),
        }
    }

    pub fn count_packed(&mut self, answer: Result<(), u8>) {
        match answer {
            Ok(()) => self.packed += 1,
            Err(number) => self.count_refused(number),
        }
    }

    fn count_refused(&mut self, number: u8) {
        self.refused[usize::from(number)] += 1;
    }
}

impl AddAssign for Stats {
    fn add_assign(&mut self, other: Stats) {
        self.blocks += other.blocks;
        self.calls += other.calls;
        self.kept += other.kept;
        self.repeated += other.repeated;
        for (sum, number) in self.refused.iter_mut().zip(other.refused) {
            *sum += number;
        }
        self.whole += other.whole;
        self.ambiguous += other.ambiguous;
        self.inconsistent += other.inconsistent;
        self.packed += other.packed;
        self.encoded += other.encoded;
        self.units += other.units;
        self.readable += other.readable;
        self.shown += other.shown;
    }
}

/// The seed of all random choices: LIPVEZOR_SEED, 1 by default.
pub fn seed() -> u64 {
    number_from("LIPVEZOR_SEED", 1)
}

/// The generator that starts there.
pub fn seeded() -> Random {
    Random::new(seed())
}

/// Seconds for random blocks: LIPVEZOR_SECONDS, 45 by default.
pub fn seconds() -> u64 {
    number_from("LIPVEZOR_SECONDS", 45)
}

fn number_from(variable: &str, default: u64) -> u64 {
    match std::env::var(variable) {
        Ok(text) => text.parse().unwrap_or_else(|_| panic!("{variable} is not a number: {text}")),
        Err(_) => default,
    }
}
