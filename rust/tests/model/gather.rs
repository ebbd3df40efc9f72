//! What the program `gather` prints.
use super::answers::{Taken, Verdict};
use super::blocks::Block;
use super::refusals::Record;
use super::{codes, Fault};
use std::fmt::Write;

const WIDEST: usize = 16;

pub fn output(input: &[u8]) -> String {
    run(input).unwrap_or_else(|| "bad input\n".to_string())
}

fn run(input: &[u8]) -> Option<String> {
    let (header, mut rest) = input.split_first_chunk::<6>()?;
    let [code, w_high, w_low, protocol, lsc_high, lsc_low] = header.map(usize::from);
    let record = Record { code, w: w_high * 256 + w_low, protocol, lsc: lsc_high * 256 + lsc_low, fill: codes::C1.k };
    let mut block = Block::open(record, Fault::None).ok()?;
    if code != codes::C1.number || record.w > WIDEST {
        return None;
    }

    let mut lines = String::new();
    let mut number = 0;
    while let Some((unit, after)) = next_unit(rest) {
        number += 1;
        match block.take(unit) {
            Ok(Taken::Kept) => writeln!(lines, "{number} kept"),
            Ok(Taken::Repeated) => writeln!(lines, "{number} repeated"),
            Err(refusal) => writeln!(lines, "{number} refused {refusal}"),
        }
        .unwrap();
        rest = after;
    }
    let report = block.close(codes::C1.work_words(), codes::C1.m * record.w).unwrap();
    let verdict = match report.verdict {
        Verdict::Whole => "whole",
        Verdict::Ambiguous => "ambiguous",
        Verdict::Inconsistent => "inconsistent",
    };
    writeln!(lines, "{verdict} heard {}", report.heard).unwrap();
    Some(lines)
}

/// The next unit and what follows it, unless it is unfinished.
fn next_unit(rest: &[u8]) -> Option<(&[u8], &[u8])> {
    let (length, rest) = rest.split_first_chunk::<2>()?;
    let length = u16::from_be_bytes(*length).into();
    (length <= rest.len()).then(|| rest.split_at(length))
}
