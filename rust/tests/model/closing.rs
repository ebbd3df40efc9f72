//! The verdict: how many codewords agree with the heard symbols and are zero at the idle positions, and on which missing symbols they all agree.
use super::answers::{Report, Verdict};
use super::refusals::Record;
use super::solver::Solution;
use super::{generator, solver, Code, Fault};

pub struct Outcome {
    pub report: Report,
    pub symbols: Vec<u8>,
    pub marks: Vec<u8>,
}

/// What close leaves of a block in which these symbols are marked as heard. What is marked at an idle position doesn't count.
pub fn close(record: Record, code: &Code, marked: &[Option<&[u8]>], fault: Fault) -> Outcome {
    let w = record.w;
    let idle: Vec<bool> =
        (0..code.n).map(|i| record.is_idle(code, i, fault) && !(fault == Fault::IdleMarkBelieved && marked[i].is_some())).collect();
    let missing: Vec<usize> = (0..code.n).filter(|&i| !idle[i] && marked[i].is_none()).collect();
    let (verdict, values) = if fault == Fault::GivesUpAboveM && missing.len() > code.m {
        (Verdict::Ambiguous, vec![None; code.n])
    } else {
        agreeing(record, code, &idle, marked, fault)
    };

    let mut symbols = vec![0; code.n * w];
    let mut marks = vec![0; code.n];
    let (mut heard, mut filled, mut left) = (0, 0, 0);
    for position in (0..code.n).filter(|&i| !idle[i]) {
        let (symbol, mark, count) = match (marked[position], &values[position]) {
            (Some(symbol), _) => (symbol, 1, &mut heard),
            (None, Some(value)) => (&value[..], 2, &mut filled),
            (None, None) => (&[][..], 0, &mut left),
        };
        symbols[position * w..][..symbol.len()].copy_from_slice(symbol);
        marks[position] = mark;
        *count += 1;
    }
    if fault == Fault::IdleCountedAsLeft {
        left = code.n - heard - filled;
    }
    Outcome { report: Report { verdict, heard, filled, left }, symbols, marks }
}

/// The verdict, and the values on which all agreeing codewords agree.
fn agreeing(record: Record, code: &Code, idle: &[bool], marked: &[Option<&[u8]>], fault: Fault) -> (Verdict, Vec<Option<Vec<u8>>>) {
    let solution = solution(record, code, idle, marked, fault);
    let none = solution.failed && !(solution.free && fault == Fault::AmbiguousFirst);
    if none {
        (Verdict::Inconsistent, vec![None; code.n])
    } else if !solution.free {
        (Verdict::Whole, solution.values)
    } else if fault == Fault::ZeroSaidWhole {
        (Verdict::Whole, solution.values.into_iter().map(|value| value.or_else(|| Some(vec![0; record.w]))).collect())
    } else {
        (Verdict::Ambiguous, solution.values)
    }
}

/// By the generator; where a fault is about check rows or idle positions, by the check rows with the idle symbols given as zero.
fn solution(record: Record, code: &Code, idle: &[bool], marked: &[Option<&[u8]>], fault: Fault) -> Solution {
    let zero = vec![0; record.w];
    let given = |i: usize| match idle[i] {
        true => (fault != Fault::IdleUnknown).then_some(&zero[..]),
        false => marked[i],
    };
    match fault {
        Fault::Row0JoinedToLast | Fault::IdleUnknown | Fault::IdleMarkBelieved | Fault::PositionKIdle | Fault::LastSentIdle => {
            let known: Vec<Option<&[u8]>> = (0..code.n).map(given).collect();
            solver::solve(&code.check_rows(fault), record.w, &known)
        }
        _ => generator::solve(code, record.fill, record.w, marked),
    }
}
