//! Which information symbols give the heard symbols: each parity symbol is a sum of information symbols, so these alone are unknown, and only those
//! that are sent and weren't heard.
use super::encoder::{self, add};
use super::solver::{eliminate, Equation, Solution};
use super::{Code, Fault};
use std::borrow::Cow;
use std::sync::OnceLock;

/// For each parity symbol p_j, which information symbols it sums: u_x as often as x touches check rows up to j.
fn sums(code: &Code) -> Vec<Vec<u8>> {
    let mut rows = vec![vec![0; code.k]; code.m];
    for x in 0..code.k {
        for touched in code.touched(x) {
            rows[touched..].iter_mut().for_each(|row| row[x] ^= 1);
        }
    }
    rows
}

/// The same; for the six codes it is made once.
pub fn rows(code: &Code) -> Cow<'static, [Vec<u8>]> {
    static ROWS: [OnceLock<Vec<Vec<u8>>>; 9] = [const { OnceLock::new() }; 9];
    match Code::of_number(code.number) {
        Some(code) => Cow::Borrowed(ROWS[code.number].get_or_init(|| sums(code))),
        None => Cow::Owned(sums(code)),
    }
}

/// For a block of so many information symbols of w bytes; positions from fill to k - 1 are not looked at.
pub fn solve(code: &Code, fill: usize, w: usize, heard: &[Option<&[u8]>]) -> Solution {
    let rows = rows(code);
    let unknown: Vec<usize> = (0..fill).filter(|&x| heard[x].is_none()).collect();
    // What the heard information gives to each parity symbol.
    let mut known = vec![0; fill * w];
    for (x, symbol) in heard[..fill].iter().enumerate() {
        if let Some(symbol) = symbol {
            known[x * w..][..w].copy_from_slice(symbol);
        }
    }
    let given = encoder::parity(code, w, &known, Fault::None);
    let sum = |j: usize| Equation { coefficients: unknown.iter().map(|&x| rows[j][x]).collect(), right: given[j * w..][..w].to_vec() };

    let mut equations = Vec::new();
    for j in 0..code.m {
        if let Some(symbol) = heard[code.k + j] {
            let mut equation = sum(j);
            add(&mut equation.right, symbol);
            equations.push(equation);
        }
    }
    let pivots = eliminate(&mut equations, unknown.len());
    let (with_pivot, without) = equations.split_at(pivots.len());

    let mut values = vec![None; code.n];
    for (equation, &column) in with_pivot.iter().zip(&pivots) {
        values[unknown[column]] = equation.alone();
    }
    // A missing parity symbol is determined if the unknowns that it sums are a sum of equations.
    for j in (0..code.m).filter(|j| heard[code.k + j].is_none()) {
        let mut rest = sum(j);
        for (equation, &column) in with_pivot.iter().zip(&pivots) {
            if rest.coefficients[column] != 0 {
                rest.add(equation);
            }
        }
        values[code.k + j] = rest.coefficients.iter().all(|&c| c == 0).then_some(rest.right);
    }
    Solution { failed: without.iter().any(Equation::fails), free: pivots.len() < unknown.len(), values }
}
