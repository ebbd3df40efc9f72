//! Which values the missing symbols may have: elimination on a dense matrix of bytes, one byte for a coefficient, column by column.
use super::encoder::add;

pub struct Solution {
    /// Some equation is left without unknowns and fails.
    pub failed: bool,
    /// Some unknown has no pivot.
    pub free: bool,
    /// For each position, its value if it is missing and the equations determine it. Of no meaning where one fails.
    pub values: Vec<Option<Vec<u8>>>,
}

pub struct Equation {
    pub coefficients: Vec<u8>,
    pub right: Vec<u8>,
}

impl Equation {
    pub fn add(&mut self, other: &Equation) {
        add(&mut self.coefficients, &other.coefficients);
        add(&mut self.right, &other.right);
    }

    /// Without unknowns, its right-hand side isn't zero.
    pub fn fails(&self) -> bool {
        self.right.iter().any(|&b| b != 0)
    }

    /// The value of its only unknown, if it has just one.
    pub fn alone(&self) -> Option<Vec<u8>> {
        (self.coefficients.iter().filter(|&&c| c != 0).count() == 1).then(|| self.right.clone())
    }
}

/// Brings equations to reduced form. Answers the pivots' columns, in rising order: the first equations have one each, the others no unknowns.
pub fn eliminate(equations: &mut [Equation], columns: usize) -> Vec<usize> {
    // The equations before `settled` have a pivot each; the others are zero in all columns done so far.
    let mut pivots = Vec::new();
    for column in 0..columns {
        let settled = pivots.len();
        let Some(found) = (settled..equations.len()).find(|&e| equations[e].coefficients[column] != 0) else { continue };
        equations.swap(settled, found);
        let (above, rest) = equations.split_at_mut(settled);
        let (pivot, below) = rest.split_first_mut().unwrap();
        for other in above.iter_mut().chain(below) {
            if other.coefficients[column] != 0 {
                add(&mut other.coefficients[column..], &pivot.coefficients[column..]);
                add(&mut other.right, &pivot.right);
            }
        }
        pivots.push(column);
    }
    pivots
}

/// Each row lists the positions of symbols whose sum is zero; each known symbol has w bytes.
pub fn solve(rows: &[Vec<usize>], w: usize, known: &[Option<&[u8]>]) -> Solution {
    let missing: Vec<usize> = (0..known.len()).filter(|&i| known[i].is_none()).collect();
    let mut equations = equations(rows, w, known, &missing);
    let pivots = eliminate(&mut equations, missing.len());
    let (with_pivot, without) = equations.split_at(pivots.len());
    let mut values = vec![None; known.len()];
    for (equation, &column) in with_pivot.iter().zip(&pivots) {
        values[missing[column]] = equation.alone();
    }
    Solution { failed: without.iter().any(Equation::fails), free: pivots.len() < missing.len(), values }
}

fn equations(rows: &[Vec<usize>], w: usize, known: &[Option<&[u8]>], missing: &[usize]) -> Vec<Equation> {
    let mut column_of = vec![0; known.len()];
    for (column, &position) in missing.iter().enumerate() {
        column_of[position] = column;
    }
    rows.iter()
        .map(|row| {
            let mut equation = Equation { coefficients: vec![0; missing.len()], right: vec![0; w] };
            for &position in row {
                match known[position] {
                    Some(symbol) => add(&mut equation.right, symbol),
                    None => equation.coefficients[column_of[position]] ^= 1,
                }
            }
            equation
        })
        .collect()
}
