//! What the calls answer.

/// A unit that take does not refuse.
#[derive(Clone, Copy, Debug, PartialEq, Eq)]
pub enum Taken {
    Kept,
    Repeated,
}

/// How many codewords agree with the heard symbols.
#[derive(Clone, Copy, Debug, PartialEq, Eq)]
pub enum Verdict {
    /// One.
    Whole,
    /// Two or more.
    Ambiguous,
    /// None.
    Inconsistent,
}

/// A close that is not refused.
#[derive(Clone, Copy, Debug, PartialEq, Eq)]
pub struct Report {
    pub verdict: Verdict,
    pub heard: usize,
    pub filled: usize,
    pub left: usize,
}

/// A unit's extension of type 1.
#[derive(Clone, Copy, Debug, PartialEq, Eq)]
pub struct Parameters {
    pub w: usize,
    pub k: usize,
    pub n: usize,
    pub seed: usize,
}

/// What a unit says by itself.
#[derive(Clone, Copy, Debug, PartialEq, Eq)]
pub struct UnitParts {
    pub protocol: usize,
    pub count: usize,
    pub lwc: usize,
    pub lsc: usize,
    /// Where the symbol starts; it reaches to the unit's end.
    pub symbol: usize,
    pub coding: Option<Parameters>,
}
