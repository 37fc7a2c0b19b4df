//! A fit's setup and its report.

/// The threshold, lambda and round limit of a fit. Any f64 will do for the first two.
#[derive(Clone, Copy, Debug, PartialEq)]
pub struct Setup {
    /// A term is kept while its coefficient's magnitude is at least this.
    pub threshold: f64,
    /// The ridge damping.
    pub lambda: f64,
    /// The most rounds, at most 1,000.
    pub max_iter: usize,
}

/// Why a fit ended. A refused solve names the term at which it refused: a column of theta, also after a refit.
#[derive(Clone, Copy, Debug, PartialEq, Eq, Hash)]
pub enum Stop {
    /// No rows or no columns: zeros.
    NoData,
    /// The first solve was refused, at this term: zeros.
    FirstRefused(usize),
    /// No term was kept: zeros.
    Empty,
    /// A refit was refused, at this term: zeros.
    RefitRefused(usize),
    /// A look, or the last one when the rounds were used up, kept the terms of the last refit.
    Settled,
    /// The rounds were used up, and it has not settled. Only here a coefficient can be NaN.
    OutOfRounds,
}

/// What a fit says beside its coefficients. One whose error is NaN equals none, as a NaN does.
#[derive(Clone, Copy, Debug, PartialEq)]
pub struct Report {
    /// Why it ended.
    pub stop: Stop,
    /// How many refits were tried.
    pub refits: u64,
    /// Bit j is one exactly if term j's final magnitude is at least the threshold.
    pub kept: u64,
    /// The squared error that the kept terms leave: over the rows, the squares of the target less the sum of the kept
    /// terms' products. It is there after every stop. A kept zero times an infinite reading makes it NaN.
    pub error: f64,
}

impl Report {
    /// A report as the library writes it: stop, refits, kept word, refused term, and the error.
    pub(crate) fn from_words([stop, refits, kept, term]: [u64; 4], [error]: [f64; 1]) -> Report {
        let term = term as usize;
        let stop = match stop {
            0 => Stop::NoData,
            1 => Stop::FirstRefused(term),
            2 => Stop::Empty,
            3 => Stop::RefitRefused(term),
            4 => Stop::Settled,
            5 => Stop::OutOfRounds,
            other => unreachable!("the library gives no stop {other}"),
        };
        Report {
            stop,
            refits,
            kept,
            error,
        }
    }
}
