//! The three fits restated over one loop, so that stop, refits, kept word, refused term, error and each term's cause
//! can be told.
//!
//! The published functions give the coefficients only. `fit` runs them too and stops the program if a single
//! bit differs, so a report stands only beside coefficients that are the published ones. The third fit is not
//! published: what runs in its place is the text of `strlsq` with `jtj_marquardt` for `jtj` (build.rs).

use crate::bits::first_difference;
use crate::cause::{Cause, Watch};
use crate::columns;
use crate::leftover::squared_error;
use crate::linalg;
use crate::problem::{Problem, Setup, Solver};
use crate::symreg::{strlsq, strlsq_marquardt};

/// Why a fit ended, in code order.
#[derive(Clone, Copy, Debug, PartialEq, Eq)]
#[repr(u8)]
pub enum Stop {
    NoData = 0,
    FirstRefused = 1,
    Empty = 2,
    RefitRefused = 3,
    Settled = 4,
    OutOfRounds = 5,
}

impl Stop {
    pub const ALL: [Stop; 6] = [
        Stop::NoData,
        Stop::FirstRefused,
        Stop::Empty,
        Stop::RefitRefused,
        Stop::Settled,
        Stop::OutOfRounds,
    ];

    pub fn code(self) -> u64 {
        self as u64
    }
}

#[derive(Clone, Copy, Debug)]
pub struct Report {
    pub stop: Stop,
    pub refits: u64,
    pub kept: u64,
    /// The term at which a solve refused, or NO_TERM.
    pub term: u64,
    /// What the kept terms leave of the target, squared.
    pub error: f64,
}

/// Where no solve refused.
pub const NO_TERM: u64 = 0xff;

#[derive(Clone, Debug)]
pub struct Fit {
    pub report: Report,
    pub coeffs: Vec<f64>,
    /// Why each term was kept or not; it is told for a threshold above zero only.
    pub causes: Vec<Cause>,
}

/// The fit of a problem with exact lengths and at most 64 columns, held against the published function.
pub fn fit(p: &Problem) -> Fit {
    let fit = restated(p);
    let expected = published(p);
    if let Some(j) = first_difference(&fit.coeffs, &expected) {
        panic!(
            "the restated fit differs from the published one at term {j}: {:?} for {:?} in {p:?}",
            fit.coeffs.get(j),
            expected.get(j)
        );
    }
    fit
}

/// The signature of the published builders of damped pair sums.
pub type PairSums = fn(&[f64], usize, usize, f64) -> Vec<f64>;

/// The signature of the published fits.
pub type Published = fn(&[f64], usize, usize, &[f64], f64, f64, usize) -> Vec<f64>;

/// The coefficients by the published function that solves as the problem asks.
pub fn published(p: &Problem) -> Vec<f64> {
    fitted_by(
        p,
        match p.solver {
            Solver::Normal => strlsq::strlsq,
            Solver::Qr => strlsq::strlsq_qr,
            Solver::Marquardt => strlsq_marquardt::strlsq,
        },
    )
}

/// The coefficients by a function of that signature.
pub fn fitted_by(p: &Problem, fit: Published) -> Vec<f64> {
    let Setup {
        threshold,
        lambda,
        max_iter,
    } = p.setup;
    fit(
        &p.theta, p.rows, p.cols, &p.target, threshold, lambda, max_iter,
    )
}

/// The fit by the rule.
fn restated(p: &Problem) -> Fit {
    let mut watch = Watch::new(p.cols);
    let Ran {
        stop,
        refits,
        term,
        mut coeffs,
    } = rounds(p, &mut watch);
    let causes = watch.causes(stop, refits, &coeffs, p.setup.threshold);
    for c in &mut coeffs {
        if c.abs() < p.setup.threshold {
            *c = 0.0;
        }
    }
    let kept = support_of(&coeffs, p.setup.threshold);
    let error = squared_error(p, kept, &coeffs);
    Fit {
        report: Report {
            stop,
            refits,
            kept,
            term,
            error,
        },
        coeffs,
        causes,
    }
}

/// What the first solve and the rounds came to: the coefficients are those before the last pass.
struct Ran {
    stop: Stop,
    refits: u64,
    term: u64,
    coeffs: Vec<f64>,
}

fn rounds(p: &Problem, watch: &mut Watch) -> Ran {
    let ran = |stop, refits, term, coeffs| Ran {
        stop,
        refits,
        term,
        coeffs,
    };
    let zeros = vec![0.0; p.cols];
    if p.rows == 0 || p.cols == 0 {
        return ran(Stop::NoData, 0, NO_TERM, zeros);
    }
    let all: Vec<usize> = (0..p.cols).collect();
    let mut coeffs = match solve(p, &all) {
        Ok(coeffs) => coeffs,
        Err(term) => return ran(Stop::FirstRefused, 0, term as u64, zeros),
    };
    let mut last_refitted = 0;
    let mut refits = 0;
    for _ in 0..p.setup.max_iter {
        let support = support_of(&coeffs, p.setup.threshold);
        watch.look(refits + 1, support, &coeffs);
        if support == 0 {
            return ran(Stop::Empty, refits, NO_TERM, zeros);
        }
        if support == last_refitted {
            return ran(Stop::Settled, refits, NO_TERM, coeffs);
        }
        last_refitted = support;
        refits += 1;
        let terms = terms_of(support);
        let values = match solve(p, &terms) {
            Ok(values) => values,
            Err(col) => return ran(Stop::RefitRefused, refits, terms[col] as u64, zeros),
        };
        coeffs.fill(0.0);
        for (col, &term_idx) in terms.iter().enumerate() {
            coeffs[term_idx] = values[col];
        }
    }
    let stop = last_look(p, refits, last_refitted, &coeffs);
    ran(stop, refits, NO_TERM, coeffs)
}

/// The rounds are used up: after at least one refit one more look, and the last refitted support is Settled.
fn last_look(p: &Problem, refits: u64, last_refitted: u64, coeffs: &[f64]) -> Stop {
    if refits > 0 && support_of(coeffs, p.setup.threshold) == last_refitted {
        return Stop::Settled;
    }
    Stop::OutOfRounds
}

/// Every term at or above the threshold in magnitude, one bit each; a NaN never is.
fn support_of(coeffs: &[f64], threshold: f64) -> u64 {
    let kept = |&j: &usize| coeffs[j].abs() >= threshold;
    (0..coeffs.len())
        .filter(kept)
        .fold(0, |word, j| word | 1 << j)
}

/// The terms of a support, rising.
fn terms_of(support: u64) -> Vec<usize> {
    (0..64).filter(|j| support >> j & 1 == 1).collect()
}

/// The solve over some of theta's columns, or the one of them at which it refuses.
fn solve(p: &Problem, terms: &[usize]) -> Result<Vec<f64>, usize> {
    match p.solver {
        Solver::Normal => solve_normal(p, terms, linalg::jtj),
        Solver::Qr => solve_qr(p, terms),
        Solver::Marquardt => solve_normal(p, terms, linalg::jtj_marquardt),
    }
}

/// By the normal equations: the refused column is LU's.
fn solve_normal(p: &Problem, terms: &[usize], jtj: PairSums) -> Result<Vec<f64>, usize> {
    let c = terms.len();
    let theta = part(p, terms, 0);
    let a = jtj(&theta, p.rows, c, p.setup.lambda);
    let mut b = linalg::jtr(&theta, &p.target, p.rows, c);
    if linalg::solve_normal_equations(&a, &mut b, c).is_ok() {
        return Ok(b);
    }
    Err(columns::of_lu(a, c))
}

/// By least squares, with c more rows that hold the root of lambda on their diagonal, and c more zeros.
fn solve_qr(p: &Problem, terms: &[usize]) -> Result<Vec<f64>, usize> {
    let c = terms.len();
    let mut a = part(p, terms, c);
    for i in 0..c {
        a[(p.rows + i) * c + i] = p.setup.lambda.sqrt();
    }
    let mut b = p.target.clone();
    b.resize(p.rows + c, 0.0);
    linalg::solve_least_squares(&a, &b, p.rows + c, c)
        .map_err(|_| columns::of_least(&a, p.rows + c, c))
}

/// The columns of some terms, in their order, with `more` rows of +0.0 after them.
fn part(p: &Problem, terms: &[usize], more: usize) -> Vec<f64> {
    let mut part = vec![0.0; (p.rows + more) * terms.len()];
    for row in 0..p.rows {
        for (col, &term_idx) in terms.iter().enumerate() {
            part[row * terms.len() + col] = p.at(row, term_idx);
        }
    }
    part
}
