//! Problems for `why`: thresholds above zero, and those in which terms fall in turn, a later refit is refused or a
//! NaN comes late.

use super::kinds::{Size, any as any_kind, solver};
use super::special_kinds::{falling, first_coefficients, refit_refused_qr};
use super::{floats, setups};
use crate::linalg::{jtj, jtj_marquardt};
use crate::problem::{Problem, Solver};
use crate::rng::Rng;

/// A problem of any kind, and the kind's name.
pub fn any(rng: &mut Rng, size: Size) -> (&'static str, Problem) {
    let large_enough = size.rows >= 3 && size.cols >= 3;
    let (name, mut p) = match rng.below(8) {
        0 | 1 => ("falling", falling(rng, size)),
        2 if large_enough => ("refusedlater", refused_later(rng, size)),
        3 if large_enough => ("nanlater", nan_later(rng, size)),
        _ => any_kind(rng, size),
    };
    let above_zero = p.setup.threshold > 0.0;
    if !above_zero && !rng.once_in(4) {
        p.setup.threshold = rng.pick(&[0.05, 0.5, 1e-3, f64::from_bits(1), f64::INFINITY]);
    }
    // Few rounds more often, so that they are used up.
    if rng.once_in(3) {
        p.setup.max_iter = rng.below(4);
    }
    (name, p)
}

/// Some terms fall, and then the refit of those that are left is refused.
fn refused_later(rng: &mut Rng, size: Size) -> Problem {
    match solver(rng) {
        Solver::Qr => refused_later_qr(rng, size),
        other => refused_later_normal(rng, other, size),
    }
}

/// A negative lambda makes one pivot zero, in proportion each: a refit of that term alone is refused. theta is
/// triangular, so that a target is found for any coefficients of the first solve: that term's is large, the others
/// stand about the threshold, and fall in turn where they lean on each other.
fn refused_later_normal(rng: &mut Rng, solver: Solver, size: Size) -> Problem {
    let n = rng.between(2, 5.min(size.cols).min(size.rows));
    let mut p = Problem::zeros(solver, n, n, setups::plain(rng));
    for row in 0..n {
        for j in row..n {
            let x = rng.between(1, 3) as f64;
            p.set(row, j, floats::sign(rng, x));
        }
    }
    let left = rng.below(n);
    let square: f64 = (0..n).map(|row| p.at(row, left) * p.at(row, left)).sum();
    p.setup.threshold = 0.25;
    p.setup.max_iter = rng.between(1, 6);
    let sums = if solver == Solver::Marquardt {
        p.setup.lambda = -1.0;
        jtj_marquardt(&p.theta, n, n, p.setup.lambda)
    } else {
        p.setup.lambda = -square;
        jtj(&p.theta, n, n, p.setup.lambda)
    };
    let first: Vec<f64> = (0..n)
        .map(|j| {
            if j == left {
                1.5
            } else {
                rng.pick(&[0.2, 0.3, -0.3])
            }
        })
        .collect();
    for j in 0..n {
        let product: f64 = (0..n).map(|q| sums[j * n + q] * first[q]).sum();
        let before: f64 = (0..j).map(|row| p.at(row, j) * p.target[row]).sum();
        p.target[j] = (product - before) / p.at(j, j);
    }
    p
}

/// A column stands twice behind others. The threshold stands between the coefficients of those, so that they need not
/// fall at one look.
fn refused_later_qr(rng: &mut Rng, size: Size) -> Problem {
    let mut p = refit_refused_qr(rng, size);
    let first = first_coefficients(&p);
    let mut before: Vec<f64> = first[..p.cols - 2].iter().map(|c| c.abs()).collect();
    before.sort_by(f64::total_cmp);
    let between = before[before.len().min(2) - 1];
    if between.is_finite() && between > 0.0 {
        p.setup.threshold = between * (0.6 + 0.4 * rng.unit());
    }
    p.setup.max_iter = rng.between(1, 5);
    p
}

/// The first solve is fine at a term, and a refit gives it a NaN.
fn nan_later(rng: &mut Rng, size: Size) -> Problem {
    match solver(rng) {
        Solver::Qr => nan_later_qr(rng, size),
        other => nan_later_normal(rng, other, size),
    }
}

/// One column's product with the target overflows, so that coefficients are infinite, or NaN where infinities meet:
/// which of them changes with the columns that are solved.
fn nan_later_normal(rng: &mut Rng, solver: Solver, size: Size) -> Problem {
    let cols = rng.between(3, 6.min(size.cols).min(size.rows));
    let rows = rng.between(cols, (cols + 3).min(size.rows));
    let mut p = Problem::zeros(solver, rows, cols, setups::plain(rng));
    p.theta.fill_with(|| rng.signed());
    p.target.fill_with(|| rng.signed());
    p.theta[..cols].fill(0.0);
    p.set(0, rng.below(cols), 4.0);
    p.target[0] = f64::MAX;
    p.setup.max_iter = rng.below(4);
    p
}

/// The first reading is the first column's alone, which takes it: its reflection and the next just pass. A refit without
/// that column has that reading too, and its first reflection overflows.
fn nan_later_qr(rng: &mut Rng, size: Size) -> Problem {
    let rows = rng.between(3, 6.min(size.rows));
    let mut p = Problem::zeros(Solver::Qr, rows, 3, setups::plain(rng));
    let share = f64::MAX / (1.0 + (rows as f64 - 0.5).sqrt());
    for row in 0..rows {
        let alone = if row == 0 { 1.0 } else { 0.0 };
        let columns = [alone, 1.0 + 0.005 * rng.signed(), 0.05 * rng.signed()];
        (0..3).for_each(|j| p.set(row, j, columns[j]));
        p.target[row] = share * (columns[1] + 0.3 * columns[2]);
    }
    p.setup.threshold = 0.1 * share;
    p.setup.lambda = rng.pick(&[0.0, 1e-9]);
    p.setup.max_iter = rng.between(1, 3);
    p
}
