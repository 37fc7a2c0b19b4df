//! `jtj`, `jtj_marquardt` and `jtr`, per entry.

use crate::fault::{self, Fault};
use crate::root::abs;

/// How a finished diagonal is damped.
#[derive(Clone, Copy, PartialEq, Eq)]
pub enum Damping {
    Plain,
    InProportion,
}

pub fn jtj(jac: &[f64], rows: usize, n: usize, by: Damping, lambda: f64, out: &mut [f64]) {
    pair_sums(jac, rows, n, lambda, out);
    damp(out, n, by, lambda);
}

/// The undamped sums; lambda is looked at by a fault only.
pub fn pair_sums(jac: &[f64], rows: usize, n: usize, lambda: f64, out: &mut [f64]) {
    let rows = fault::or(rows, Fault::JtjLastPageSkipped, rows - rows % PAGE);
    for p in 0..n {
        for q in p..n {
            let mut start = fault::or(0.0, Fault::JtjFromMinusZero, -0.0);
            if fault::is(Fault::JunkReadFromOutput) {
                start = out[p * n + q] * 0.0;
            }
            if p == q && fault::is(Fault::JtjLambdaFirst) {
                start = lambda;
            }
            let pair = |row: usize| (jac[row * n + p], jac[row * n + q]);
            let rows = if left_out(p, q, n) { 0 } else { rows };
            let sum = pair_sum(start, rows, pair);
            out[p * n + q] = sum;
            if !(p != q && fault::is(Fault::JtjNotMirrored)) {
                out[q * n + p] = sum;
            }
        }
    }
}

/// The products of two columns, added to a start.
fn pair_sum(start: f64, rows: usize, pair: impl Fn(usize) -> (f64, f64)) -> f64 {
    let add = |sum: f64, row: usize| match pair(row) {
        (x, y) if fault::is(Fault::JtjFused) => x.mul_add(y, sum),
        (x, y) => sum + x * y,
    };
    if fault::is(Fault::JtjPagesSummedApart) {
        let pages = (0..rows).step_by(PAGE);
        let sums = pages.map(|first| (first..rows.min(first + PAGE)).fold(0.0, add));
        return sums.fold(start, |sum, page| sum + page);
    }
    (0..rows).map(|row| by_pages(row, rows)).fold(start, add)
}

/// The rows that a walk by pages takes at once.
pub const PAGE: usize = 32;

/// The row itself, but under a fault that takes a page's rows from its last.
fn by_pages(row: usize, rows: usize) -> usize {
    let first = row - row % PAGE;
    let last = rows.min(first + PAGE) - 1;
    fault::or(row, Fault::JtjRowsFromLast, first + last - row)
}

/// Whether the sum of two columns is left out: the first n mod 4 columns stand alone, then there are tiles.
fn left_out(p: usize, q: usize, n: usize) -> bool {
    let alone = n % 4;
    let on_diagonal = p >= alone && (p - alone) / 4 == (q - alone) / 4;
    fault::is(Fault::JtjRemainderLeftOut) && q < alone
        || fault::is(Fault::JtjDiagonalLeftOut) && on_diagonal
        || fault::is(Fault::JtjWrongHalfMirrored) && p != q
}

/// Each diagonal number once.
pub fn damp(out: &mut [f64], n: usize, by: Damping, lambda: f64) {
    for p in 0..n {
        let d = &mut out[p * n + p];
        match by {
            Damping::Plain => plain(d, lambda),
            Damping::InProportion => in_proportion(d, lambda),
        }
    }
}

fn plain(d: &mut f64, lambda: f64) {
    if !fault::is(Fault::JtjLambdaFirst) {
        *d += lambda;
    }
    if fault::is(Fault::JtjLambdaTwice) {
        *d += lambda;
    }
}

/// Lambda alone below 2^-52, else lambda times the number.
fn in_proportion(d: &mut f64, lambda: f64) {
    let bound = 1.0 / (1u64 << 52) as f64;
    let at_bound = abs(*d) == bound && fault::is(Fault::MarquardtLessOrEqual);
    let small = abs(*d) < bound && !fault::is(Fault::MarquardtNeverAlone) || at_bound;
    let more = if small || fault::is(Fault::MarquardtAlwaysAlone) {
        lambda
    } else {
        lambda * *d
    };
    *d += more;
    if fault::is(Fault::MarquardtTwice) {
        *d += lambda * *d;
    }
}

pub fn jtr(jac: &[f64], r: &[f64], rows: usize, n: usize, out: &mut [f64]) {
    for p in 0..n {
        let start = fault::or(0.0, Fault::JtrFromMinusZero, -0.0);
        out[p] = (0..rows).fold(start, |sum, row| sum + jac[row * n + p] * r[row]);
    }
}
