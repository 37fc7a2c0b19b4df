//! QR and least squares.

use crate::fault::{self, Fault};
use crate::root::{abs, sqrt};

/// The factors of an m by n matrix that stands in `data`, m at least n.
pub fn qr(data: &mut [f64], betas: &mut [f64], m: usize, n: usize) {
    for j in 0..n.min(m) {
        betas[j] = column(data, m, n, j);
    }
}

/// One column's step; the stored beta.
fn column(data: &mut [f64], m: usize, n: usize, j: usize) -> f64 {
    let mut v: Vec<f64> = (j..m).map(|i| data[i * n + j]).collect();
    let norm = sqrt(v.iter().fold(-0.0, |s, x| s + x * x));
    if skipped(norm) {
        return 0.0;
    }
    let minus_zero =
        v[0] == 0.0 && v[0].is_sign_negative() && fault::is(Fault::QrMinusZeroNegative);
    let sign = if v[0] >= 0.0 && !minus_zero {
        1.0
    } else {
        -1.0
    };
    v[0] += sign * norm;
    let beta = 2.0 / v.iter().fold(-0.0, |s, x| s + x * x);
    let start = fault::or(-0.0, Fault::QrShareFromZero, 0.0);
    let first = fault::or(j, Fault::QrColumnItselfLeft, j + 1);
    for q in first..n {
        let w = (j..m).fold(start, |s, i| s + v[i - j] * data[i * n + q]);
        for i in j..m {
            let lost = if fault::is(Fault::QrShareOtherOrder) {
                beta * (w * v[i - j])
            } else {
                beta * w * v[i - j]
            };
            data[i * n + q] -= lost;
        }
    }
    for i in j + 1..m {
        data[i * n + j] = fault::or(
            v[i - j] / v[0],
            Fault::QrDividedByNorm,
            v[i - j] * (1.0 / v[0]),
        );
    }
    fault::or(
        beta * v[0] * v[0],
        Fault::QrBetaOtherOrder,
        beta * (v[0] * v[0]),
    )
}

/// A norm too small to reflect by.
fn skipped(norm: f64) -> bool {
    if fault::is(Fault::QrNoSkip) {
        return norm == 0.0;
    }
    norm < 1e-15
        || norm == 1e-15 && fault::is(Fault::QrSkipLessOrEqual)
        || norm.is_nan() && fault::is(Fault::QrSkipNan)
}

/// Q-transpose of b.
fn q_transpose(data: &[f64], betas: &[f64], b: &mut [f64], m: usize, n: usize) {
    for j in 0..n {
        if j + 1 == m && fault::is(Fault::QtLeavesLast) {
            continue;
        }
        let v = |i: usize| if i == j { 1.0 } else { data[i * n + j] };
        let start = fault::or(-0.0, Fault::QtShareFromZero, 0.0);
        let w = (j..m).fold(start, |s, i| s + v(i) * b[i]);
        for i in j..m {
            let lost = if fault::is(Fault::QtShareOtherOrder) {
                betas[j] * (w * v(i))
            } else {
                betas[j] * w * v(i)
            };
            b[i] -= lost;
        }
    }
}

/// The least-squares solution, or the column at which back substitution refuses.
pub fn least_squares(a: &[f64], b: &[f64], m: usize, n: usize) -> Result<Vec<f64>, usize> {
    let (mut data, mut betas, mut x) = (a.to_vec(), vec![0.0; n], b.to_vec());
    qr(&mut data, &mut betas, m, n);
    q_transpose(&data, &betas, &mut x, m, n);
    x.truncate(n);
    let small = |j: usize| {
        let r = abs(data[j * n + j]);
        (r < 1e-15 || r == 1e-15 && fault::is(Fault::BackLessOrEqual))
            && !fault::is(Fault::BackNoTest)
    };
    // Every column behind j was accepted, so the first from above is j or before it.
    let met = |j: usize| {
        let above = (0..j).find(|&i| small(i));
        fault::or(j, Fault::ColumnFirstFromAbove, above.unwrap_or(j))
    };
    if fault::is(Fault::BackFromFirst) {
        for j in (0..n).rev() {
            if small(j) {
                return Err(met(j));
            }
            x[j] = (j + 1..n).fold(x[j], |s, q| s - data[j * n + q] * x[q]) / data[j * n + j];
        }
        return Ok(x);
    }
    for j in (0..n).rev() {
        if small(j) {
            return Err(met(j));
        }
        x[j] /= data[j * n + j];
        for i in 0..j {
            x[i] -= data[i * n + j] * x[j];
        }
    }
    Ok(x)
}
