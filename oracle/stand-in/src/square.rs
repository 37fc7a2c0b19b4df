//! Cholesky, LU, the normal equations and the inverse. Each says at which column it refused.

use crate::fault::{self, Fault};
use crate::root::{abs, sqrt};

/// Cholesky in place.
pub fn cholesky(a: &mut [f64], b: &mut [f64], n: usize) -> Result<(), usize> {
    let factored = factor(a, n);
    if factored.is_ok() {
        substitute(a, b, n);
    } else if fault::is(Fault::CholeskyRightHandSideLost) && n > 0 {
        b[0] = 0.0;
    }
    factored
}

/// The factor, on and below the diagonal.
fn factor(a: &mut [f64], n: usize) -> Result<(), usize> {
    let bound = 1e-14 * scale(a, n);
    for j in 0..n {
        let sum = (0..j).fold(a[j * n + j], |s, k| s - a[j * n + k] * a[j * n + k]);
        let refused = if fault::is(Fault::CholeskyNanRefused) {
            !(sum > bound)
        } else if fault::is(Fault::CholeskyLessOnly) {
            sum < bound
        } else {
            sum <= bound
        };
        if refused {
            if fault::is(Fault::CholeskyRefusedColumnWritten) {
                a[j * n + j] = sum;
            }
            return Err(j);
        }
        a[j * n + j] = sqrt(sum);
        for i in j + 1..n {
            let s = (0..j).fold(a[i * n + j], |s, k| s - a[i * n + k] * a[j * n + k]);
            a[i * n + j] = s / a[j * n + j];
            if fault::is(Fault::CholeskyUpperMirrored) {
                a[j * n + i] = a[i * n + j];
            }
        }
    }
    Ok(())
}

/// Both substitutions, forward and back.
fn substitute(l: &[f64], b: &mut [f64], n: usize) {
    for i in 0..n {
        b[i] = (0..i).fold(b[i], |s, k| s - l[i * n + k] * b[k]) / l[i * n + i];
    }
    for i in (0..n).rev() {
        b[i] = (i + 1..n).fold(b[i], |s, k| s - l[k * n + i] * b[k]) / l[i * n + i];
    }
}

/// The inverse of a, a column at a time, into `out`.
pub fn invert(a: &[f64], n: usize, out: &mut [f64]) -> Result<(), usize> {
    let mut l = a[..n * n].to_vec();
    let factored = factor(&mut l, n);
    if factored.is_err() {
        if fault::is(Fault::InverseOutputClearedAtEight) {
            out.fill(0.0);
        }
        return factored;
    }
    for j in 0..n {
        let mut column = vec![0.0; n];
        column[fault::or(j, Fault::InverseUnitElsewhere, (j + 1) % n)] = 1.0;
        substitute(&l, &mut column, n);
        for i in 0..n {
            out[fault::or(i * n + j, Fault::InverseColumnAsRow, j * n + i)] = column[i];
        }
    }
    if fault::is(Fault::InverseUpperMirrored) {
        (0..n).for_each(|i| (0..i).for_each(|j| out[j * n + i] = out[i * n + j]));
    }
    Ok(())
}

/// The largest of 1 and the magnitudes on the diagonal, NaN passed over.
fn scale(a: &[f64], n: usize) -> f64 {
    let mut scale = 1.0;
    for k in 0..n {
        let x = a[k * n + k];
        let x = if fault::is(Fault::CholeskyScaleSigned) {
            x
        } else {
            abs(x)
        };
        if x > scale || x.is_nan() && fault::is(Fault::CholeskyNanInScale) {
            scale = x;
        }
    }
    fault::or(scale, Fault::CholeskyNoScale, 1.0)
}

/// LU in place.
pub fn lu(a: &mut [f64], b: &mut [f64], n: usize) -> Result<(), usize> {
    for k in 0..n {
        let row = pivot(a, n, k);
        let greatest = abs(a[row * n + k]);
        if greatest < 1e-15 || greatest == 1e-15 && fault::is(Fault::PivotLessOrEqual) {
            return Err(fault::or(k, Fault::ColumnIsPivotRow, row));
        }
        if row != k {
            let from = fault::or(0, Fault::SwapRightPartOnly, k);
            (from..n).for_each(|j| a.swap(k * n + j, row * n + j));
            if !fault::is(Fault::SwapWithoutRightHandSide) {
                b.swap(k, row);
            }
        }
        for i in k + 1..n {
            let factor = a[i * n + k] / a[k * n + k];
            a[i * n + k] = factor;
            for j in k + 1..n {
                a[i * n + j] -= factor * a[k * n + j];
            }
        }
    }
    for i in 0..n {
        b[i] = (0..i).fold(b[i], |s, k| s - a[i * n + k] * b[k]);
    }
    for i in (0..n).rev() {
        let diagonal = a[i * n + i];
        if fault::is(Fault::LuBackTestsDiagonal) && !(abs(diagonal) >= 1e-15) {
            return Err(i);
        }
        b[i] = (i + 1..n).fold(b[i], |s, k| s - a[i * n + k] * b[k]) / diagonal;
    }
    if fault::is(Fault::LuFactorsNotKept) {
        (0..n).for_each(|i| (0..i).for_each(|k| a[i * n + k] = 0.0));
    }
    Ok(())
}

/// The first row of greatest magnitude from the diagonal down.
fn pivot(a: &[f64], n: usize, k: usize) -> usize {
    let mut best = k;
    if fault::is(Fault::PivotNone) {
        return k;
    }
    for i in k + 1..n {
        let (x, y) = (abs(a[i * n + k]), abs(a[best * n + k]));
        let greater = if fault::is(Fault::PivotLastGreatest) {
            x >= y
        } else if fault::is(Fault::PivotNanTaken) {
            !(x <= y)
        } else {
            x > y
        };
        if greater {
            best = i;
        }
    }
    best
}

/// Cholesky on a copy; on its refusal LU on a fresh copy and the untouched b.
pub fn normal_equations(a: &[f64], b: &mut [f64], n: usize) -> Result<(), usize> {
    let mut copy = a.to_vec();
    let Err(by_cholesky) = cholesky(&mut copy, b, n) else {
        return Ok(());
    };
    if !fault::is(Fault::LuOnOverwritten) {
        copy.copy_from_slice(a);
    }
    let by_lu = lu(&mut copy, b, n);
    by_lu.map_err(|col| fault::or(col, Fault::ColumnOfCholesky, by_cholesky))
}
