//! Drop-ins for oxieml's `strlsq`, `strlsq_qr`, `jtj_marquardt` and `invert_spd`: their names, their parameters,
//! their bits.
//!
//! oxieml accepts more than the core does, and its fits and sums can't refuse. So these do:
//!
//! - `theta`, `target` and `jac` longer than needed are cut to the length that oxieml would read;
//! - with no rows or no columns a fit's answer is `n_cols` zeros whatever else is given, as oxieml reads nothing then;
//!   without columns that of `jtj_marquardt` is empty;
//! - more than 64 columns, 4,096 rows or 1,000 rounds: **a panic with the refusal's number**, where oxieml would
//!   go on. Call [`crate::strlsq`], [`crate::strlsq_qr`] or [`crate::jtj_marquardt`] to get a `Result` instead;
//! - `theta`, `target` or `jac` shorter than needed: a panic, as in oxieml.
//!
//! `invert_spd` gives a `Result`, so nothing there is a panic: see at it.
//!
//! Within the limits each number has oxieml's bits; a NaN may have others than oxieml's NaN.

use crate::refusal::Refusal;
use crate::report::{Report, Setup};

/// oxieml's `strlsq`: see the module for what is refused by a panic.
pub fn strlsq(
    theta: &[f64],
    n_rows: usize,
    n_cols: usize,
    target: &[f64],
    threshold: f64,
    lambda: f64,
    max_iter: usize,
) -> Vec<f64> {
    let setup = Setup {
        threshold,
        lambda,
        max_iter,
    };
    let needed = crate::strlsq_workspace(n_rows, n_cols);
    run(crate::strlsq, needed, theta, n_rows, n_cols, target, setup)
}

/// oxieml's `strlsq_qr`: see the module for what is refused by a panic.
pub fn strlsq_qr(
    theta: &[f64],
    n_rows: usize,
    n_cols: usize,
    target: &[f64],
    threshold: f64,
    lambda: f64,
    max_iter: usize,
) -> Vec<f64> {
    let setup = Setup {
        threshold,
        lambda,
        max_iter,
    };
    let needed = crate::strlsq_qr_workspace(n_rows, n_cols);
    run(
        crate::strlsq_qr,
        needed,
        theta,
        n_rows,
        n_cols,
        target,
        setup,
    )
}

/// oxieml's `jtj_marquardt`: see the module for what is refused by a panic.
pub fn jtj_marquardt(jac: &[f64], n_rows: usize, n_params: usize, lambda: f64) -> Vec<f64> {
    if n_params == 0 {
        return Vec::new();
    }
    let jac = read(jac, n_rows, n_params);
    // Beyond the limit of columns the call refuses before it looks at a length.
    let cells = if n_params > 64 {
        0
    } else {
        n_params * n_params
    };
    let mut out = vec![0.0; cells];
    match crate::jtj_marquardt(jac, n_rows, n_params, lambda, &mut out) {
        Ok(()) => out,
        Err(refusal) => panic!("{refusal}"),
    }
}

/// oxieml's `invert_spd`, with the refusal for an error: [`Refusal::Cholesky`], which tells the column, where oxieml
/// gives `NotSpd`. A longer `a` is cut to what oxieml would read; a shorter one is [`Refusal::Matrix`], where oxieml
/// panics, and more than 64 columns are [`Refusal::Columns`], where it would invert.
pub fn invert_spd(a: &[f64], n: usize) -> Result<Vec<f64>, Refusal> {
    if n > 64 {
        return Err(Refusal::Columns);
    }
    let cells = n * n;
    let (mut out, mut workspace) = (vec![0.0; cells], vec![0.0; cells + n]);
    crate::invert_spd(read(a, n, n), n, &mut out, &mut workspace)?;
    Ok(out)
}

/// What oxieml would read of a matrix that may be longer; a shorter one is left to the call's refusal.
fn read(matrix: &[f64], n_rows: usize, n_cols: usize) -> &[f64] {
    &matrix[..n_rows.saturating_mul(n_cols).min(matrix.len())]
}

/// One of the two safe calls.
type Call =
    fn(&[f64], usize, usize, &[f64], Setup, &mut [f64], &mut [f64]) -> Result<Report, Refusal>;

fn run(
    call: Call,
    needed: usize,
    theta: &[f64],
    n_rows: usize,
    n_cols: usize,
    target: &[f64],
    setup: Setup,
) -> Vec<f64> {
    if n_rows == 0 || n_cols == 0 {
        return vec![0.0; n_cols];
    }
    let theta = read(theta, n_rows, n_cols);
    let target = &target[..n_rows.min(target.len())];
    // Beyond the limits no workspace is needed, and the call refuses before it looks at a length.
    let mut workspace = vec![0.0; needed];
    let mut coeffs = vec![0.0; if needed == 0 { 0 } else { n_cols }];
    match call(
        theta,
        n_rows,
        n_cols,
        target,
        setup,
        &mut coeffs,
        &mut workspace,
    ) {
        Ok(_) => coeffs,
        Err(refusal) => panic!("{refusal}"),
    }
}
