//! A safe wrapper of each call: lent slices in, `Ok` or the refusal out.
//!
//! A refusal leaves every slice as it was, but for [`Refusal::Cholesky`] and [`Refusal::SmallPivot`]: see there.
//! A workspace is +0.0 over the needed length after an accepted call and after those two, and untouched past it.

use crate::raw::{self, ANSWER};
use crate::refusal::Refusal;
use crate::report::{Report, Setup};

/// The square root of IEEE 754, rounded to nearest; for a NaN and for numbers below zero the NaN 7ff8000000000000.
pub fn sqrt(x: f64) -> f64 {
    raw::dapmotar_sqrt(x)
}

/// The magnitude; a NaN is handed on with its bits.
pub fn abs(x: f64) -> f64 {
    raw::dapmotar_abs(x)
}

/// `JᵀJ + λI` of a matrix by rows, into `out` of `n_params * n_params` numbers. Refuses 1, 2, 4, 6.
pub fn jtj(
    jac: &[f64],
    n_rows: usize,
    n_params: usize,
    lambda: f64,
    out: &mut [f64],
) -> Result<(), Refusal> {
    pair_sums(raw::dapmotar_jtj, jac, n_rows, n_params, lambda, out)
}

/// `JᵀJ` of a matrix by rows, each number d of its diagonal damped in proportion: `d + λ` where |d| is below 2^-52,
/// else `d + λd`. As [`jtj`] otherwise. Refuses 1, 2, 4, 6.
pub fn jtj_marquardt(
    jac: &[f64],
    n_rows: usize,
    n_params: usize,
    lambda: f64,
    out: &mut [f64],
) -> Result<(), Refusal> {
    pair_sums(
        raw::dapmotar_jtj_marquardt,
        jac,
        n_rows,
        n_params,
        lambda,
        out,
    )
}

fn pair_sums(
    call: raw::Jtj,
    jac: &[f64],
    n_rows: usize,
    n_params: usize,
    lambda: f64,
    out: &mut [f64],
) -> Result<(), Refusal> {
    Refusal::answer(unsafe {
        call(
            jac.as_ptr(),
            jac.len(),
            n_rows,
            n_params,
            lambda,
            out.as_mut_ptr(),
            out.len(),
        )
    })
}

/// `Jᵀr` of a matrix by rows, into `out` of `n_params` numbers. Refuses 1, 2, 4, 5, 6.
pub fn jtr(
    jac: &[f64],
    r: &[f64],
    n_rows: usize,
    n_params: usize,
    out: &mut [f64],
) -> Result<(), Refusal> {
    Refusal::answer(unsafe {
        raw::dapmotar_jtr(
            jac.as_ptr(),
            jac.len(),
            r.as_ptr(),
            r.len(),
            n_rows,
            n_params,
            out.as_mut_ptr(),
            out.len(),
        )
    })
}

/// Solves `a x = b` by Cholesky: `a` is left as its factor below the diagonal, `b` as `x`. Refuses 1, 4, 5, 8.
///
/// 8 leaves `b` unchanged, and `a` with the factor in the columns before the refused one.
pub fn solve_spd_cholesky(a: &mut [f64], b: &mut [f64], n: usize) -> Result<(), Refusal> {
    in_place(raw::dapmotar_solve_spd_cholesky, a, b, n)
}

/// Solves `a x = b` by LU with row swaps: `a` is left as its factors, `b` as `x`. Refuses 1, 4, 5, 9.
///
/// 9 leaves `a` as the steps so far made it, and `b` with the row swaps only.
pub fn solve_lu(a: &mut [f64], b: &mut [f64], n: usize) -> Result<(), Refusal> {
    in_place(raw::dapmotar_solve_lu, a, b, n)
}

fn in_place(call: raw::InPlace, a: &mut [f64], b: &mut [f64], n: usize) -> Result<(), Refusal> {
    Refusal::answer_at(|column| unsafe {
        call(a.as_mut_ptr(), a.len(), b.as_mut_ptr(), b.len(), n, column)
    })
}

/// Solves `a x = b` by Cholesky and, where that refuses, by LU; `b` is left as `x`. The workspace needs `n * n`
/// numbers. Refuses 1, 4, 5, 7, 9; 9 leaves `b` with LU's row swaps.
pub fn solve_normal_equations(
    a: &[f64],
    b: &mut [f64],
    n: usize,
    workspace: &mut [f64],
) -> Result<(), Refusal> {
    Refusal::answer_at(|column| unsafe {
        raw::dapmotar_solve_normal_equations(
            a.as_ptr(),
            a.len(),
            b.as_mut_ptr(),
            b.len(),
            n,
            workspace.as_mut_ptr(),
            workspace.len(),
            column,
        )
    })
}

/// The inverse of a positive definite n by n matrix by Cholesky, into `out` of `n * n` numbers; only what stands on and
/// below the diagonal of `a` is read. The workspace needs `n * n + n` numbers. Refuses 1, 4, 6, 7, 8; 8 leaves `out`
/// unchanged.
pub fn invert_spd(
    a: &[f64],
    n: usize,
    out: &mut [f64],
    workspace: &mut [f64],
) -> Result<(), Refusal> {
    Refusal::answer_at(|column| unsafe {
        raw::dapmotar_invert_spd(
            a.as_ptr(),
            a.len(),
            n,
            out.as_mut_ptr(),
            out.len(),
            workspace.as_mut_ptr(),
            workspace.len(),
            column,
        )
    })
}

/// The Householder factors of an m by n matrix: `data` of `m * n` numbers, `betas` of `n`. The workspace needs
/// `m` numbers. Refuses 1, 2, 4, 6, 10, 7.
pub fn qr(
    a: &[f64],
    m: usize,
    n: usize,
    data: &mut [f64],
    betas: &mut [f64],
    workspace: &mut [f64],
) -> Result<(), Refusal> {
    Refusal::answer(unsafe {
        raw::dapmotar_qr(
            a.as_ptr(),
            a.len(),
            m,
            n,
            data.as_mut_ptr(),
            data.len(),
            betas.as_mut_ptr(),
            betas.len(),
            workspace.as_mut_ptr(),
            workspace.len(),
        )
    })
}

/// The x of the least `||a x - b||`, into `out` of `n` numbers. The workspace needs `m*n + 2*m + 2*n` numbers.
/// Refuses 1, 2, 4, 5, 6, 10, 7, 9; 9 leaves `out` unchanged.
pub fn solve_least_squares(
    a: &[f64],
    b: &[f64],
    m: usize,
    n: usize,
    out: &mut [f64],
    workspace: &mut [f64],
) -> Result<(), Refusal> {
    Refusal::answer_at(|column| unsafe {
        raw::dapmotar_solve_least_squares(
            a.as_ptr(),
            a.len(),
            b.as_ptr(),
            b.len(),
            m,
            n,
            out.as_mut_ptr(),
            out.len(),
            workspace.as_mut_ptr(),
            workspace.len(),
            column,
        )
    })
}

macro_rules! fits {
    ($($(#[$doc:meta])* $name:ident by $export:ident;)*) => {$(
        $(#[$doc])*
        pub fn $name(
            theta: &[f64],
            n_rows: usize,
            n_cols: usize,
            target: &[f64],
            setup: Setup,
            coeffs: &mut [f64],
            workspace: &mut [f64],
        ) -> Result<Report, Refusal> {
            fit(raw::$export, theta, n_rows, n_cols, target, setup, coeffs, workspace)
        }
    )*};
}

fits! {
    /// The fit by normal equations of a theta by rows: coefficients into `coeffs` of `n_cols` numbers, and the report. The workspace
    /// needs [`strlsq_workspace`] numbers. Refuses 1 to 7.
    strlsq by dapmotar_strlsq;

    /// The fit by QR: as [`strlsq`], with [`strlsq_qr_workspace`] numbers of workspace. Refuses 1 to 7.
    strlsq_qr by dapmotar_strlsq_qr;

    /// The fit by normal equations that are damped in proportion, as [`jtj_marquardt`] damps: as [`strlsq`], with
    /// [`strlsq_marquardt_workspace`] numbers of workspace. Refuses 1 to 7.
    strlsq_marquardt by dapmotar_strlsq_marquardt;

    /// [`strlsq`] of a theta that is stored by columns: number `j * n_rows + i` is row i, column j. Everything else is as
    /// there, the workspace too. For every matrix both give the same report and coefficients.
    strlsq_by_columns by dapmotar_strlsq_by_columns;

    /// [`strlsq_qr`] of a theta that is stored by columns, as [`strlsq_by_columns`].
    strlsq_qr_by_columns by dapmotar_strlsq_qr_by_columns;

    /// [`strlsq_marquardt`] of a theta that is stored by columns, as [`strlsq_by_columns`].
    strlsq_marquardt_by_columns by dapmotar_strlsq_marquardt_by_columns;
}

#[allow(clippy::too_many_arguments)]
fn fit(
    call: raw::Fit,
    theta: &[f64],
    n_rows: usize,
    n_cols: usize,
    target: &[f64],
    setup: Setup,
    coeffs: &mut [f64],
    workspace: &mut [f64],
) -> Result<Report, Refusal> {
    let (mut report, mut error) = ([0; 4], [0.0]);
    Refusal::answer(unsafe {
        call(
            theta.as_ptr(),
            theta.len(),
            n_rows,
            n_cols,
            target.as_ptr(),
            target.len(),
            setup.threshold,
            setup.lambda,
            setup.max_iter,
            coeffs.as_mut_ptr(),
            coeffs.len(),
            workspace.as_mut_ptr(),
            workspace.len(),
            &mut report,
            &mut error,
        )
    })?;
    Ok(Report::from_words(report, error))
}

/// The workspace that [`strlsq`] and [`strlsq_by_columns`] need, in numbers; 0 also where the sizes are beyond the limits,
/// which they refuse.
pub fn strlsq_workspace(n_rows: usize, n_cols: usize) -> usize {
    raw::dapmotar_strlsq_workspace(n_rows, n_cols)
}

/// The workspace that [`strlsq_qr`] and [`strlsq_qr_by_columns`] need, in numbers; 0 also where the sizes are beyond the limits,
/// which they refuse.
pub fn strlsq_qr_workspace(n_rows: usize, n_cols: usize) -> usize {
    raw::dapmotar_strlsq_qr_workspace(n_rows, n_cols)
}

/// The workspace that [`strlsq_marquardt`] and [`strlsq_marquardt_by_columns`] need, in numbers; 0 also where the sizes are beyond the limits,
/// which they refuse.
pub fn strlsq_marquardt_workspace(n_rows: usize, n_cols: usize) -> usize {
    raw::dapmotar_strlsq_marquardt_workspace(n_rows, n_cols)
}

/// The bench program's exchange: the answer to the frames in `input`, which stands at the head of `answer`; the bytes
/// behind it stay. Any bytes are an input.
pub fn respond<'a>(input: &[u8], answer: &'a mut [u8; ANSWER]) -> &'a [u8] {
    let length = unsafe { raw::dapmotar_respond(input.as_ptr(), input.len(), answer) };
    &answer[..length]
}
