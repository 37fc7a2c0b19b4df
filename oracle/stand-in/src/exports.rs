//! The exports of libcapi.a, under their names.

#![allow(clippy::too_many_arguments)]
#![allow(clippy::missing_safety_doc)]

use crate::builders::Damping;
use crate::fault::{self, Fault};
use crate::fits::{By, Fit, workspace as needed_by};
use crate::layout::Layout;
use crate::sizes::{Sizes, clear};
use crate::{builders, qr, root, square};
use std::slice;

mod why;

pub use why::*;

unsafe fn part<'a, T>(p: *const T, len: usize) -> &'a [T] {
    if len == 0 {
        &[]
    } else {
        unsafe { slice::from_raw_parts(p, len) }
    }
}

unsafe fn part_mut<'a>(p: *mut f64, len: usize) -> &'a mut [f64] {
    if len == 0 {
        &mut []
    } else {
        unsafe { slice::from_raw_parts_mut(p, len) }
    }
}

/// A refusal by size: nothing is changed, but for the faults that do.
fn refused(number: u64, out: &mut [f64], workspace: &mut [f64]) -> u64 {
    if fault::is(Fault::OutputClearedWhenRefused) {
        out.fill(0.0);
    }
    if number == 7 && fault::is(Fault::WorkspaceClearedWhenShort) {
        workspace.fill(0.0);
    }
    number
}

/// A solver's answer; the column is told where it refused by its numbers.
unsafe fn told(number: u64, solved: Result<(), usize>, column: *mut [u64; 1]) -> u64 {
    let Err(col) = solved else {
        if fault::is(Fault::ColumnToldWhenAccepted) {
            unsafe { *column = [0] };
        }
        return 0;
    };
    if !fault::is(Fault::ColumnNotTold) {
        unsafe { *column = [fault::or(col, Fault::ColumnFromOne, col + 1) as u64] };
    }
    number
}

/// A solver's refusal by size.
unsafe fn untold(
    number: u64,
    out: &mut [f64],
    workspace: &mut [f64],
    column: *mut [u64; 1],
) -> u64 {
    if fault::is(Fault::ColumnToldWhenRefusedBySize) {
        unsafe { *column = [0] };
    }
    refused(number, out, workspace)
}

#[unsafe(no_mangle)]
pub extern "C" fn dapmotar_sqrt(x: f64) -> f64 {
    root::sqrt(x)
}

#[unsafe(no_mangle)]
pub extern "C" fn dapmotar_abs(x: f64) -> f64 {
    root::abs(x)
}

macro_rules! builders {
    ($($name:ident: $by:ident;)*) => {$(
        #[unsafe(no_mangle)]
        pub unsafe extern "C" fn $name(
            jac: *const f64,
            jac_len: usize,
            n_rows: usize,
            n_params: usize,
            lambda: f64,
            out: *mut f64,
            out_len: usize,
        ) -> u64 {
            let (jac, place) = unsafe { (part(jac, jac_len), part_mut(out, out_len)) };
            let mut sizes = Sizes::default();
            sizes.columns(n_params);
            sizes.rows(n_rows);
            sizes.matrix(jac_len, n_rows, n_params);
            sizes.output(out_len, n_params.wrapping_mul(n_params));
            if sizes.first() != 0 {
                return refused(sizes.first(), place, &mut []);
            }
            builders::jtj(jac, n_rows, n_params, Damping::$by, lambda, place);
            if out_len > 0 && fault::is(Fault::WrittenPastTheEnd) {
                unsafe { *out.add(out_len) = 0.0 };
            }
            0
        }
    )*};
}

builders! {
    dapmotar_jtj: Plain;
    dapmotar_jtj_marquardt: InProportion;
}

#[unsafe(no_mangle)]
pub unsafe extern "C" fn dapmotar_jtr(
    jac: *const f64,
    jac_len: usize,
    r: *const f64,
    r_len: usize,
    n_rows: usize,
    n_params: usize,
    out: *mut f64,
    out_len: usize,
) -> u64 {
    let (jac, r, out) = unsafe { (part(jac, jac_len), part(r, r_len), part_mut(out, out_len)) };
    let mut sizes = Sizes::default();
    sizes.columns(n_params);
    sizes.rows(n_rows);
    sizes.matrix(jac_len, n_rows, n_params);
    sizes.right_hand_side(r_len, n_rows);
    sizes.output(out_len, n_params);
    if sizes.first() != 0 {
        return refused(sizes.first(), out, &mut []);
    }
    builders::jtr(jac, r, n_rows, n_params, out);
    0
}

/// The size refusals of a square solver.
fn square_sizes(a_len: usize, b_len: usize, n: usize) -> Sizes {
    let mut sizes = Sizes::default();
    sizes.columns(n);
    sizes.matrix(a_len, n, n);
    sizes.right_hand_side(b_len, n);
    sizes
}

macro_rules! square_solvers {
    ($($name:ident: $solve:path, $number:literal;)*) => {$(
        #[unsafe(no_mangle)]
        pub unsafe extern "C" fn $name(
            a: *mut f64,
            a_len: usize,
            b: *mut f64,
            b_len: usize,
            n: usize,
            column: *mut [u64; 1],
        ) -> u64 {
            let (a, b) = unsafe { (part_mut(a, a_len), part_mut(b, b_len)) };
            let sizes = square_sizes(a_len, b_len, n);
            if sizes.first() != 0 {
                return unsafe { untold(sizes.first(), b, &mut [], column) };
            }
            unsafe { told($number, $solve(a, b, n), column) }
        }
    )*};
}

square_solvers! {
    dapmotar_solve_spd_cholesky: square::cholesky, 8;
    dapmotar_solve_lu: square::lu, 9;
}

#[unsafe(no_mangle)]
pub unsafe extern "C" fn dapmotar_solve_normal_equations(
    a: *const f64,
    a_len: usize,
    b: *mut f64,
    b_len: usize,
    n: usize,
    workspace: *mut f64,
    workspace_len: usize,
    column: *mut [u64; 1],
) -> u64 {
    let (matrix, b) = unsafe { (part(a, a_len), part_mut(b, b_len)) };
    let workspace = unsafe { part_mut(workspace, workspace_len) };
    let mut sizes = square_sizes(a_len, b_len, n);
    sizes.workspace(workspace_len, n.wrapping_mul(n));
    if sizes.first() != 0 {
        return unsafe { untold(sizes.first(), b, workspace, column) };
    }
    workspace[..(n * n).min(workspace_len)].fill(7.0);
    let answer = unsafe { told(9, square::normal_equations(matrix, b, n), column) };
    if fault::is(Fault::ReadOnlyMatrixWritten) && n > 0 {
        unsafe { *a.cast_mut() += 1.0 };
    }
    if !(answer == 9 && fault::is(Fault::WorkspaceNotClearedAfterRefusal)) {
        clear(workspace, n * n);
    }
    answer
}

#[unsafe(no_mangle)]
pub unsafe extern "C" fn dapmotar_invert_spd(
    a: *const f64,
    a_len: usize,
    n: usize,
    out: *mut f64,
    out_len: usize,
    workspace: *mut f64,
    workspace_len: usize,
    column: *mut [u64; 1],
) -> u64 {
    let a = unsafe { part(a, a_len) };
    let (out, workspace) = unsafe { (part_mut(out, out_len), part_mut(workspace, workspace_len)) };
    let cells = n.wrapping_mul(n);
    let needed = fault::or(
        cells.wrapping_add(n),
        Fault::InverseWorkspaceOfNormal,
        cells,
    );
    let mut sizes = Sizes::default();
    sizes.columns(n);
    sizes.matrix(a_len, n, n);
    sizes.output(out_len, cells);
    sizes.workspace(workspace_len, needed);
    let number = sizes.first_of_inverse();
    if number != 0 {
        return unsafe { untold(number, out, workspace, column) };
    }
    workspace[..needed.min(workspace_len)].fill(7.0);
    let inverted = square::invert(a, n, out);
    if !(inverted.is_err() && fault::is(Fault::InverseWorkspaceLeftAtEight)) {
        clear(workspace, needed);
    }
    unsafe { told(8, inverted, column) }
}

#[unsafe(no_mangle)]
pub unsafe extern "C" fn dapmotar_qr(
    a: *const f64,
    a_len: usize,
    m: usize,
    n: usize,
    data: *mut f64,
    data_len: usize,
    betas: *mut f64,
    betas_len: usize,
    workspace: *mut f64,
    workspace_len: usize,
) -> u64 {
    let (a, data) = unsafe { (part(a, a_len), part_mut(data, data_len)) };
    let (betas, workspace) = unsafe {
        (
            part_mut(betas, betas_len),
            part_mut(workspace, workspace_len),
        )
    };
    let mut sizes = Sizes::default();
    sizes.columns(n);
    sizes.qr_rows(m);
    sizes.matrix(a_len, m, n);
    sizes.output(data_len, m.wrapping_mul(n));
    if !fault::is(Fault::BetasLengthIgnored) {
        sizes.output(betas_len, n);
    }
    sizes.tall(m, n);
    sizes.workspace(workspace_len, m);
    if sizes.first() != 0 {
        return refused(sizes.first(), data, workspace);
    }
    if betas_len != n || a_len != data_len {
        return 0;
    }
    data.copy_from_slice(a);
    betas.fill(0.0);
    qr::qr(data, betas, m, n);
    workspace[..m.min(workspace_len)].fill(7.0);
    clear(workspace, m);
    0
}

#[unsafe(no_mangle)]
pub unsafe extern "C" fn dapmotar_solve_least_squares(
    a: *const f64,
    a_len: usize,
    b: *const f64,
    b_len: usize,
    m: usize,
    n: usize,
    out: *mut f64,
    out_len: usize,
    workspace: *mut f64,
    workspace_len: usize,
    column: *mut [u64; 1],
) -> u64 {
    let (a, b) = unsafe { (part(a, a_len), part(b, b_len)) };
    let (out, workspace) = unsafe { (part_mut(out, out_len), part_mut(workspace, workspace_len)) };
    let needed = m
        .wrapping_mul(n)
        .wrapping_add(m.wrapping_mul(2))
        .wrapping_add(n.wrapping_mul(2));
    let mut sizes = Sizes::default();
    sizes.columns(n);
    sizes.qr_rows(m);
    sizes.matrix(a_len, m, n);
    sizes.right_hand_side(b_len, m);
    sizes.output(out_len, n);
    sizes.tall(m, n);
    sizes.workspace(workspace_len, needed);
    if sizes.first() != 0 {
        return unsafe { untold(sizes.first(), out, workspace, column) };
    }
    if m < n {
        return 0;
    }
    workspace[..needed.min(workspace_len)].fill(7.0);
    let solved = qr::least_squares(a, b, m, n).map(|x| out.copy_from_slice(&x));
    if solved.is_err() && fault::is(Fault::BackOutputTouched) {
        out.fill(0.0);
    }
    if !(solved.is_err() && fault::is(Fault::WorkspaceNotClearedAfterRefusal)) {
        clear(workspace, needed);
    }
    unsafe { told(9, solved, column) }
}

/// The size refusals of a fit.
fn fit_sizes(fit: &Fit<'_>, coeffs: &[f64], workspace: &[f64]) -> Sizes {
    let mut sizes = Sizes::default();
    sizes.columns(fit.cols);
    sizes.rows(fit.rows);
    sizes.rounds(fit.max_iter);
    // The fault's size where theta stands by columns.
    let size = |right: usize, fault, wrong| match fit.layout {
        Layout::ByRows => right,
        Layout::ByColumns => fault::or(right, fault, wrong),
    };
    let height = size(fit.cols, Fault::LayoutMatrixSquare, fit.rows);
    sizes.matrix(fit.numbers.len(), fit.rows, height);
    let targets = size(fit.rows, Fault::LayoutTargetOfColumns, fit.cols);
    sizes.right_hand_side(fit.target.len(), targets);
    sizes.output(coeffs.len(), fit.cols);
    let needed = needed_by(fit.by, fit.rows, fit.cols);
    let with_copy = needed.wrapping_add(fit.numbers.len());
    let needed = size(needed, Fault::LayoutWorkspaceWithCopy, with_copy);
    sizes.workspace(workspace.len(), needed);
    sizes
}

/// Any of the fits, its sizes tested and its slices written.
unsafe fn fit(
    fit: Fit<'_>,
    coeffs: &mut [f64],
    workspace: &mut [f64],
    report: *mut [u64; 4],
    error: *mut [f64; 1],
) -> u64 {
    let needed = needed_by(fit.by, fit.rows, fit.cols);
    let sizes = fit_sizes(&fit, coeffs, workspace);
    if sizes.first() != 0 {
        if fault::is(Fault::ReportWrittenWhenRefused) {
            unsafe { *report = [0; 4] };
        }
        if fault::is(Fault::ErrorWrittenWhenRefused) {
            unsafe { *error = [0.0] };
        }
        return refused(sizes.first(), coeffs, workspace);
    }
    if fault::is(Fault::RefusesAll) {
        return 1;
    }
    if fit.target.len() != fit.rows {
        return 0;
    }
    let used = needed.min(workspace.len());
    workspace[..used].fill(7.0);
    let before = coeffs.to_vec();
    let (said, left) = fit.run(coeffs);
    if fault::is(Fault::AlwaysZeros) {
        coeffs.fill(0.0);
    }
    if fault::is(Fault::WritesNothing) {
        coeffs.copy_from_slice(&before);
    }
    unsafe { *report = said };
    if !fault::is(Fault::ErrorNotWritten) {
        unsafe { *error = [left] };
    }
    let forgot = fault::is(Fault::WorkspaceNotClearedWithoutData) && said[0] == 0
        || fault::is(Fault::WorkspaceNotClearedAtFirstRefused) && said[0] == 1;
    if !forgot {
        clear(workspace, needed);
    }
    0
}

macro_rules! fits {
    ($($name:ident: $by:ident, $layout:ident;)*) => {$(
        #[unsafe(no_mangle)]
        pub unsafe extern "C" fn $name(
            theta: *const f64,
            theta_len: usize,
            n_rows: usize,
            n_cols: usize,
            target: *const f64,
            target_len: usize,
            threshold: f64,
            lambda: f64,
            max_iter: usize,
            coeffs: *mut f64,
            coeffs_len: usize,
            workspace: *mut f64,
            workspace_len: usize,
            report: *mut [u64; 4],
            error: *mut [f64; 1],
        ) -> u64 {
            unsafe {
                let problem = Fit {
                    by: By::$by,
                    layout: Layout::$layout,
                    numbers: part(theta, theta_len),
                    rows: n_rows,
                    cols: n_cols,
                    target: part(target, target_len),
                    threshold,
                    lambda,
                    max_iter,
                };
                fit(
                    problem,
                    part_mut(coeffs, coeffs_len),
                    part_mut(workspace, workspace_len),
                    report,
                    error,
                )
            }
        }
    )*};
}

fits! {
    dapmotar_strlsq: Normal, ByRows;
    dapmotar_strlsq_qr: Qr, ByRows;
    dapmotar_strlsq_marquardt: Marquardt, ByRows;
    dapmotar_strlsq_by_columns: Normal, ByColumns;
    dapmotar_strlsq_qr_by_columns: Qr, ByColumns;
    dapmotar_strlsq_marquardt_by_columns: Marquardt, ByColumns;
}

/// A workspace length, 0 beyond the limits.
fn workspace_length(by: By, rows: usize, cols: usize) -> usize {
    let mut sizes = Sizes::default();
    sizes.columns(cols);
    sizes.rows(rows);
    if sizes.first() != 0 && !fault::is(Fault::WorkspaceFormulaBeyondLimits) {
        return 0;
    }
    needed_by(by, rows, cols)
}

#[unsafe(no_mangle)]
pub extern "C" fn dapmotar_strlsq_workspace(n_rows: usize, n_cols: usize) -> usize {
    workspace_length(By::Normal, n_rows, n_cols)
}

#[unsafe(no_mangle)]
pub extern "C" fn dapmotar_strlsq_qr_workspace(n_rows: usize, n_cols: usize) -> usize {
    workspace_length(By::Qr, n_rows, n_cols)
}

#[unsafe(no_mangle)]
pub extern "C" fn dapmotar_strlsq_marquardt_workspace(n_rows: usize, n_cols: usize) -> usize {
    workspace_length(By::Marquardt, n_rows, n_cols)
}

#[unsafe(no_mangle)]
pub unsafe extern "C" fn dapmotar_respond(
    input: *const u8,
    input_len: usize,
    answer: *mut [u8; 313],
) -> usize {
    let text = crate::frames::respond(unsafe { part(input, input_len) });
    // Not into an array of 313: one of the faults answers at greater length.
    unsafe { answer.cast::<u8>().copy_from(text.as_ptr(), text.len()) };
    text.len()
}
