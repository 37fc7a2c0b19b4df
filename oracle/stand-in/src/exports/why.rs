//! The exports of `why` and of its program.

use super::{fit_sizes, part, part_mut, refused};
use crate::fault::{self, Fault};
use crate::fits::{By, Fit, workspace as needed_by};
use crate::layout::Layout;
use crate::sizes::clear;

/// The fit of a code and its layout, if there is one.
fn by(code: u64) -> Option<(By, Layout)> {
    let code = fault::or(code, Fault::WhyCodeCut, code & 0xff);
    let columns = fault::or(Layout::ByColumns, Fault::WhyColumnsAsRows, Layout::ByRows);
    let (by, layout) = match code {
        1 => (By::Normal, Layout::ByRows),
        2 => (By::Qr, Layout::ByRows),
        3 => (By::Marquardt, Layout::ByRows),
        0x11 => (By::Normal, columns),
        0x12 => (By::Qr, columns),
        0x13 => (By::Marquardt, columns),
        0x10 if fault::is(Fault::WhyCodeTen) => (By::Normal, columns),
        0x14 if fault::is(Fault::WhyCodeFourteen) => (By::Marquardt, columns),
        _ => return None,
    };
    Some((fault::or(by, Fault::WhySolverIgnored, By::Normal), layout))
}

#[unsafe(no_mangle)]
pub unsafe extern "C" fn dapmotar_why(
    code: u64,
    theta: *const f64,
    theta_len: usize,
    n_rows: usize,
    n_cols: usize,
    target: *const f64,
    target_len: usize,
    threshold: f64,
    lambda: f64,
    max_iter: usize,
    term: usize,
    coeffs: *mut f64,
    coeffs_len: usize,
    workspace: *mut f64,
    workspace_len: usize,
    cause: *mut [u64; 2],
    value: *mut [f64; 1],
) -> u64 {
    let known = by(code);
    let (by, layout) = known.unwrap_or((By::Normal, Layout::ByRows));
    let fit = Fit {
        by,
        layout,
        numbers: unsafe { part(theta, theta_len) },
        rows: n_rows,
        cols: n_cols,
        target: unsafe { part(target, target_len) },
        threshold,
        lambda,
        max_iter,
    };
    let coeffs = unsafe { part_mut(coeffs, coeffs_len) };
    let workspace = unsafe { part_mut(workspace, workspace_len) };
    let term = fault::or(term, Fault::WhyTermCut, term & 0xffff_ffff);
    let mut sizes = fit_sizes(&fit, coeffs, workspace);
    sizes.code(known.is_some());
    sizes.threshold(threshold);
    sizes.term(term, n_cols);
    let number = sizes.first_of_why();
    if number != 0 {
        if fault::is(Fault::WhyWrittenWhenRefused) {
            unsafe { (*cause, *value) = ([0; 2], [0.0]) };
        }
        return refused(number, coeffs, workspace);
    }
    if target_len != n_rows {
        return 0;
    }
    let needed = needed_by(fit.by, n_rows, n_cols);
    workspace[..needed.min(workspace_len)].fill(7.0);
    let causes = fit.causes(coeffs);
    let (code, refit, number) = causes.get(term).copied().unwrap_or((2, 0, 0.0));
    unsafe { (*cause, *value) = ([code, refit], [number]) };
    if fault::is(Fault::WhyCauseTooLong) {
        unsafe { *cause.add(1).cast::<u64>() = 0 };
    }
    if !fault::is(Fault::WhyWorkspaceLeft) {
        clear(workspace, needed);
    }
    0
}

#[unsafe(no_mangle)]
pub unsafe extern "C" fn dapmotar_respond_why(
    input: *const u8,
    input_len: usize,
    answer: *mut [u8; 368],
) -> usize {
    let text = crate::frames::respond_why(unsafe { part(input, input_len) });
    // Not into an array of 368: one of the faults answers at greater length.
    unsafe { answer.cast::<u8>().copy_from(text.as_ptr(), text.len()) };
    text.len()
}
