//! Cholesky, LU, the normal equations and the inverse.

use super::number;
use crate::call::{Call, Function, number_label};
use crate::matrices;
use crate::sizes::{Plan, given, junk};
use crate::slice::Slice;
use dapmotar::raw;
use oracle::model;
use oracle::refusal::MAX_COLS;
use oracle::rng::Rng;

pub const CHOLESKY: Function = Function {
    name: "solve_spd_cholesky",
    make: make_in_place,
    library: |call| {
        in_place(call, |a, b, n, column| unsafe {
            raw::dapmotar_solve_spd_cholesky(a.ptr(), a.len(), b.ptr(), b.len(), n, column)
        })
    },
    model: |call| {
        in_place(call, |a, b, n, [column]| {
            number(model::solve_spd_cholesky(
                a.numbers_mut(),
                b.numbers_mut(),
                n,
                column,
            ))
        })
    },
    alike: None,
    label: number_label,
};

pub const LU: Function = Function {
    name: "solve_lu",
    make: make_in_place,
    library: |call| {
        in_place(call, |a, b, n, column| unsafe {
            raw::dapmotar_solve_lu(a.ptr(), a.len(), b.ptr(), b.len(), n, column)
        })
    },
    model: |call| {
        in_place(call, |a, b, n, [column]| {
            number(model::solve_lu(a.numbers_mut(), b.numbers_mut(), n, column))
        })
    },
    alike: None,
    label: number_label,
};

pub const NORMAL_EQUATIONS: Function = Function {
    name: "solve_normal_equations",
    make: make_normal_equations,
    library: library_normal_equations,
    model: |call| {
        let (workspace, _) = call.workspace.as_mut().expect("it has one");
        number(model::solve_normal_equations(
            call.reads[0].numbers(),
            call.writes[0].numbers_mut(),
            call.sizes[0],
            workspace.numbers_mut(),
            &mut call.column[0],
        ))
    },
    alike: None,
    label: number_label,
};

pub const INVERT: Function = Function {
    name: "invert_spd",
    make: make_invert,
    library: library_invert,
    model: |call| {
        let (workspace, _) = call.workspace.as_mut().expect("it has one");
        number(model::invert_spd(
            call.reads[0].numbers(),
            call.sizes[0],
            call.writes[0].numbers_mut(),
            workspace.numbers_mut(),
            &mut call.column[0],
        ))
    },
    alike: None,
    label: number_label,
};

/// A solve of the matrix and the right-hand side, both written.
fn in_place(
    call: &mut Call,
    solve: impl FnOnce(&mut Slice, &mut Slice, usize, &mut [u64; 1]) -> u64,
) -> u64 {
    let [a, b] = call.writes.as_mut_slice() else {
        unreachable!("two are written")
    };
    solve(a, b, call.sizes[0], &mut call.column)
}

/// A matrix of n by n, or of another length.
fn matrix(rng: &mut Rng, n: usize, len: usize) -> Vec<f64> {
    if n <= MAX_COLS && len == n * n {
        matrices::square(rng, n)
    } else {
        matrices::drawn(rng, len)
    }
}

/// Such a matrix and a right-hand side.
fn system(rng: &mut Rng, plan: Plan, n: usize) -> (Slice, Slice) {
    let a_len = plan.length(rng, n.checked_mul(n));
    let b_len = plan.length(rng, Some(n));
    let a = matrix(rng, n, a_len);
    let b = matrices::drawn(rng, b_len);
    (given(rng, "a", &a), given(rng, "b", &b))
}

fn make_in_place(rng: &mut Rng) -> Call {
    let plan = Plan::new(rng);
    let n = plan.size(rng, MAX_COLS);
    let (a, b) = system(rng, plan, n);
    Call {
        sizes: vec![n],
        floats: vec![],
        reads: vec![],
        writes: vec![a, b],
        workspace: None,
        report: [0; 4],
        column: [rng.word()],
    }
}

fn make_normal_equations(rng: &mut Rng) -> Call {
    let plan = Plan::new(rng);
    let n = plan.size(rng, MAX_COLS);
    let (a, b) = system(rng, plan, n);
    with_workspace(rng, plan, n, n.checked_mul(n), a, b)
}

/// The matrix is read, a slice is written, and so many numbers are needed.
fn with_workspace(
    rng: &mut Rng,
    plan: Plan,
    n: usize,
    needed: Option<usize>,
    read: Slice,
    written: Slice,
) -> Call {
    let workspace_len = plan.workspace(rng, needed);
    let workspace = junk(rng, "workspace", workspace_len);
    Call {
        sizes: vec![n],
        floats: vec![],
        reads: vec![read],
        writes: vec![written],
        workspace: Some((workspace, needed.unwrap_or(usize::MAX))),
        report: [0; 4],
        column: [rng.word()],
    }
}

fn library_normal_equations(call: &mut Call) -> u64 {
    let (a, b) = (&mut call.reads[0], &mut call.writes[0]);
    let (workspace, _) = call.workspace.as_mut().expect("it has one");
    unsafe {
        raw::dapmotar_solve_normal_equations(
            a.ptr(),
            a.len(),
            b.ptr(),
            b.len(),
            call.sizes[0],
            workspace.ptr(),
            workspace.len(),
            &mut call.column,
        )
    }
}

fn make_invert(rng: &mut Rng) -> Call {
    let plan = Plan::new(rng);
    let n = plan.size(rng, MAX_COLS);
    let cells = n.checked_mul(n);
    let a_len = plan.length(rng, cells);
    let out_len = plan.length(rng, cells);
    let a = matrix(rng, n, a_len);
    let (a, out) = (given(rng, "a", &a), junk(rng, "out", out_len));
    let needed = cells.and_then(|cells| cells.checked_add(n));
    with_workspace(rng, plan, n, needed, a, out)
}

fn library_invert(call: &mut Call) -> u64 {
    let (a, out) = (&mut call.reads[0], &mut call.writes[0]);
    let (workspace, _) = call.workspace.as_mut().expect("it has one");
    unsafe {
        raw::dapmotar_invert_spd(
            a.ptr(),
            a.len(),
            call.sizes[0],
            out.ptr(),
            out.len(),
            workspace.ptr(),
            workspace.len(),
            &mut call.column,
        )
    }
}
