//! `qr` and `solve_least_squares`.

use super::number;
use crate::call::{Call, Function, number_label};
use crate::matrices;
use crate::sizes::{Plan, given, junk};
use crate::slice::Slice;
use dapmotar::raw;
use oracle::model;
use oracle::refusal::{MAX_COLS, MAX_QR_ROWS};
use oracle::rng::Rng;

pub const QR: Function = Function {
    name: "qr",
    make: make_qr,
    library: library_qr,
    model: |call| {
        let [data, betas] = call.writes.as_mut_slice() else {
            unreachable!("two are written")
        };
        let (workspace, _) = call.workspace.as_mut().expect("it has one");
        number(model::qr(
            call.reads[0].numbers(),
            call.sizes[0],
            call.sizes[1],
            data.numbers_mut(),
            betas.numbers_mut(),
            workspace.numbers_mut(),
        ))
    },
    alike: None,
    label: number_label,
};

pub const LEAST_SQUARES: Function = Function {
    name: "solve_least_squares",
    make: make_least_squares,
    library: library_least_squares,
    model: |call| {
        let (workspace, _) = call.workspace.as_mut().expect("it has one");
        number(model::solve_least_squares(
            call.reads[0].numbers(),
            call.reads[1].numbers(),
            call.sizes[0],
            call.sizes[1],
            call.writes[0].numbers_mut(),
            workspace.numbers_mut(),
            &mut call.column[0],
        ))
    },
    alike: None,
    label: number_label,
};

/// Rows and columns, with at least as many rows in the calls that are right.
fn shape(rng: &mut Rng, plan: Plan) -> (usize, usize) {
    let (m, n) = (plan.size(rng, MAX_QR_ROWS), plan.size(rng, MAX_COLS));
    let more = rng.between(0, 3);
    if plan.is_right() && m < n {
        (n + more, n)
    } else {
        (m, n)
    }
}

/// A matrix of m by n, or of another length.
fn matrix(rng: &mut Rng, plan: Plan, m: usize, n: usize) -> Slice {
    let len = plan.length(rng, m.checked_mul(n));
    let fits = m.checked_mul(n) == Some(len);
    let a = if fits {
        matrices::tall(rng, m, n)
    } else {
        matrices::drawn(rng, len)
    };
    given(rng, "a", &a)
}

fn make_qr(rng: &mut Rng) -> Call {
    let plan = Plan::new(rng);
    let (m, n) = shape(rng, plan);
    let a = matrix(rng, plan, m, n);
    let data_len = plan.length(rng, m.checked_mul(n));
    let betas_len = plan.length(rng, Some(n));
    let workspace_len = plan.workspace(rng, Some(m));
    Call {
        sizes: vec![m, n],
        floats: vec![],
        reads: vec![a],
        writes: vec![junk(rng, "data", data_len), junk(rng, "betas", betas_len)],
        workspace: Some((junk(rng, "workspace", workspace_len), m)),
        report: [0; 4],
        column: [0],
    }
}

fn make_least_squares(rng: &mut Rng) -> Call {
    let plan = Plan::new(rng);
    let (m, n) = shape(rng, plan);
    let a = matrix(rng, plan, m, n);
    let b_len = plan.length(rng, Some(m));
    let b = matrices::drawn(rng, b_len);
    let out_len = plan.length(rng, Some(n));
    let needed = m
        .checked_mul(n)
        .and_then(|p| p.checked_add(m.checked_mul(2)?))
        .and_then(|s| s.checked_add(n.checked_mul(2)?));
    let workspace_len = plan.workspace(rng, needed);
    Call {
        sizes: vec![m, n],
        floats: vec![],
        reads: vec![a, given(rng, "b", &b)],
        writes: vec![junk(rng, "out", out_len)],
        workspace: Some((
            junk(rng, "workspace", workspace_len),
            needed.unwrap_or(usize::MAX),
        )),
        report: [0; 4],
        column: [rng.word()],
    }
}

fn library_qr(call: &mut Call) -> u64 {
    let a = &mut call.reads[0];
    let [data, betas] = call.writes.as_mut_slice() else {
        unreachable!("two are written")
    };
    let (workspace, _) = call.workspace.as_mut().expect("it has one");
    unsafe {
        raw::dapmotar_qr(
            a.ptr(),
            a.len(),
            call.sizes[0],
            call.sizes[1],
            data.ptr(),
            data.len(),
            betas.ptr(),
            betas.len(),
            workspace.ptr(),
            workspace.len(),
        )
    }
}

fn library_least_squares(call: &mut Call) -> u64 {
    let [a, b] = call.reads.as_mut_slice() else {
        unreachable!("two are read")
    };
    let out = &mut call.writes[0];
    let (workspace, _) = call.workspace.as_mut().expect("it has one");
    unsafe {
        raw::dapmotar_solve_least_squares(
            a.ptr(),
            a.len(),
            b.ptr(),
            b.len(),
            call.sizes[0],
            call.sizes[1],
            out.ptr(),
            out.len(),
            workspace.ptr(),
            workspace.len(),
            &mut call.column,
        )
    }
}
