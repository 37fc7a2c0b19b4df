//! Root, magnitude, and the lengths of workspaces: calls without lent slices. A number's bits are the answer, so that
//! those of a NaN count too.

use crate::call::{Call, Function, number_label};
use crate::sizes;
use dapmotar::raw;
use oracle::generate::floats;
use oracle::model;
use oracle::problem::Solver;
use oracle::refusal::{MAX_COLS, MAX_ROWS};
use oracle::rng::Rng;

pub const SQRT: Function = Function {
    name: "sqrt",
    make: make_float,
    library: |call| raw::dapmotar_sqrt(call.floats[0]).to_bits(),
    model: |call| model::sqrt(call.floats[0]).to_bits(),
    alike: None,
    label: float_label,
};

pub const ABS: Function = Function {
    name: "abs",
    make: make_float,
    library: |call| raw::dapmotar_abs(call.floats[0]).to_bits(),
    model: |call| model::abs(call.floats[0]).to_bits(),
    alike: None,
    label: float_label,
};

pub const STRLSQ_WORKSPACE: Function = Function {
    name: "strlsq_workspace",
    make: make_sizes,
    library: |call| raw::dapmotar_strlsq_workspace(call.sizes[0], call.sizes[1]) as u64,
    model: |call| model::fit_workspace(Solver::Normal, call.sizes[0], call.sizes[1]) as u64,
    alike: None,
    label: length_label,
};

pub const STRLSQ_QR_WORKSPACE: Function = Function {
    name: "strlsq_qr_workspace",
    make: make_sizes,
    library: |call| raw::dapmotar_strlsq_qr_workspace(call.sizes[0], call.sizes[1]) as u64,
    model: |call| model::fit_workspace(Solver::Qr, call.sizes[0], call.sizes[1]) as u64,
    alike: None,
    label: length_label,
};

pub const STRLSQ_MARQUARDT_WORKSPACE: Function = Function {
    name: "strlsq_marquardt_workspace",
    library: |call| raw::dapmotar_strlsq_marquardt_workspace(call.sizes[0], call.sizes[1]) as u64,
    model: |call| model::fit_workspace(Solver::Marquardt, call.sizes[0], call.sizes[1]) as u64,
    ..STRLSQ_WORKSPACE
};

fn make_float(rng: &mut Rng) -> Call {
    let mut x = floats::any(rng);
    if rng.once_in(2) {
        x = x.abs();
    }
    Call {
        floats: vec![x],
        ..empty(vec![])
    }
}

fn make_sizes(rng: &mut Rng) -> Call {
    let size = |rng: &mut Rng, limit| {
        if rng.once_in(2) {
            rng.between(0, limit)
        } else {
            sizes::any(rng, limit)
        }
    };
    empty(vec![size(rng, MAX_ROWS), size(rng, MAX_COLS)])
}

fn empty(sizes: Vec<usize>) -> Call {
    Call {
        sizes,
        floats: vec![],
        reads: vec![],
        writes: vec![],
        workspace: None,
        report: [0; 4],
        column: [0],
    }
}

fn float_label(call: &Call, _: u64) -> String {
    let x = call.floats[0];
    let sign = if x.is_sign_negative() && !x.is_nan() {
        "-"
    } else {
        ""
    };
    format!("{sign}{:?}", x.classify())
}

fn length_label(call: &Call, answer: u64) -> String {
    let within = call.sizes[0] <= MAX_ROWS && call.sizes[1] <= MAX_COLS;
    match (within, answer) {
        (true, 0) => "none needed".into(),
        (true, _) => "a length".into(),
        (false, _) => number_label(call, answer) + ", beyond the limits",
    }
}
