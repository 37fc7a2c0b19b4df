//! `jtj`, `jtj_marquardt` and `jtr`.

use super::{FIT_SIZE as SIZE, number};
use crate::call::{Call, Function, number_label};
use crate::matrices;
use crate::sizes::{Plan, given, junk, rows_by_pages};
use dapmotar::raw;
use oracle::fit::PairSums;
use oracle::generate::{setups, special_kinds};
use oracle::linalg;
use oracle::model;
use oracle::refusal::{MAX_COLS, MAX_ROWS};
use oracle::rng::Rng;

pub const JTJ: Function = Function {
    name: "jtj",
    make: make_jtj,
    library: |call| library_jtj(call, raw::dapmotar_jtj),
    model: |call| model_jtj(call, linalg::jtj),
    alike: None,
    label: number_label,
};

pub const JTJ_MARQUARDT: Function = Function {
    name: "jtj_marquardt",
    make: make_marquardt,
    library: |call| library_jtj(call, raw::dapmotar_jtj_marquardt),
    model: |call| model_jtj(call, linalg::jtj_marquardt),
    ..JTJ
};

/// Calls of `jtj` at every column count and at the rows where a walk by pages may go wrong.
pub const JTJ_PAGES: Function = Function {
    name: "jtj_pages",
    make: |rng| {
        let sizes = [rows_by_pages(rng), rng.between(0, MAX_COLS)];
        jtj_of(rng, Plan::RIGHT, sizes)
    },
    ..JTJ
};

pub const JTR: Function = Function {
    name: "jtr",
    make: make_jtr,
    library: library_jtr,
    model: |call| {
        let (jac, r) = (call.reads[0].numbers(), call.reads[1].numbers());
        number(model::jtr(
            jac,
            r,
            call.sizes[0],
            call.sizes[1],
            call.writes[0].numbers_mut(),
        ))
    },
    alike: None,
    label: number_label,
};

fn make_jtj(rng: &mut Rng) -> Call {
    let plan = Plan::new(rng);
    let sizes = [plan.size(rng, MAX_ROWS), plan.size(rng, MAX_COLS)];
    jtj_of(rng, plan, sizes)
}

fn jtj_of(rng: &mut Rng, plan: Plan, [rows, cols]: [usize; 2]) -> Call {
    let jac_len = plan.length(rng, rows.checked_mul(cols));
    let out_len = plan.length(rng, cols.checked_mul(cols));
    let jac = matrices::drawn(rng, jac_len);
    let lambda = setups::odd_lambda(rng);
    jtj_call(rng, [rows, cols], lambda, &jac, out_len)
}

fn jtj_call(rng: &mut Rng, sizes: [usize; 2], lambda: f64, jac: &[f64], out_len: usize) -> Call {
    Call {
        sizes: sizes.to_vec(),
        floats: vec![lambda],
        reads: vec![given(rng, "jac", jac)],
        writes: vec![junk(rng, "out", out_len)],
        workspace: None,
        report: [0; 4],
        column: [0],
    }
}

/// As for `jtj`, or with columns whose sums stand about 2^-52.
fn make_marquardt(rng: &mut Rng) -> Call {
    if !rng.once_in(4) {
        return make_jtj(rng);
    }
    let p = special_kinds::at_damping(rng, SIZE);
    let sizes = [p.rows, p.cols];
    jtj_call(rng, sizes, p.setup.lambda, &p.theta, p.cols * p.cols)
}

fn make_jtr(rng: &mut Rng) -> Call {
    let plan = Plan::new(rng);
    let (rows, cols) = (plan.size(rng, MAX_ROWS), plan.size(rng, MAX_COLS));
    let jac_len = plan.length(rng, rows.checked_mul(cols));
    let r_len = plan.length(rng, Some(rows));
    let out_len = plan.length(rng, Some(cols));
    let (jac, r) = (matrices::drawn(rng, jac_len), matrices::drawn(rng, r_len));
    Call {
        sizes: vec![rows, cols],
        floats: vec![],
        reads: vec![given(rng, "jac", &jac), given(rng, "r", &r)],
        writes: vec![junk(rng, "out", out_len)],
        workspace: None,
        report: [0; 4],
        column: [0],
    }
}

fn library_jtj(call: &mut Call, export: raw::Jtj) -> u64 {
    let (jac, out) = (&mut call.reads[0], &mut call.writes[0]);
    unsafe {
        export(
            jac.ptr(),
            jac.len(),
            call.sizes[0],
            call.sizes[1],
            call.floats[0],
            out.ptr(),
            out.len(),
        )
    }
}

fn model_jtj(call: &mut Call, published: PairSums) -> u64 {
    let (jac, out) = (call.reads[0].numbers(), call.writes[0].numbers_mut());
    number(model::jtj(
        published,
        jac,
        call.sizes[0],
        call.sizes[1],
        call.floats[0],
        out,
    ))
}

fn library_jtr(call: &mut Call) -> u64 {
    let [jac, r] = call.reads.as_mut_slice() else {
        unreachable!("two are read")
    };
    let out = &mut call.writes[0];
    unsafe {
        raw::dapmotar_jtr(
            jac.ptr(),
            jac.len(),
            r.ptr(),
            r.len(),
            call.sizes[0],
            call.sizes[1],
            out.ptr(),
            out.len(),
        )
    }
}
