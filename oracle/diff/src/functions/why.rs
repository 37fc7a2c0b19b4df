//! `why`: a fit with the cause of one of its terms.

use super::fits;
use crate::call::{Call, Function};
use crate::sizes::{Plan, huge, junk};
use dapmotar::raw;
use oracle::exchange::cause_label;
use oracle::generate::{kinds, why_kinds};
use oracle::model;
use oracle::problem::{Code, Layout};
use oracle::rng::Rng;

/// A fit's call, with the term and the code behind its sizes, the value behind its outputs, and the cause at the head of
/// its report: what stands behind that must stay.
pub const WHY: Function = Function {
    name: "why",
    make: |rng| make(rng, Layout::ByRows),
    library,
    model: run_model,
    alike: None,
    label,
};

/// The same by columns: against the model, and against the call by rows on the transpose.
pub const WHY_BY_COLUMNS: Function = Function {
    name: "why_by_columns",
    make: |rng| make(rng, Layout::ByColumns),
    alike: Some(|call| {
        fits::transpose(call);
        if Code::of_number(call.sizes[4] as u64).is_some() {
            call.sizes[4] -= 0x10;
        }
        library(call)
    }),
    ..WHY
};

fn make(rng: &mut Rng, layout: Layout) -> Call {
    let plan = Plan::new(rng);
    let (code, mut call) = if plan.is_right() {
        let (_, problem) = why_kinds::any(rng, fits::SIZE);
        let code = Code {
            layout,
            ..problem.code()
        };
        (code, fits::of(rng, plan, code, problem))
    } else {
        let solver = kinds::solver(rng);
        (Code { solver, layout }, fits::any(rng, plan, solver))
    };
    let term = term(rng, plan, call.sizes[1]);
    call.sizes.extend([term, number(rng, code)]);
    call.writes.push(junk(rng, "value", 1));
    call
}

/// A term: any column, the last one, or none.
fn term(rng: &mut Rng, plan: Plan, cols: usize) -> usize {
    let beyond = if plan.is_right() { 20 } else { 4 };
    if cols == 0 || rng.once_in(beyond) {
        return match rng.below(4) {
            0 => cols.saturating_add(1),
            1 => huge(rng),
            _ => cols,
        };
    }
    if rng.once_in(4) {
        cols - 1
    } else {
        rng.below(cols)
    }
}

/// The code's number, or one that none has.
fn number(rng: &mut Rng, code: Code) -> usize {
    let number = usize::from(code.number());
    if rng.once_in(20) {
        rng.pick(&[
            0,
            4,
            0x0b,
            0x10,
            0x14,
            0x21,
            0xff,
            number + (1 << 8),
            number + (1 << 32),
            usize::MAX,
        ])
    } else {
        number
    }
}

fn library(call: &mut Call) -> u64 {
    let [rows, cols, max_iter, term, code] = sizes(call);
    let [theta, target] = call.reads.as_mut_slice() else {
        unreachable!("two are read")
    };
    let [coeffs, value] = call.writes.as_mut_slice() else {
        unreachable!("two are written")
    };
    let (workspace, _) = call.workspace.as_mut().expect("it has one");
    let cause = call.report.first_chunk_mut().expect("it is longer");
    unsafe {
        raw::dapmotar_why(
            code as u64,
            theta.ptr(),
            theta.len(),
            rows,
            cols,
            target.ptr(),
            target.len(),
            call.floats[0],
            call.floats[1],
            max_iter,
            term,
            coeffs.ptr(),
            coeffs.len(),
            workspace.ptr(),
            workspace.len(),
            cause,
            value.ptr().cast(),
        )
    }
}

fn sizes(call: &Call) -> [usize; 5] {
    let sizes = call.sizes.as_slice();
    sizes.try_into().expect("a fit's three, a term and a code")
}

fn run_model(call: &mut Call) -> u64 {
    let [rows, cols, _, term, code] = sizes(call);
    let setup = fits::setup(call);
    let (workspace, _) = call.workspace.as_mut().expect("it has one");
    let answer = model::why(
        code as u64,
        call.reads[0].numbers(),
        rows,
        cols,
        call.reads[1].numbers(),
        setup,
        term,
        call.writes[0].numbers_mut(),
        workspace.numbers_mut(),
    );
    match answer {
        Ok(cause) => {
            call.report[..2].copy_from_slice(&[cause.code(), cause.refit()]);
            call.writes[1].numbers_mut()[0] = cause.value();
            0
        }
        Err(refusal) => refusal.number(),
    }
}

/// The refusal's number, or the solver and the cause, and whether it came at a refit after the first.
fn label(call: &Call, answer: u64) -> String {
    if answer != 0 {
        return answer.to_string();
    }
    let [.., code] = sizes(call);
    let code = Code::of_number(code as u64).expect("it is accepted");
    let later = if call.report[1] > 1 { ", later" } else { "" };
    format!("0 {}{later}", cause_label(code, call.report[0]))
}
