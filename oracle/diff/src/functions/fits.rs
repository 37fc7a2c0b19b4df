//! The fits.

use crate::call::{Call, Function};
use crate::matrices;
use crate::sizes::{Plan, given, junk, rows_by_pages};
use dapmotar::raw;
use oracle::fit::Stop;
use oracle::generate::kinds::{self, Size};
use oracle::generate::{setups, special_kinds};
use oracle::model;
use oracle::problem::{Code, Layout, Problem, Setup, Solver, transposed};
use oracle::refusal::{MAX_COLS, MAX_ROUNDS, MAX_ROWS};
use oracle::rng::Rng;

const fn by_rows(solver: Solver) -> Code {
    let layout = Layout::ByRows;
    Code { solver, layout }
}

const fn by_columns(solver: Solver) -> Code {
    let layout = Layout::ByColumns;
    Code { solver, layout }
}

const NORMAL: Code = by_rows(Solver::Normal);
const QR: Code = by_rows(Solver::Qr);
const MARQUARDT: Code = by_rows(Solver::Marquardt);
const NORMAL_BY_COLUMNS: Code = by_columns(Solver::Normal);
const QR_BY_COLUMNS: Code = by_columns(Solver::Qr);
const MARQUARDT_BY_COLUMNS: Code = by_columns(Solver::Marquardt);

pub const STRLSQ: Function = Function {
    name: "strlsq",
    make: |rng| make(rng, NORMAL),
    library: |call| library(call, raw::dapmotar_strlsq),
    model: |call| run_model(call, NORMAL),
    alike: None,
    label,
};

pub const STRLSQ_QR: Function = Function {
    name: "strlsq_qr",
    make: |rng| make(rng, QR),
    library: |call| library(call, raw::dapmotar_strlsq_qr),
    model: |call| run_model(call, QR),
    alike: None,
    label,
};

pub const STRLSQ_MARQUARDT: Function = Function {
    name: "strlsq_marquardt",
    make: |rng| make(rng, MARQUARDT),
    library: |call| library(call, raw::dapmotar_strlsq_marquardt),
    model: |call| run_model(call, MARQUARDT),
    ..STRLSQ
};

/// Calls of `strlsq` that mostly refit several times.
pub const STRLSQ_REFITS: Function = Function {
    name: "strlsq_refits",
    make: |rng| several_refits(rng, NORMAL),
    ..STRLSQ
};

/// Calls of `strlsq` at every column count and at the rows where a walk by pages may go wrong.
pub const STRLSQ_PAGES: Function = Function {
    name: "strlsq_pages",
    make: |rng| by_pages(rng, NORMAL),
    ..STRLSQ
};

/// Calls of `strlsq_marquardt` that do.
pub const MARQUARDT_REFITS: Function = Function {
    name: "marquardt_refits",
    make: |rng| several_refits(rng, MARQUARDT),
    ..STRLSQ_MARQUARDT
};

/// By columns: against the model, and against the call by rows on the transpose.
pub const STRLSQ_BY_COLUMNS: Function = Function {
    name: "strlsq_by_columns",
    make: |rng| make(rng, NORMAL_BY_COLUMNS),
    library: |call| library(call, raw::dapmotar_strlsq_by_columns),
    model: |call| run_model(call, NORMAL_BY_COLUMNS),
    alike: Some(|call| on_transpose(call, raw::dapmotar_strlsq)),
    label,
};

pub const STRLSQ_QR_BY_COLUMNS: Function = Function {
    name: "strlsq_qr_by_columns",
    make: |rng| make(rng, QR_BY_COLUMNS),
    library: |call| library(call, raw::dapmotar_strlsq_qr_by_columns),
    model: |call| run_model(call, QR_BY_COLUMNS),
    alike: Some(|call| on_transpose(call, raw::dapmotar_strlsq_qr)),
    label,
};

pub const STRLSQ_MARQUARDT_BY_COLUMNS: Function = Function {
    name: "strlsq_marquardt_by_columns",
    make: |rng| make(rng, MARQUARDT_BY_COLUMNS),
    library: |call| library(call, raw::dapmotar_strlsq_marquardt_by_columns),
    model: |call| run_model(call, MARQUARDT_BY_COLUMNS),
    alike: Some(|call| on_transpose(call, raw::dapmotar_strlsq_marquardt)),
    label,
};

/// Calls by columns at the sizes of a walk by pages, and by QR with several refits.
pub const STRLSQ_BY_COLUMNS_PAGES: Function = Function {
    name: "strlsq_by_columns_pages",
    make: |rng| by_pages(rng, NORMAL_BY_COLUMNS),
    ..STRLSQ_BY_COLUMNS
};

pub const QR_BY_COLUMNS_REFITS: Function = Function {
    name: "qr_by_columns_refits",
    make: |rng| several_refits(rng, QR_BY_COLUMNS),
    ..STRLSQ_QR_BY_COLUMNS
};

/// The most that a fit takes.
pub const SIZE: Size = Size {
    rows: MAX_ROWS,
    cols: MAX_COLS,
};

fn make(rng: &mut Rng, code: Code) -> Call {
    let plan = Plan::new(rng);
    let call = if plan.is_right() {
        right(rng, plan, code)
    } else {
        any(rng, plan, code.solver)
    };
    with_error(rng, call)
}

/// The error's place, behind the coefficients.
fn with_error(rng: &mut Rng, mut call: Call) -> Call {
    call.writes.push(junk(rng, "error", 1));
    call
}

/// A problem of exact lengths; the workspace may be short.
fn right(rng: &mut Rng, plan: Plan, code: Code) -> Call {
    // Some kinds are built for one solver.
    let problem = loop {
        let (_, mut problem) = kinds::any(rng, SIZE);
        if problem.solver == code.solver || rng.once_in(8) {
            problem.solver = code.solver;
            break problem;
        }
    };
    of(rng, plan, code, problem)
}

/// Terms that fall in turn, and rounds for some of them.
fn several_refits(rng: &mut Rng, code: Code) -> Call {
    let problem = loop {
        let problem = special_kinds::falling(rng, SIZE);
        if problem.cols > 2 && problem.setup.max_iter > 1 {
            break problem;
        }
    };
    let call = of(rng, Plan::RIGHT, code, problem);
    with_error(rng, call)
}

/// Every column count, and the rows where a walk by pages may go wrong.
fn by_pages(rng: &mut Rng, code: Code) -> Call {
    let (rows, cols) = (rows_by_pages(rng), rng.between(0, MAX_COLS));
    let problem = kinds::sparse(rng, rows, cols);
    let call = of(rng, Plan::RIGHT, code, problem);
    with_error(rng, call)
}

/// The call of a problem in a layout, without the error's place; the workspace may be short.
pub fn of(rng: &mut Rng, plan: Plan, code: Code, mut problem: Problem) -> Call {
    let sizes = [problem.rows, problem.cols];
    if code.layout == Layout::ByColumns {
        problem.theta = transposed(&problem.theta, problem.rows, problem.cols);
    }
    call(
        rng,
        plan,
        code.solver,
        sizes,
        problem.setup,
        &problem.theta,
        &problem.target,
        problem.cols,
    )
}

/// Any sizes, lengths and limits, without the error's place.
pub fn any(rng: &mut Rng, plan: Plan, solver: Solver) -> Call {
    let (rows, cols) = (plan.size(rng, MAX_ROWS), plan.size(rng, MAX_COLS));
    let theta_len = plan.length(rng, rows.checked_mul(cols));
    let target_len = plan.length(rng, Some(rows));
    let coeffs_len = plan.length(rng, Some(cols));
    let mut setup = setups::odd(rng);
    // Many rounds only where there is little to do in each.
    setup.max_iter = plan.size(rng, MAX_ROUNDS);
    let (theta, target) = (
        matrices::drawn(rng, theta_len),
        matrices::drawn(rng, target_len),
    );
    call(
        rng,
        plan,
        solver,
        [rows, cols],
        setup,
        &theta,
        &target,
        coeffs_len,
    )
}

#[allow(clippy::too_many_arguments)]
fn call(
    rng: &mut Rng,
    plan: Plan,
    solver: Solver,
    [rows, cols]: [usize; 2],
    setup: Setup,
    theta: &[f64],
    target: &[f64],
    coeffs_len: usize,
) -> Call {
    let needed = model::fit_workspace(solver, rows, cols);
    let workspace_len = plan.workspace(rng, Some(needed));
    Call {
        sizes: vec![rows, cols, setup.max_iter],
        floats: vec![setup.threshold, setup.lambda],
        reads: vec![given(rng, "theta", theta), given(rng, "target", target)],
        writes: vec![junk(rng, "coeffs", coeffs_len)],
        workspace: Some((junk(rng, "workspace", workspace_len), needed)),
        report: [rng.word(), rng.word(), rng.word(), rng.word()],
        column: [0],
    }
}

fn library(call: &mut Call, export: raw::Fit) -> u64 {
    let [theta, target] = call.reads.as_mut_slice() else {
        unreachable!("two are read")
    };
    let [coeffs, error] = call.writes.as_mut_slice() else {
        unreachable!("two are written")
    };
    let (workspace, _) = call.workspace.as_mut().expect("it has one");
    unsafe {
        export(
            theta.ptr(),
            theta.len(),
            call.sizes[0],
            call.sizes[1],
            target.ptr(),
            target.len(),
            call.floats[0],
            call.floats[1],
            call.sizes[2],
            coeffs.ptr(),
            coeffs.len(),
            workspace.ptr(),
            workspace.len(),
            &mut call.report,
            error.ptr().cast(),
        )
    }
}

/// The call by rows on the transpose.
fn on_transpose(call: &mut Call, by_rows: raw::Fit) -> u64 {
    transpose(call);
    library(call, by_rows)
}

/// Theta by rows where it stood by columns; one of the wrong length, which is refused, stays, and an empty one, which
/// may have any count of rows.
pub fn transpose(call: &mut Call) {
    let (rows, cols) = (call.sizes[0], call.sizes[1]);
    let theta = call.reads[0].numbers_mut();
    if !theta.is_empty() && rows.checked_mul(cols) == Some(theta.len()) {
        let by_rows = transposed(theta, cols, rows);
        theta.copy_from_slice(&by_rows);
    }
}

/// The setup of a call.
pub fn setup(call: &Call) -> Setup {
    Setup {
        threshold: call.floats[0],
        lambda: call.floats[1],
        max_iter: call.sizes[2],
    }
}

fn run_model(call: &mut Call, code: Code) -> u64 {
    let setup = setup(call);
    let (workspace, _) = call.workspace.as_mut().expect("it has one");
    let answer = model::fit(
        code,
        call.reads[0].numbers(),
        call.sizes[0],
        call.sizes[1],
        call.reads[1].numbers(),
        setup,
        call.writes[0].numbers_mut(),
        workspace.numbers_mut(),
    );
    match answer {
        Ok(report) => {
            call.report = [report.stop.code(), report.refits, report.kept, report.term];
            call.writes[1].numbers_mut()[0] = report.error;
            0
        }
        Err(refusal) => refusal.number(),
    }
}

/// The refusal's number, or the stop, and whether it took more than one refit.
fn label(call: &Call, answer: u64) -> String {
    if answer != 0 {
        return answer.to_string();
    }
    let stop = Stop::ALL
        .into_iter()
        .find(|stop| stop.code() == call.report[0]);
    let several = if call.report[1] > 1 {
        ", several refits"
    } else {
        ""
    };
    stop.map_or("0".into(), |stop| format!("0 {stop:?}{several}"))
}
