//! The fits and the workspaces that they need.

use super::{Answer, clear, refuse_if};
use crate::fit::{self, Fit, Report};
use crate::problem::{Code, Layout, Problem, Setup, Solver, transposed};
use crate::refusal::{MAX_COLS, MAX_ROUNDS, MAX_ROWS, Refusal};

/// The numbers of workspace that a fit needs, 0 beyond the limits.
pub fn fit_workspace(solver: Solver, n_rows: usize, n_cols: usize) -> usize {
    workspace_of(solver, n_rows, n_cols).unwrap_or(0)
}

fn workspace_of(solver: Solver, r: usize, c: usize) -> Option<usize> {
    limits(r, c).ok()?;
    Some(match solver {
        Solver::Normal | Solver::Marquardt => 3 * c * c + 2 * c,
        Solver::Qr => 2 * (r + c) * c + 3 * (r + c) + 3 * c,
    })
}

fn limits(n_rows: usize, n_cols: usize) -> Answer {
    refuse_if(n_cols > MAX_COLS, Refusal::Columns)?;
    refuse_if(n_rows > MAX_ROWS, Refusal::Rows)
}

/// `strlsq`, `strlsq_qr` or `strlsq_marquardt`, by rows or by columns.
#[allow(clippy::too_many_arguments)]
pub fn fit(
    code: Code,
    theta: &[f64],
    n_rows: usize,
    n_cols: usize,
    target: &[f64],
    setup: Setup,
    coeffs: &mut [f64],
    workspace: &mut [f64],
) -> Result<Report, Refusal> {
    limits_of_a_fit(n_rows, n_cols, setup)?;
    let fit = fitted(
        code, theta, n_rows, n_cols, target, setup, coeffs, workspace,
    )?;
    Ok(fit.report)
}

/// 1, 2 and 3.
pub fn limits_of_a_fit(n_rows: usize, n_cols: usize, setup: Setup) -> Answer {
    limits(n_rows, n_cols)?;
    refuse_if(setup.max_iter > MAX_ROUNDS, Refusal::Rounds)
}

/// The fit within the limits, or a refusal from 4 on. The published functions read by rows: a theta by columns is
/// transposed for them.
#[allow(clippy::too_many_arguments)]
pub fn fitted(
    Code { solver, layout }: Code,
    theta: &[f64],
    n_rows: usize,
    n_cols: usize,
    target: &[f64],
    setup: Setup,
    coeffs: &mut [f64],
    workspace: &mut [f64],
) -> Result<Fit, Refusal> {
    refuse_if(theta.len() != n_rows * n_cols, Refusal::Matrix)?;
    refuse_if(target.len() != n_rows, Refusal::RightHandSide)?;
    refuse_if(coeffs.len() != n_cols, Refusal::Output)?;
    let needed = workspace_of(solver, n_rows, n_cols).expect("the limits were tested");
    refuse_if(workspace.len() < needed, Refusal::Workspace)?;
    let problem = Problem {
        solver,
        layout,
        rows: n_rows,
        cols: n_cols,
        setup,
        theta: match layout {
            Layout::ByRows => theta.to_vec(),
            Layout::ByColumns => transposed(theta, n_cols, n_rows),
        },
        target: target.to_vec(),
    };
    let fit = fit::fit(&problem);
    coeffs.copy_from_slice(&fit.coeffs);
    clear(workspace, needed);
    Ok(fit)
}
