//! `why`.

use super::fits::{fitted, limits_of_a_fit};
use super::refuse_if;
use crate::cause::Cause;
use crate::problem::{Code, Setup};
use crate::refusal::Refusal;
use crate::why::above_zero;

/// A fit by the solver and in the layout of this code, and the cause of one of its terms. An unknown code comes first, 12 directly after
/// 3, 13 after that.
#[allow(clippy::too_many_arguments)]
pub fn why(
    code: u64,
    theta: &[f64],
    n_rows: usize,
    n_cols: usize,
    target: &[f64],
    setup: Setup,
    term: usize,
    coeffs: &mut [f64],
    workspace: &mut [f64],
) -> Result<Cause, Refusal> {
    let code = Code::of_number(code).ok_or(Refusal::MalformedFrame)?;
    limits_of_a_fit(n_rows, n_cols, setup)?;
    above_zero(setup)?;
    refuse_if(term >= n_cols, Refusal::Term)?;
    let fit = fitted(
        code, theta, n_rows, n_cols, target, setup, coeffs, workspace,
    )?;
    Ok(fit.causes[term])
}
