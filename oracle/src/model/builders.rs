//! `jtj`, `jtj_marquardt` and `jtr`.

use super::{Answer, refuse_if};
use crate::fit::PairSums;
use crate::linalg;
use crate::refusal::{MAX_COLS, MAX_ROWS, Refusal};

/// `jtj` or `jtj_marquardt`: the published one that is given.
pub fn jtj(
    published: PairSums,
    jac: &[f64],
    n_rows: usize,
    n_params: usize,
    lambda: f64,
    out: &mut [f64],
) -> Answer {
    refuse_if(n_params > MAX_COLS, Refusal::Columns)?;
    refuse_if(n_rows > MAX_ROWS, Refusal::Rows)?;
    refuse_if(jac.len() != n_rows * n_params, Refusal::Matrix)?;
    refuse_if(out.len() != n_params * n_params, Refusal::Output)?;
    out.copy_from_slice(&published(jac, n_rows, n_params, lambda));
    Ok(())
}

pub fn jtr(jac: &[f64], r: &[f64], n_rows: usize, n_params: usize, out: &mut [f64]) -> Answer {
    refuse_if(n_params > MAX_COLS, Refusal::Columns)?;
    refuse_if(n_rows > MAX_ROWS, Refusal::Rows)?;
    refuse_if(jac.len() != n_rows * n_params, Refusal::Matrix)?;
    refuse_if(r.len() != n_rows, Refusal::RightHandSide)?;
    refuse_if(out.len() != n_params, Refusal::Output)?;
    out.copy_from_slice(&linalg::jtr(jac, r, n_rows, n_params));
    Ok(())
}
