//! `qr` and `solve_least_squares`.

use super::{Answer, clear, refuse_if};
use crate::columns;
use crate::linalg;
use crate::refusal::{MAX_COLS, MAX_QR_ROWS, Refusal};

pub fn qr(
    a: &[f64],
    m: usize,
    n: usize,
    data: &mut [f64],
    betas: &mut [f64],
    workspace: &mut [f64],
) -> Answer {
    refuse_if(n > MAX_COLS, Refusal::Columns)?;
    refuse_if(m > MAX_QR_ROWS, Refusal::Rows)?;
    refuse_if(a.len() != m * n, Refusal::Matrix)?;
    refuse_if(data.len() != m * n || betas.len() != n, Refusal::Output)?;
    refuse_if(m < n, Refusal::FewerRowsThanColumns)?;
    refuse_if(workspace.len() < m, Refusal::Workspace)?;
    let factors = linalg::qr(a, m, n).expect("the sizes were tested");
    data.copy_from_slice(&factors.data);
    betas.copy_from_slice(&factors.betas);
    clear(workspace, m);
    Ok(())
}

pub fn solve_least_squares(
    a: &[f64],
    b: &[f64],
    m: usize,
    n: usize,
    out: &mut [f64],
    workspace: &mut [f64],
    column: &mut u64,
) -> Answer {
    refuse_if(n > MAX_COLS, Refusal::Columns)?;
    refuse_if(m > MAX_QR_ROWS, Refusal::Rows)?;
    refuse_if(a.len() != m * n, Refusal::Matrix)?;
    refuse_if(b.len() != m, Refusal::RightHandSide)?;
    refuse_if(out.len() != n, Refusal::Output)?;
    refuse_if(m < n, Refusal::FewerRowsThanColumns)?;
    let needed = m * n + 2 * m + 2 * n;
    refuse_if(workspace.len() < needed, Refusal::Workspace)?;
    let solved = linalg::solve_least_squares(a, b, m, n);
    clear(workspace, needed);
    let Ok(x) = solved else {
        *column = columns::of_least(a, m, n) as u64;
        return Err(Refusal::SmallPivot);
    };
    out.copy_from_slice(&x);
    Ok(())
}
