//! The solvers of square systems, and the inverse.

use super::{Answer, clear, refuse_if};
use crate::bits::quiet;
use crate::columns;
use crate::error::EmlError;
use crate::linalg;
use crate::refusal::{MAX_COLS, Refusal};

fn sizes(a: &[f64], b: &[f64], n: usize) -> Answer {
    refuse_if(n > MAX_COLS, Refusal::Columns)?;
    refuse_if(a.len() != n * n, Refusal::Matrix)?;
    refuse_if(b.len() != n, Refusal::RightHandSide)
}

pub fn solve_spd_cholesky(a: &mut [f64], b: &mut [f64], n: usize, column: &mut u64) -> Answer {
    sizes(a, b, n)?;
    let matrix = quiet(a);
    a.copy_from_slice(&matrix);
    let answer = numbered(linalg::solve_spd_cholesky(a, b, n));
    if answer.is_err() {
        *column = columns::cholesky(&matrix, a, n) as u64;
    }
    answer
}

pub fn solve_lu(a: &mut [f64], b: &mut [f64], n: usize, column: &mut u64) -> Answer {
    sizes(a, b, n)?;
    let answer = numbered(linalg::solve_lu(a, b, n));
    if answer.is_err() {
        *column = columns::lu(a, n) as u64;
    }
    answer
}

pub fn solve_normal_equations(
    a: &[f64],
    b: &mut [f64],
    n: usize,
    workspace: &mut [f64],
    column: &mut u64,
) -> Answer {
    sizes(a, b, n)?;
    refuse_if(workspace.len() < n * n, Refusal::Workspace)?;
    let answer = numbered(linalg::solve_normal_equations(&quiet(a), b, n));
    clear(workspace, n * n);
    if answer.is_err() {
        *column = columns::of_lu(a.to_vec(), n) as u64;
    }
    answer
}

pub fn invert_spd(
    a: &[f64],
    n: usize,
    out: &mut [f64],
    workspace: &mut [f64],
    column: &mut u64,
) -> Answer {
    refuse_if(n > MAX_COLS, Refusal::Columns)?;
    refuse_if(a.len() != n * n, Refusal::Matrix)?;
    refuse_if(out.len() != n * n, Refusal::Output)?;
    refuse_if(workspace.len() < n * n + n, Refusal::Workspace)?;
    let matrix = quiet(a);
    let inverted = linalg::invert_spd(&matrix, n);
    clear(workspace, n * n + n);
    let answer = numbered(inverted.map(|inverse| out.copy_from_slice(&inverse)));
    if answer.is_err() {
        *column = columns::of_cholesky(&matrix, n) as u64;
    }
    answer
}

/// The published solvers' refusals by their numbers.
fn numbered(answer: Result<(), EmlError>) -> Answer {
    match answer {
        Ok(()) => Ok(()),
        Err(EmlError::NotSpd) => Err(Refusal::Cholesky),
        Err(EmlError::SingularMatrix) => Err(Refusal::SmallPivot),
        Err(other) => unreachable!("a square solver gave {other}"),
    }
}

#[cfg(test)]
mod tests {
    use super::*;

    /// The second diagonal entry is a signalling NaN. Document 01 passes it over, so the scale is 1 and the first column is
    /// refused; where the machine's `max` hands it on, the published function's scale is a NaN that refuses nothing.
    #[test]
    fn a_signalling_nan_is_passed_over() {
        let matrix = [0.0, 0.0, 0.0, f64::from_bits(0x7ff0_0000_0000_0001)];
        let (mut a, mut b) = (matrix, [1.0, 1.0]);
        assert_eq!(
            solve_spd_cholesky(&mut a, &mut b, 2, &mut 0),
            Err(Refusal::Cholesky)
        );
        let (mut a, mut b) = (matrix, [1.0, 1.0]);
        let published = linalg::solve_spd_cholesky(&mut a, &mut b, 2);
        assert_eq!(published.is_ok(), cfg!(target_arch = "aarch64"));
    }
}
