//! The column at which a published solver refused. Its error doesn't say; what it left does.

use crate::linalg;

/// Cholesky's: the first column whose diagonal, less the squares of the factor in its row, is at most the bound. `left` is
/// what the published function left of `a`: the factor in the columns before the refused one.
pub fn cholesky(a: &[f64], left: &[f64], n: usize) -> usize {
    let scale = (0..n).map(|k| a[k * n + k].abs()).fold(1.0, f64::max);
    let reduced = |j: usize| {
        let row = &left[j * n..];
        (0..j).fold(a[j * n + j], |sum, k| sum - row[k] * row[k])
    };
    (0..n)
        .find(|&j| reduced(j) <= 1e-14 * scale)
        .expect("Cholesky refused")
}

/// Cholesky's, of a matrix that the inverse refused.
pub fn of_cholesky(a: &[f64], n: usize) -> usize {
    let mut left = a.to_vec();
    let refused = linalg::solve_spd_cholesky(&mut left, &mut vec![0.0; n], n);
    assert!(refused.is_err(), "Cholesky refused");
    cholesky(a, &left, n)
}

/// LU's: the first small number on the diagonal of what it left. Those before it are pivots that it took.
pub fn lu(left: &[f64], n: usize) -> usize {
    small(left, n).next().expect("LU refused")
}

/// Back substitution's: the last small number on the diagonal, which it meets first.
pub fn back(data: &[f64], n: usize) -> usize {
    small(data, n)
        .next_back()
        .expect("back substitution refused")
}

/// LU's, of a matrix that the normal equations refused.
pub fn of_lu(mut a: Vec<f64>, n: usize) -> usize {
    let refused = linalg::solve_lu(&mut a, &mut vec![0.0; n], n);
    assert!(refused.is_err(), "LU refused");
    lu(&a, n)
}

/// Back substitution's, of a matrix that least squares refused.
pub fn of_least(a: &[f64], m: usize, n: usize) -> usize {
    back(&linalg::qr(a, m, n).expect("the sizes are right").data, n)
}

fn small(matrix: &[f64], n: usize) -> impl DoubleEndedIterator<Item = usize> {
    (0..n).filter(move |&j| matrix[j * n + j].abs() < 1e-15)
}

#[cfg(test)]
mod tests {
    use super::*;
    use crate::linalg::{qr, solve_lu, solve_spd_cholesky};

    /// Two ports in series, the second 2^25 times the first.
    #[test]
    fn cholesky_and_lu_refuse_at_different_columns() {
        let s = 33_554_432.0;
        let a = [1.0, s, s, s * s];
        let (mut by_cholesky, mut by_lu) = (a, a);
        assert!(solve_spd_cholesky(&mut by_cholesky, &mut [1.0, s], 2).is_err());
        assert!(solve_lu(&mut by_lu, &mut [1.0, s], 2).is_err());
        assert_eq!((cholesky(&a, &by_cholesky, 2), lu(&by_lu, 2)), (0, 1));
    }

    #[test]
    fn back_substitution_meets_the_last_first() {
        let factors = qr(&[0.0; 6], 3, 2).expect("three rows, two columns");
        assert_eq!(back(&factors.data, 2), 1);
    }
}
