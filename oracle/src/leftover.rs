//! The leftover error of a fit, by order 7's sentence: the published Rust tells none.

use crate::problem::Problem;

/// For each row the products over the kept terms, rising, from +0.0; the target less that sum; squared; summed over rows
/// from +0.0. A column that is not kept is not read.
pub fn squared_error(p: &Problem, kept: u64, coeffs: &[f64]) -> f64 {
    let mut error = 0.0;
    for row in 0..p.rows {
        let mut sum = 0.0;
        for (term_idx, c) in coeffs.iter().enumerate() {
            if kept >> term_idx & 1 == 1 {
                sum += p.at(row, term_idx) * c;
            }
        }
        let left = p.target[row] - sum;
        error += left * left;
    }
    error
}

#[cfg(test)]
mod tests {
    use super::*;
    use crate::generate::floats;
    use crate::problem::{Setup, Solver};
    use crate::rng::Rng;

    /// Readings under a setup that is not looked at.
    fn readings(theta: &[f64], target: &[f64], cols: usize) -> Problem {
        let setup = Setup {
            threshold: f64::NAN,
            lambda: f64::NAN,
            max_iter: 0,
        };
        let mut p = Problem::zeros(Solver::Normal, target.len(), cols, setup);
        p.theta = theta.to_vec();
        p.target = target.to_vec();
        p
    }

    /// The error of one row with every coefficient 1.0 and every term kept.
    fn of_products(products: &[f64], target: f64) -> f64 {
        let p = readings(products, &[target], products.len());
        squared_error(&p, u64::MAX, &vec![1.0; products.len()])
    }

    #[test]
    fn only_kept_terms_are_read() {
        let p = readings(&[2.0, f64::INFINITY, f64::NAN], &[7.0], 3);
        assert_eq!(squared_error(&p, 0b001, &[3.0, 0.0, 0.0]), 1.0);
        assert_eq!(squared_error(&p, 0b001, &[3.0, f64::NAN, f64::NAN]), 1.0);
        assert_eq!(squared_error(&p, 0b000, &[0.0; 3]), 49.0);
        // a kept zero times infinity
        assert!(squared_error(&p, 0b011, &[3.0, 0.0, 0.0]).is_nan());
        assert_eq!(squared_error(&p, 0b011, &[3.0, 1.0, 0.0]), f64::INFINITY);
    }

    #[test]
    fn without_rows_or_columns() {
        let none = readings(&[], &[], 2);
        assert_eq!(squared_error(&none, 0b11, &[0.0; 2]).to_bits(), 0);
        let targets = readings(&[], &[3.0, -0.25], 0);
        assert_eq!(squared_error(&targets, 0, &[]), 9.0625);
        let zeros = readings(&[], &[-0.0, -0.0], 0);
        assert_eq!(squared_error(&zeros, 0, &[]).to_bits(), 0);
    }

    #[test]
    fn the_steps_come_in_their_order() {
        let half = 2.0_f64.powi(-53);
        // the target less each product in turn would leave the second one
        assert_eq!(of_products(&[1.0, half], 1.0), 0.0);
        // from the last term on the two halves would make one
        assert_eq!(of_products(&[1.0, half, half], 1.0), 0.0);
        // so would three squares of a quarter, from the last row on
        let small = 2.0_f64.powi(-27);
        let rows = readings(&[], &[1.0, small, small, small], 0);
        assert_eq!(squared_error(&rows, 0, &[]), 1.0);
        // a fused step would keep what the product's rounding drops
        let x = 1.0 + 2.0_f64.powi(-30);
        let p = readings(&[-x * x, x], &[0.0], 2);
        assert_eq!(squared_error(&p, 0b11, &[1.0, x]), 0.0);
    }

    #[test]
    fn of_whole_numbers_it_is_exact() {
        let mut rng = Rng::for_part(1, "leftover", 0);
        for _ in 0..1_000 {
            let (rows, cols) = (rng.below(9), rng.below(7));
            let mut drawn = |count| -> Vec<f64> {
                let whole = |_| floats::whole(&mut rng, 9);
                (0..count).map(whole).collect()
            };
            let p = readings(&drawn(rows * cols), &drawn(rows), cols);
            let coeffs = drawn(cols);
            let kept = rng.word();
            let left = |row: usize| {
                let terms = (0..cols).filter(|j| kept & 1 << j != 0);
                let sum: i64 = terms.map(|j| p.at(row, j) as i64 * coeffs[j] as i64).sum();
                p.target[row] as i64 - sum
            };
            let exact: i64 = (0..rows).map(|row| left(row).pow(2)).sum();
            let error = squared_error(&p, kept, &coeffs);
            assert_eq!(error.to_bits(), (exact as f64).to_bits(), "{p:?}");
        }
    }
}
