//! The leftover error of a fit.

use crate::builders::PAGE;
use crate::fault::{self, Fault};
use crate::fits::{Fit, bit};
use crate::layout::Use;

impl Fit<'_> {
    /// The error of a fit that ended so, with these coefficients and this kept word.
    pub fn error(&self, stop: u64, kept: u64, coeffs: &[f64]) -> f64 {
        let nothing = matches!(stop, 1 | 3) && fault::is(Fault::ErrorZeroWhenRefused)
            || stop == 0 && fault::is(Fault::ErrorZeroWithoutData);
        if nothing {
            return 0.0;
        }
        let terms = self.counted(kept, coeffs);
        let theta = self.theta(Use::Error);
        let left = (0..self.rows).map(|row| self.row_left(&theta, row, &terms, coeffs));
        sum_of_squares(left.collect())
    }

    /// The terms that count, rising.
    fn counted(&self, kept: u64, coeffs: &[f64]) -> Vec<usize> {
        let counts = |&j: &usize| {
            let (c, kept) = (coeffs[j], kept & bit(j) != 0);
            let more = c.is_nan() && fault::is(Fault::ErrorCountsNan);
            let less = c == 0.0 && fault::is(Fault::ErrorSkipsZeros);
            kept && !less || more || fault::is(Fault::ErrorOfAllTerms)
        };
        let mut terms: Vec<usize> = (0..self.cols).filter(counts).collect();
        if fault::is(Fault::ErrorTermsFromLast) {
            terms.reverse();
        }
        terms
    }

    /// A row's target less the sum of the products.
    fn row_left(&self, theta: &[f64], row: usize, terms: &[usize], coeffs: &[f64]) -> f64 {
        let pair = |(col, &term_idx): (usize, &usize)| {
            let column = fault::or(term_idx, Fault::ErrorColumnByPlace, col);
            let column = self.column(column, col, Fault::LayoutErrorByPlace);
            let number = fault::or(term_idx, Fault::ErrorCoefficientByPlace, col);
            (theta[row * self.cols + column], coeffs[number])
        };
        let pairs = terms.iter().enumerate().map(pair);
        let target = self.target[fault::or(row, Fault::ErrorByFirstTargets, row % PAGE)];
        if fault::is(Fault::ErrorProductsInTurn) {
            return pairs.fold(target, |left, (x, c)| left - x * c);
        }
        target - pairs.fold(0.0, add)
    }
}

fn sum_of_squares(mut left: Vec<f64>) -> f64 {
    if fault::is(Fault::ErrorRowsFromLast) {
        left.reverse();
    }
    let start = fault::or(0.0, Fault::ErrorFromMinusZero, -0.0);
    let squares = |start, rows: &[f64]| rows.iter().fold(start, |sum, &x| add(sum, (x, x)));
    if fault::is(Fault::ErrorPagesSummedApart) {
        let pages = left.chunks(PAGE).map(|page| squares(0.0, page));
        return pages.fold(start, |sum, page| sum + page);
    }
    squares(start, &left)
}

fn add(sum: f64, (x, y): (f64, f64)) -> f64 {
    if fault::is(Fault::ErrorFused) {
        x.mul_add(y, sum)
    } else {
        sum + x * y
    }
}
