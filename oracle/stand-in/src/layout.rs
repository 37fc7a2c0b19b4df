//! How theta stands, and how it is read where it stands by columns.

use crate::builders::PAGE;
use crate::fault::{self, Fault};
use crate::fits::{By, Fit};
use std::borrow::Cow;

#[derive(Clone, Copy, PartialEq, Eq)]
pub enum Layout {
    ByRows,
    ByColumns,
}

/// What theta is read for.
#[derive(Clone, Copy, PartialEq, Eq)]
pub enum Use {
    Sums,
    Products,
    LeastSquares,
    Error,
}

impl Fit<'_> {
    /// Theta by rows, as it is read for a use.
    pub fn theta(&self, of: Use) -> Cow<'_, [f64]> {
        if self.layout == Layout::ByRows || self.is_read_by_rows(of) {
            return Cow::Borrowed(self.numbers);
        }
        let row = |row| (0..self.cols).map(move |j| self.entry(row, j));
        Cow::Owned((0..self.rows).flat_map(row).collect())
    }

    /// Read by rows though it stands by columns: the faults.
    fn is_read_by_rows(&self, of: Use) -> bool {
        let square = self.rows == self.cols;
        fault::is(Fault::LayoutReadByRows)
            || fault::is(Fault::LayoutOnlySquare) && !square
            || fault::is(Fault::LayoutNotSquare) && square
            || fault::is(Fault::LayoutProductsByRows) && of == Use::Products
            || fault::is(Fault::LayoutErrorByRows) && of == Use::Error
            || fault::is(Fault::LayoutMarquardtByRows) && self.by == By::Marquardt
    }

    /// Number j·rows + i.
    fn entry(&self, row: usize, j: usize) -> f64 {
        let left = fault::is(Fault::LayoutLastColumnLeft) && j + 1 == self.cols
            || fault::is(Fault::LayoutLastRowLeft) && row + 1 == self.rows
            || fault::is(Fault::LayoutFirstPageOnly) && row >= PAGE
            || fault::is(Fault::LayoutLastPageLeft) && row >= self.rows - self.rows % PAGE;
        if left {
            return 0.0;
        }
        let row = fault::or(row, Fault::LayoutFirstPageAgain, row % PAGE);
        let stride = fault::or(self.rows, Fault::LayoutStrideOfColumns, self.cols);
        // Two of the faults look beyond the end.
        self.numbers.get(j * stride + row).copied().unwrap_or(0.0)
    }

    /// A supported term's column, but under a fault by columns that takes its place.
    pub fn column(&self, term_idx: usize, col: usize, by_place: Fault) -> usize {
        if self.layout == Layout::ByColumns {
            fault::or(term_idx, by_place, col)
        } else {
            term_idx
        }
    }
}
