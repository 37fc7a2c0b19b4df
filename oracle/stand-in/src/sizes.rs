//! The size refusals in their order, and the clearing of a workspace.

use crate::fault::{self, Fault};

/// The refusals of a call that apply.
#[derive(Default)]
pub struct Sizes(Vec<u64>);

impl Sizes {
    pub fn columns(&mut self, n: usize) {
        self.add(1, n > fault::or(64, Fault::ColumnLimitOneMore, 65));
    }

    pub fn rows(&mut self, r: usize) {
        let limit = if fault::is(Fault::RowLimitOneLess) {
            4095
        } else {
            4096
        };
        self.add(2, r > fault::or(limit, Fault::RowLimitOneMore, 4097));
    }

    pub fn qr_rows(&mut self, m: usize) {
        self.add(2, m > fault::or(4160, Fault::QrRowLimitOfFits, 4096));
    }

    pub fn rounds(&mut self, n: usize) {
        let limit = if fault::is(Fault::RoundLimitOneLess) {
            999
        } else {
            1000
        };
        self.add(3, n > fault::or(limit, Fault::RoundLimitOneMore, 1001));
    }

    pub fn matrix(&mut self, len: usize, rows: usize, cols: usize) {
        let needed = rows.wrapping_mul(cols);
        let longer = fault::is(Fault::LongerMatrixAccepted) && len > needed;
        self.add(4, len != needed && !longer);
    }

    pub fn right_hand_side(&mut self, len: usize, rows: usize) {
        self.add(5, len != rows);
    }

    pub fn output(&mut self, len: usize, needed: usize) {
        self.add(6, len != needed);
    }

    pub fn tall(&mut self, m: usize, n: usize) {
        self.add(10, m < n && !fault::is(Fault::FewRowsAccepted));
    }

    pub fn workspace(&mut self, len: usize, needed: usize) {
        let needed = needed.wrapping_add(fault::or(0, Fault::WorkspaceFormulaOneMore, 1));
        let missing = needed.saturating_sub(len);
        let exact = fault::is(Fault::WorkspaceMustBeExact) && len != needed;
        self.add(
            7,
            missing > fault::or(0, Fault::WorkspaceOneShortAccepted, 1) || exact,
        );
    }

    /// Whether a solver's code is known.
    pub fn code(&mut self, known: bool) {
        self.add(11, !known);
    }

    pub fn threshold(&mut self, x: f64) {
        let accepted = x > 0.0
            || x == 0.0 && fault::is(Fault::WhyThresholdZero)
            || x.is_nan() && fault::is(Fault::WhyThresholdNan);
        let infinite = x == f64::INFINITY && fault::is(Fault::WhyInfinityRefused);
        self.add(12, !accepted || infinite);
    }

    pub fn term(&mut self, term: usize, cols: usize) {
        let cols = fault::or(cols, Fault::WhyTermOfLimit, 64);
        let one_more = term == cols && fault::is(Fault::WhyTermOneMore);
        self.add(13, term >= cols && !one_more);
    }

    fn add(&mut self, number: u64, applies: bool) {
        if applies {
            self.0.push(number);
        }
    }

    /// The first that applies, 0 if none.
    pub fn first(&self) -> u64 {
        let order: [u64; 8] = if fault::is(Fault::RowsBeforeColumns) {
            [2, 1, 3, 4, 5, 6, 10, 7]
        } else if fault::is(Fault::LengthsBeforeLimits) {
            [4, 5, 6, 1, 2, 3, 10, 7]
        } else if fault::is(Fault::RoundsAfterLengths) {
            [1, 2, 4, 5, 6, 3, 10, 7]
        } else if fault::is(Fault::RightHandSideBeforeMatrix) {
            [1, 2, 3, 5, 4, 6, 10, 7]
        } else if fault::is(Fault::OutputBeforeRightHandSide) {
            [1, 2, 3, 4, 6, 5, 10, 7]
        } else if fault::is(Fault::FewRowsAfterWorkspace) {
            [1, 2, 3, 4, 5, 6, 7, 10]
        } else {
            [1, 2, 3, 4, 5, 6, 10, 7]
        };
        self.first_of(order)
    }

    /// The first that applies to the inverse.
    pub fn first_of_inverse(&self) -> u64 {
        if fault::is(Fault::InverseOutputBeforeMatrix) {
            self.first_of([1, 6, 4, 7])
        } else if fault::is(Fault::InverseWorkspaceBeforeOutput) {
            self.first_of([1, 4, 7, 6])
        } else {
            self.first()
        }
    }

    /// The first that applies to `why`.
    pub fn first_of_why(&self) -> u64 {
        self.first_of(if fault::is(Fault::WhyTermBeforeThreshold) {
            [11, 1, 2, 3, 13, 12, 4, 5, 6, 7]
        } else if fault::is(Fault::WhyThresholdFirst) {
            [11, 12, 1, 2, 3, 13, 4, 5, 6, 7]
        } else if fault::is(Fault::WhyThresholdAfterLengths) {
            [11, 1, 2, 3, 13, 4, 5, 6, 7, 12]
        } else if fault::is(Fault::WhyTermAfterLengths) {
            [11, 1, 2, 3, 12, 4, 5, 6, 7, 13]
        } else if fault::is(Fault::WhyCodeLast) {
            [1, 2, 3, 12, 13, 4, 5, 6, 7, 11]
        } else {
            [11, 1, 2, 3, 12, 13, 4, 5, 6, 7]
        })
    }

    fn first_of<const N: usize>(&self, order: [u64; N]) -> u64 {
        order
            .into_iter()
            .find(|number| self.0.contains(number))
            .unwrap_or(0)
    }
}

/// The workspace after an accepted call and after 8 and 9.
pub fn clear(workspace: &mut [f64], needed: usize) {
    if fault::is(Fault::WorkspaceNotCleared) {
        return;
    }
    let to = fault::or(
        needed.min(workspace.len()),
        Fault::WorkspaceClearedPastNeed,
        workspace.len(),
    );
    let to = to - fault::or(0, Fault::WorkspaceClearedOneShort, to.min(1));
    workspace[..to].fill(fault::or(0.0, Fault::WorkspaceClearedToMinusZero, -0.0));
}
