//! The numbered refusals.

use std::fmt;

/// Why a call was refused: the first of these that applies, in the order 1, 2, 3, 12, 13, 4, 5, 6, 10, 7, 8, 9.
#[derive(Clone, Copy, Debug, PartialEq, Eq, Hash)]
pub enum Refusal {
    /// More columns than 64.
    Columns,
    /// More rows than 4,096; than 4,160 for `qr` and `solve_least_squares`.
    Rows,
    /// `max_iter` above 1,000.
    Rounds,
    /// The matrix is not rows times columns long.
    Matrix,
    /// The target or right-hand side is not as long as the matrix has rows.
    RightHandSide,
    /// An output has the wrong length.
    Output,
    /// The workspace is shorter than needed.
    Workspace,
    /// Cholesky refuses at this column: the matrix is not positive definite.
    Cholesky(usize),
    /// LU met a small pivot, or back substitution a small diagonal, at this column: the matrix is singular.
    SmallPivot(usize),
    /// Fewer rows than columns.
    FewerRowsThanColumns,
    /// [`why`](crate::why) only: the threshold is not above zero.
    Threshold,
    /// [`why`](crate::why) only: the term is not one of the columns.
    Term,
}

impl Refusal {
    /// The refusal's number.
    pub fn number(self) -> u64 {
        match self {
            Refusal::Columns => 1,
            Refusal::Rows => 2,
            Refusal::Rounds => 3,
            Refusal::Matrix => 4,
            Refusal::RightHandSide => 5,
            Refusal::Output => 6,
            Refusal::Workspace => 7,
            Refusal::Cholesky(_) => 8,
            Refusal::SmallPivot(_) => 9,
            Refusal::FewerRowsThanColumns => 10,
            Refusal::Threshold => 12,
            Refusal::Term => 13,
        }
    }

    /// The answer that a call of the library gave, which tells no column.
    pub(crate) fn answer(number: u64) -> Result<(), Refusal> {
        Refusal::answer_at(|_| number)
    }

    /// The answer that a solver of the library gave, with the column that it wrote.
    pub(crate) fn answer_at(call: impl FnOnce(&mut [u64; 1]) -> u64) -> Result<(), Refusal> {
        let mut column = [0];
        let number = call(&mut column);
        let column = column[0] as usize;
        Err(match number {
            0 => return Ok(()),
            1 => Refusal::Columns,
            2 => Refusal::Rows,
            3 => Refusal::Rounds,
            4 => Refusal::Matrix,
            5 => Refusal::RightHandSide,
            6 => Refusal::Output,
            7 => Refusal::Workspace,
            8 => Refusal::Cholesky(column),
            9 => Refusal::SmallPivot(column),
            10 => Refusal::FewerRowsThanColumns,
            12 => Refusal::Threshold,
            13 => Refusal::Term,
            other => unreachable!("the library gives no answer {other}"),
        })
    }
}

impl fmt::Display for Refusal {
    fn fmt(&self, f: &mut fmt::Formatter<'_>) -> fmt::Result {
        let text = match self {
            Refusal::Columns => "columns above the limit",
            Refusal::Rows => "rows above the limit",
            Refusal::Rounds => "max_iter above 1,000",
            Refusal::Matrix => "the matrix has the wrong length",
            Refusal::RightHandSide => "the right-hand side has the wrong length",
            Refusal::Output => "an output has the wrong length",
            Refusal::Workspace => "the workspace is too short",
            Refusal::Cholesky(_) => "the matrix is not positive definite",
            Refusal::SmallPivot(_) => "the matrix is singular",
            Refusal::FewerRowsThanColumns => "fewer rows than columns",
            Refusal::Threshold => "the threshold is not above zero",
            Refusal::Term => "the term is not one of the columns",
        };
        write!(f, "refusal {}: {text}", self.number())?;
        match self {
            Refusal::Cholesky(column) | Refusal::SmallPivot(column) => {
                write!(f, ", at column {column}")
            }
            _ => Ok(()),
        }
    }
}

impl std::error::Error for Refusal {}
