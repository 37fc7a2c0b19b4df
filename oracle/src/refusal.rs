//! The numbered refusals of the documents, and the limits that they speak of.

/// A refusal, by its number.
#[derive(Clone, Copy, Debug, PartialEq, Eq)]
#[repr(u8)]
pub enum Refusal {
    Columns = 1,
    Rows = 2,
    Rounds = 3,
    Matrix = 4,
    RightHandSide = 5,
    Output = 6,
    Workspace = 7,
    Cholesky = 8,
    SmallPivot = 9,
    FewerRowsThanColumns = 10,
    MalformedFrame = 11,
    Threshold = 12,
    Term = 13,
}

impl Refusal {
    pub fn number(self) -> u64 {
        self as u64
    }
}

/// Most columns of a fit, a builder and a solver.
pub const MAX_COLS: usize = 64;
/// Most rows of a fit and a builder.
pub const MAX_ROWS: usize = 4096;
/// Most rows of `qr` and `solve_least_squares`.
pub const MAX_QR_ROWS: usize = 4160;
/// Most rounds of a fit.
pub const MAX_ROUNDS: usize = 1000;
/// Most rows and columns of the bench program.
pub const MAX_FRAME_ROWS: usize = 128;
pub const MAX_FRAME_COLS: usize = 16;
