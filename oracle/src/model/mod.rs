//! What every public call must give and leave, over the published Rust.
//!
//! Each function takes the slices of the call, leaves them as the call must leave them, and gives its answer.
//! Refusals come in document 01's order; sizes are multiplied only after 1 and 2. What a solver's refusal
//! leaves is what the published function, run on the same numbers, has left when it refuses.

mod builders;
mod fits;
mod qr;
mod square;
mod why;

pub use builders::{jtj, jtr};
pub use fits::{fit, fit_workspace};
pub use qr::{qr, solve_least_squares};
pub use square::{invert_spd, solve_lu, solve_normal_equations, solve_spd_cholesky};
pub use why::why;

use crate::bits::shown;
use crate::refusal::Refusal;

/// The answer of a call that gives no report.
pub type Answer = Result<(), Refusal>;

/// Refuse where a test holds.
fn refuse_if(test: bool, refusal: Refusal) -> Answer {
    if test { Err(refusal) } else { Ok(()) }
}

/// A workspace after an accepted call and after 8 and 9: +0.0 over the needed length, untouched past it.
fn clear(workspace: &mut [f64], needed: usize) {
    workspace[..needed].fill(0.0);
}

/// The machine's root, with the one NaN that document 01 names.
pub fn sqrt(x: f64) -> f64 {
    f64::from_bits(shown(x.sqrt()))
}

/// The Rust's magnitude, but that a NaN keeps its sign (docs/DIFFERENCES.md).
pub fn abs(x: f64) -> f64 {
    if x.is_nan() { x } else { x.abs() }
}
