//! Why a term of a fit was kept or not.

use crate::raw::{self, WHY_ANSWER};
use crate::refusal::Refusal;
use crate::report::Setup;

/// Which fit: its code as in a header, for a theta by rows.
#[derive(Clone, Copy, Debug, PartialEq, Eq, Hash)]
#[repr(u64)]
pub enum Solver {
    /// As [`strlsq`](crate::strlsq).
    Normal = 1,
    /// As [`strlsq_qr`](crate::strlsq_qr).
    Qr = 2,
    /// As [`strlsq_marquardt`](crate::strlsq_marquardt).
    Marquardt = 3,
}

/// What became of a term.
#[derive(Clone, Copy, Debug, PartialEq)]
pub enum Cause {
    /// There were no rows.
    NoData,
    /// The first solve was refused.
    FirstRefused,
    /// Its final magnitude is at least the threshold.
    Kept,
    /// Dropped at the look before the refit of this number, with this coefficient, which may be NaN. The number is one
    /// past the last refit where that look found no term at all.
    Dropped(u64, f64),
    /// Cleared when the refit of this number was refused.
    Cleared(u64),
    /// Set to zero by the last pass, from this value, which may be a zero of either sign.
    Zeroed(f64),
    /// The rounds were used up, and its coefficient is a NaN.
    LeftNan,
}

impl Cause {
    /// A cause as the library writes it: code and refit number, and the coefficient.
    fn from_words([code, refit]: [u64; 2], [value]: [f64; 1]) -> Cause {
        match code {
            0 => Cause::NoData,
            1 => Cause::FirstRefused,
            2 => Cause::Kept,
            3 => Cause::Dropped(refit, value),
            4 => Cause::Cleared(refit),
            5 => Cause::Zeroed(value),
            6 => Cause::LeftNan,
            other => unreachable!("the library gives no cause {other}"),
        }
    }
}

macro_rules! whys {
    ($($(#[$doc:meta])* $name:ident by $layout:literal;)*) => {$(
        $(#[$doc])*
        #[allow(clippy::too_many_arguments)]
        pub fn $name(
            solver: Solver,
            theta: &[f64],
            n_rows: usize,
            n_cols: usize,
            target: &[f64],
            setup: Setup,
            term: usize,
            coeffs: &mut [f64],
            workspace: &mut [f64],
        ) -> Result<Cause, Refusal> {
            let code = $layout + solver as u64;
            asked(code, theta, n_rows, n_cols, target, setup, term, coeffs, workspace)
        }
    )*};
}

whys! {
    /// The fit by this solver, and what became of one of its terms. `coeffs` and `workspace` are as that fit needs and
    /// leaves them. Refuses 1, 2, 3, 12, 13, 4, 5, 6, 7.
    why by 0x00;

    /// [`why`] of a theta that is stored by columns, as [`strlsq_by_columns`](crate::strlsq_by_columns) reads it.
    why_by_columns by 0x10;
}

#[allow(clippy::too_many_arguments)]
fn asked(
    code: u64,
    theta: &[f64],
    n_rows: usize,
    n_cols: usize,
    target: &[f64],
    setup: Setup,
    term: usize,
    coeffs: &mut [f64],
    workspace: &mut [f64],
) -> Result<Cause, Refusal> {
    let (mut cause, mut value) = ([0; 2], [0.0]);
    Refusal::answer(unsafe {
        raw::dapmotar_why(
            code,
            theta.as_ptr(),
            theta.len(),
            n_rows,
            n_cols,
            target.as_ptr(),
            target.len(),
            setup.threshold,
            setup.lambda,
            setup.max_iter,
            term,
            coeffs.as_mut_ptr(),
            coeffs.len(),
            workspace.as_mut_ptr(),
            workspace.len(),
            &mut cause,
            &mut value,
        )
    })?;
    Ok(Cause::from_words(cause, value))
}

/// The exchange of the program `why`: the answer to the frames in `input`, a line for each term, which stands at the
/// head of `answer`; the bytes behind it stay. Any bytes are an input.
pub fn respond_why<'a>(input: &[u8], answer: &'a mut [u8; WHY_ANSWER]) -> &'a [u8] {
    let length = unsafe { raw::dapmotar_respond_why(input.as_ptr(), input.len(), answer) };
    &answer[..length]
}
