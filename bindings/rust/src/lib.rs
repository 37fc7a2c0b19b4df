//! The fitting core of a calibration bench, proved in Rattle, called from Rust.
//!
//! Each call is a safe function over lent slices that gives a `Result`: a call never traps, on any lengths, sizes
//! and bits, and a refusal has a number. [`oxieml`] holds drop-ins for oxieml's own functions. [`raw`] is the C
//! interface itself.
//!
//! ```
//! use dapmotar::{Setup, Stop, strlsq, strlsq_workspace};
//!
//! let theta = [1.0, 0.0, 0.0, 1.0];
//! let target = [3.0, 0.25];
//! let setup = Setup { threshold: 0.5, lambda: 0.0, max_iter: 10 };
//! let mut coeffs = [0.0; 2];
//! let mut workspace = vec![0.0; strlsq_workspace(2, 2)];
//! let report = strlsq(&theta, 2, 2, &target, setup, &mut coeffs, &mut workspace)?;
//! assert_eq!((report.stop, report.refits, report.kept), (Stop::Settled, 1, 1));
//! assert_eq!(coeffs, [3.0, 0.0]);
//! assert_eq!(report.error, 0.0625);
//! # Ok::<(), dapmotar::Refusal>(())
//! ```

mod calls;
pub mod oxieml;
pub mod raw;
mod refusal;
mod report;
mod why;

pub use calls::*;
pub use raw::{ANSWER, WHY_ANSWER};
pub use refusal::Refusal;
pub use report::{Report, Setup, Stop};
pub use why::{Cause, Solver, respond_why, why, why_by_columns};
