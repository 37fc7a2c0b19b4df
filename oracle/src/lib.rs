//! The published Rust as the judge of the fitting core.
//!
//! The modules `error`, `linalg` and `symreg` are the published sources, built unchanged from their folder
//! (build.rs); they stand at the root because they name each other by `crate::`. Everything else is ours.

include!(concat!(env!("OUT_DIR"), "/published.rs"));

pub mod bits;
pub mod cause;
pub mod columns;
pub mod examples;
pub mod exchange;
pub mod fit;
pub mod frames;
pub mod generate;
pub mod histogram;
pub mod leftover;
pub mod model;
pub mod pairs;
pub mod problem;
pub mod published;
pub mod refusal;
pub mod rng;
pub mod table;
pub mod why;
