//! The exports, a file a group.

mod builders;
mod fits;
mod qr;
mod scalars;
mod square;
mod why;

use crate::call::Function;
pub use fits::SIZE as FIT_SIZE;

/// Every export; some once more at the sizes of a walk by pages, or with many refits; `why` once in each layout.
pub const ALL: [Function; 28] = [
    scalars::SQRT,
    scalars::ABS,
    builders::JTJ,
    builders::JTJ_PAGES,
    builders::JTJ_MARQUARDT,
    builders::JTR,
    square::CHOLESKY,
    square::LU,
    square::NORMAL_EQUATIONS,
    square::INVERT,
    qr::QR,
    qr::LEAST_SQUARES,
    fits::STRLSQ,
    fits::STRLSQ_QR,
    fits::STRLSQ_MARQUARDT,
    fits::STRLSQ_REFITS,
    fits::STRLSQ_PAGES,
    fits::MARQUARDT_REFITS,
    fits::STRLSQ_BY_COLUMNS,
    fits::STRLSQ_QR_BY_COLUMNS,
    fits::STRLSQ_MARQUARDT_BY_COLUMNS,
    fits::STRLSQ_BY_COLUMNS_PAGES,
    fits::QR_BY_COLUMNS_REFITS,
    why::WHY,
    why::WHY_BY_COLUMNS,
    scalars::STRLSQ_WORKSPACE,
    scalars::STRLSQ_QR_WORKSPACE,
    scalars::STRLSQ_MARQUARDT_WORKSPACE,
];

/// The answer of a model that gives no report.
fn number(answer: oracle::model::Answer) -> u64 {
    answer.map_or_else(|refusal| refusal.number(), |()| 0)
}
