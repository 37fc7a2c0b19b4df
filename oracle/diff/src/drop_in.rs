//! The Rust drop-ins of `bindings/rust` against the published functions.

use crate::functions::FIT_SIZE;
use crate::matrices;
use dapmotar::{Refusal, oxieml};
use oracle::bits::{first_difference, quiet};
use oracle::error::EmlError;
use oracle::fit::{PairSums, fitted_by, published};
use oracle::generate::{floats, kinds};
use oracle::linalg;
use oracle::problem::{Problem, Solver};
use oracle::rng::Rng;

/// Problem number `index` of a seed: what differs, if anything.
pub fn one(seed: u64, index: u64) -> Option<String> {
    let mut rng = Rng::for_part(seed, "drop-in", index);
    let (kind, mut p) = kinds::any(&mut rng, FIT_SIZE);
    if rng.once_in(4) {
        lengthen(&mut rng, &mut p);
    }
    let (got, expected) = match p.solver {
        Solver::Normal => (fitted_by(&p, oxieml::strlsq), published(&p)),
        Solver::Qr => (fitted_by(&p, oxieml::strlsq_qr), published(&p)),
        Solver::Marquardt => (
            sums(&p, oxieml::jtj_marquardt),
            sums(&p, linalg::jtj_marquardt),
        ),
    };
    let j = first_difference(&got, &expected)?;
    let solver = p.solver.name();
    Some(format!(
        "{kind} {index} by {solver}: number {j}: {got:?} should be {expected:?}"
    ))
}

/// oxieml has no fit that is damped in proportion: its sums are compared.
fn sums(p: &Problem, jtj: PairSums) -> Vec<f64> {
    jtj(&p.theta, p.rows, p.cols, p.setup.lambda)
}

/// Inverse number `index` of a seed: what differs, if anything. A longer matrix is cut, a refusal is the published one.
pub fn inverse(seed: u64, index: u64) -> Option<String> {
    let mut rng = Rng::for_part(seed, "drop-in inverse", index);
    let n = rng.between(0, 12);
    let matrix = quiet(&matrices::square(&mut rng, n));
    let mut given = matrix.clone();
    if rng.once_in(4) {
        given.push(floats::any(&mut rng));
    }
    let got = oxieml::invert_spd(&given, n);
    let expected = linalg::invert_spd(&matrix, n);
    let same = match (&got, &expected) {
        (Ok(x), Ok(y)) => first_difference(x, y).is_none(),
        (Err(Refusal::Cholesky(_)), Err(EmlError::NotSpd)) => true,
        _ => false,
    };
    (!same).then(|| format!("inverse {index}: {got:?} should be {expected:?}"))
}

/// More numbers than needed, which oxieml doesn't read.
fn lengthen(rng: &mut Rng, p: &mut Problem) {
    for _ in 0..rng.between(0, 3) {
        p.theta.push(floats::any(rng));
    }
    for _ in 0..rng.between(0, 3) {
        p.target.push(floats::any(rng));
    }
}
