//! Setups: plain ones, and thresholds and lambdas of every kind.

use super::floats;
use crate::problem::Setup;
use crate::rng::Rng;

/// What a bench would use.
pub fn plain(rng: &mut Rng) -> Setup {
    Setup {
        threshold: rng.pick(&[0.01, 0.05, 0.1, 0.3, 0.5, 1.0]),
        lambda: rng.pick(&[0.0, 0.0, 1e-9, 1e-6, 1e-3, 0.1, 1.0]),
        max_iter: rounds(rng),
    }
}

/// Anything.
pub fn odd(rng: &mut Rng) -> Setup {
    Setup {
        threshold: odd_threshold(rng),
        lambda: odd_lambda(rng),
        max_iter: rounds(rng),
    }
}

pub fn odd_threshold(rng: &mut Rng) -> f64 {
    match rng.below(8) {
        0 => 0.0,
        1 => -0.0,
        2 => -rng.unit(),
        3 => floats::nan(rng),
        4 => floats::sign(rng, f64::INFINITY),
        5 => floats::subnormal(rng).abs(),
        6 => floats::any(rng),
        _ => rng.unit(),
    }
}

pub fn odd_lambda(rng: &mut Rng) -> f64 {
    match rng.below(8) {
        0 => 0.0,
        1 => -0.0,
        2 => -rng.unit(),
        3 => floats::nan(rng),
        4 => floats::sign(rng, f64::INFINITY),
        5 => floats::whole(rng, 9),
        6 => floats::any(rng),
        _ => floats::bound(rng),
    }
}

/// Few rounds or many; the most allowed only now and then.
pub fn rounds(rng: &mut Rng) -> usize {
    match rng.below(16) {
        0 => 0,
        1 | 2 => 1,
        3 => 2,
        4 => rng.pick(&[100, 999, 1000]),
        _ => rng.between(3, 20),
    }
}
