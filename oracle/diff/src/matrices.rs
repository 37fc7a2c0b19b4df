//! Matrices of every kind that a solver can tell apart, flat and by rows.

use oracle::generate::floats;
use oracle::rng::Rng;

/// Numbers drawn by one class.
pub fn drawn(rng: &mut Rng, length: usize) -> Vec<f64> {
    let draw: fn(&mut Rng) -> f64 = match rng.below(12) {
        0 => floats::any,
        1 => floats::finite,
        2 => floats::subnormal,
        3 => floats::scaled,
        4 | 5 => |rng| rng.pick(&[0.0, -0.0, -0.0, 1.0, -1.0]),
        6 | 7 => |rng| floats::whole(rng, 3),
        8 => |rng| {
            if rng.once_in(6) {
                floats::special(rng)
            } else {
                rng.signed()
            }
        },
        _ => Rng::signed,
    };
    (0..length).map(|_| draw(rng)).collect()
}

/// An m by n matrix for QR.
pub fn tall(rng: &mut Rng, m: usize, n: usize) -> Vec<f64> {
    let mut a = drawn(rng, m * n);
    if m == 0 || n == 0 {
        return a;
    }
    let j = rng.below(n);
    match rng.below(8) {
        // A column twice, or a column of zeros.
        0 => {
            let from = rng.below(n);
            let factor = rng.pick(&[1.0, 1.0, -1.0, 2.0, 0.0, -0.0]);
            (0..m).for_each(|i| a[i * n + j] = a[i * n + from] * factor);
        }
        // A column whose norm stands at the bound.
        1 => {
            (0..m).for_each(|i| a[i * n + j] = floats::sign(rng, 0.0));
            a[rng.below(m) * n + j] = floats::near(rng, 1e-15);
        }
        // A column whose leading number is a zero of either sign.
        2 => a[(j.min(m - 1)) * n + j] = floats::sign(rng, 0.0),
        // Columns scaled down to the bound.
        3 => {
            let unit = rng.pick(&[1e-15, 1e-14, 1e-16, 1e-300, 1e150]);
            (0..m).for_each(|i| a[i * n + j] *= unit);
        }
        // Upper triangular, its diagonal at the bound.
        4 => {
            for i in 0..m {
                (0..n.min(i)).for_each(|q| a[i * n + q] = 0.0);
            }
            if j < m {
                a[j * n + j] = floats::near(rng, 1e-15);
            }
        }
        _ => {}
    }
    a
}

/// An n by n matrix for Cholesky, LU and the normal equations.
pub fn square(rng: &mut Rng, n: usize) -> Vec<f64> {
    if n == 0 {
        return Vec::new();
    }
    match rng.below(8) {
        0 => drawn(rng, n * n),
        1 => at_cholesky_bound(rng, n),
        2 => at_pivot_bound(rng, n),
        3 => with_nan(rng, n),
        4 => deficient(rng, n),
        5 => symmetric(rng, n, |rng| rng.pick(&[1.0, -1.0, 2.0, 0.0, -0.0])),
        _ => positive(rng, n),
    }
}

/// Symmetric, each pair drawn once.
fn symmetric(rng: &mut Rng, n: usize, draw: fn(&mut Rng) -> f64) -> Vec<f64> {
    let mut a = vec![0.0; n * n];
    for i in 0..n {
        for j in 0..=i {
            a[i * n + j] = draw(rng);
            a[j * n + i] = a[i * n + j];
        }
    }
    a
}

/// Symmetric and heavy on the diagonal; the upper half is junk now and then, since Cholesky reads the lower.
fn positive(rng: &mut Rng, n: usize) -> Vec<f64> {
    let mut a = symmetric(rng, n, Rng::signed);
    let heavy = if rng.once_in(4) { 0.5 } else { n as f64 };
    (0..n).for_each(|i| a[i * n + i] = a[i * n + i].abs() + heavy);
    if rng.once_in(4) {
        for i in 0..n {
            (i + 1..n).for_each(|j| a[i * n + j] = floats::any(rng));
        }
    }
    a
}

/// A pivot at 1e-14 times the scale, on the diagonal alone or after a subtraction.
fn at_cholesky_bound(rng: &mut Rng, n: usize) -> Vec<f64> {
    let mut a = vec![0.0; n * n];
    (0..n).for_each(|i| a[i * n + i] = rng.pick(&[1.0, 1.0, 2.0, 0.5, 4.0]));
    let large = rng.pick(&[
        1.0,
        1.0,
        3.0,
        1e3,
        1e6,
        -1e3,
        0.1,
        7.0,
        f64::INFINITY,
        f64::NAN,
    ]);
    let (j, other) = (rng.below(n), rng.below(n));
    a[other * n + other] = large;
    let scale = (0..n).fold(1.0, |s: f64, i| {
        if a[i * n + i].abs() > s {
            a[i * n + i].abs()
        } else {
            s
        }
    });
    let bound = 1e-14 * scale;
    let mut pivot = floats::step(rng, bound);
    if j > 0 && rng.once_in(2) {
        a[0] = 1.0;
        let x = rng.pick(&[0.5_f64, 0.25, 1.0, 2.0_f64.powi(-24), 2.0_f64.powi(-23)]);
        a[j * n] = x;
        a[j] = x;
        pivot += x * x;
    }
    a[j * n + j] = pivot;
    a
}

/// A pivot column whose greatest magnitude is at 1e-15, at once or after an elimination.
fn at_pivot_bound(rng: &mut Rng, n: usize) -> Vec<f64> {
    let mut a = vec![0.0; n * n];
    (0..n).for_each(|i| a[i * n + i] = floats::sign(rng, 1.0));
    let (i, j) = (rng.below(n), rng.below(n));
    let small = floats::near(rng, 1e-15);
    a[j * n + j] = rng.pick(&[0.0, -0.0, 1e-16, small]);
    a[i.max(j) * n + j] = small;
    if n > 1 && rng.once_in(2) {
        let (x, y) = (rng.pick(&[1.0, 0.5, -0.5]), rng.pick(&[1.0, -1.0, 0.25]));
        (a[0], a[1]) = (1.0, x);
        (a[n], a[n + 1]) = (y, x * y + small);
    }
    a
}

/// A NaN or an infinity on the diagonal, below it or above it.
fn with_nan(rng: &mut Rng, n: usize) -> Vec<f64> {
    let mut a = if rng.once_in(2) {
        positive(rng, n)
    } else {
        drawn(rng, n * n)
    };
    for _ in 0..rng.between(1, 2) {
        let (i, j) = (rng.below(n), rng.below(n));
        let x = if rng.once_in(2) {
            floats::nan(rng)
        } else {
            floats::special(rng)
        };
        let place = if rng.once_in(2) { i * n + i } else { i * n + j };
        a[place] = x;
        if rng.once_in(2) {
            a[j * n + i] = x;
        }
    }
    a
}

/// A row twice or of zeros, in whole numbers, so that a pivot vanishes on the way.
fn deficient(rng: &mut Rng, n: usize) -> Vec<f64> {
    let mut a: Vec<f64> = (0..n * n).map(|_| floats::whole(rng, 3)).collect();
    let (from, to) = (rng.below(n), rng.below(n));
    let factor = rng.pick(&[1.0, -1.0, 2.0, 0.0]);
    (0..n).for_each(|j| a[to * n + j] = a[from * n + j] * factor);
    a
}
