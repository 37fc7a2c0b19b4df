//! Problems with exact lengths, of every kind that a solver or the rule can tell apart.

use super::{floats, setups, special_kinds as special};
use crate::problem::{Problem, Setup, Solver};
use crate::rng::Rng;

/// The most rows and columns that a problem may have.
#[derive(Clone, Copy, Debug)]
pub struct Size {
    pub rows: usize,
    pub cols: usize,
}

/// A way to make a problem.
pub type Make = fn(&mut Rng, Size) -> Problem;

pub const KINDS: &[(&str, Make)] = &[
    ("well", well),
    ("well", well),
    ("graded", graded),
    ("graded", graded),
    ("whole", whole),
    ("scaled", scaled),
    ("deficient", deficient),
    ("tied", special::tied),
    ("tied", special::tied),
    ("oddsetup", odd_setup),
    ("zerosigns", zero_signs),
    ("zerotarget", zero_target),
    ("special", sprinkled),
    ("partialnan", partial_nan),
    ("swinging", special::swinging),
    ("falling", special::falling),
    ("subnormal", subnormal),
    ("wild", wild),
    ("atbound", special::at_bound),
    ("atdamping", special::at_damping),
    ("pivottie", special::pivot_tie),
    ("refitrefused", special::refit_refused),
    ("noshape", no_shape),
];

/// A problem of any kind, and the kind's name.
pub fn any(rng: &mut Rng, size: Size) -> (&'static str, Problem) {
    let (name, make) = KINDS[rng.below(KINDS.len())];
    (name, make(rng, size))
}

pub fn solver(rng: &mut Rng) -> Solver {
    rng.pick(&Solver::ALL)
}

/// Rows and columns, mostly few; up to the size now and then, and the whole size rarely.
pub fn shape(rng: &mut Rng, size: Size) -> (usize, usize) {
    let (rows, cols) = match rng.below(4000) {
        0 | 1 => return (size.rows, size.cols),
        2..16 => (size.rows, size.cols),
        16..300 => (100, 20),
        _ => (12, 6),
    };
    (
        rng.between(1, rows.min(size.rows)),
        rng.between(1, cols.min(size.cols)),
    )
}

/// A problem whose numbers are drawn one by one, with a plain setup.
pub fn drawn(rng: &mut Rng, size: Size, draw: impl Fn(&mut Rng) -> f64) -> Problem {
    let (rows, cols) = shape(rng, size);
    let setup = setups::plain(rng);
    let mut p = Problem::zeros(solver(rng), rows, cols, setup);
    p.theta.fill_with(|| draw(rng));
    p.target.fill_with(|| draw(rng));
    p
}

/// The target from a few of the columns, with a little noise.
pub fn true_target(rng: &mut Rng, p: &mut Problem, noise: f64) {
    let truth: Vec<f64> = (0..p.cols)
        .map(|_| {
            if rng.once_in(2) {
                rng.signed() * 4.0
            } else {
                0.0
            }
        })
        .collect();
    for row in 0..p.rows {
        let exact: f64 = (0..p.cols).map(|j| p.at(row, j) * truth[j]).sum();
        p.target[row] = exact + noise * rng.signed();
    }
}

/// Well-conditioned data of a sparse truth.
fn well(rng: &mut Rng, size: Size) -> Problem {
    let mut p = drawn(rng, size, Rng::signed);
    let noise = rng.pick(&[0.0, 0.01, 0.2]);
    true_target(rng, &mut p, noise);
    p
}

/// The same at given sizes, for the normal equations.
pub fn sparse(rng: &mut Rng, rows: usize, cols: usize) -> Problem {
    let mut p = Problem::zeros(Solver::Normal, rows, cols, setups::plain(rng));
    p.theta.fill_with(|| rng.signed());
    true_target(rng, &mut p, 0.1);
    p
}

/// Powers of one reading side by side: the columns lean on each other, so that refits follow refits.
fn graded(rng: &mut Rng, size: Size) -> Problem {
    let mut p = drawn(rng, size, Rng::signed);
    for row in 0..p.rows {
        let x = rng.unit() * 2.0;
        for j in 0..p.cols {
            let leaning = x.powi(j as i32 + 1) + 0.05 * rng.signed();
            p.set(row, j, leaning);
        }
    }
    if rng.once_in(2) {
        true_target(rng, &mut p, 0.3);
    }
    p
}

/// Small whole numbers, so that sums are exact and magnitudes meet.
fn whole(rng: &mut Rng, size: Size) -> Problem {
    drawn(rng, size, |rng| floats::whole(rng, 3))
}

/// Columns of very different units.
fn scaled(rng: &mut Rng, size: Size) -> Problem {
    let mut p = drawn(rng, size, Rng::signed);
    let most = rng.pick(&[3, 8, 80, 160]);
    for j in 0..p.cols {
        let unit = 10.0_f64.powi(rng.between(0, 2 * most) as i32 - most as i32);
        for row in 0..p.rows {
            p.set(row, j, p.at(row, j) * unit);
        }
    }
    p
}

/// Two ports in series, dead ports: columns twice, columns of zeros.
fn deficient(rng: &mut Rng, size: Size) -> Problem {
    let mut p = if rng.once_in(2) {
        whole(rng, size)
    } else {
        well(rng, size)
    };
    if rng.once_in(2) {
        p.setup.lambda = 0.0;
    }
    for _ in 0..rng.between(1, 2) {
        let (from, to) = (rng.below(p.cols), rng.below(p.cols));
        let factor = rng.pick(&[1.0, 1.0, -1.0, 2.0, 0.0, 3.0]);
        for row in 0..p.rows {
            p.set(row, to, p.at(row, from) * factor);
        }
    }
    p
}

/// Plain data under an odd setup.
fn odd_setup(rng: &mut Rng, size: Size) -> Problem {
    let mut p = if rng.once_in(2) {
        whole(rng, size)
    } else {
        well(rng, size)
    };
    p.setup = setups::odd(rng);
    p
}

/// Zeros of both signs beside ones.
fn zero_signs(rng: &mut Rng, size: Size) -> Problem {
    let mut p = drawn(rng, size, |rng| rng.pick(&[0.0, -0.0, -0.0, 1.0, -1.0]));
    if rng.once_in(2) {
        p.setup.threshold = rng.pick(&[0.0, -0.0, -1.0]);
    }
    if rng.once_in(3) {
        p.setup.lambda = rng.pick(&[-0.0, -1.0, 1.0]);
    }
    p
}

/// A target of zeros of either sign.
fn zero_target(rng: &mut Rng, size: Size) -> Problem {
    let mut p = well(rng, size);
    p.target.fill_with(|| floats::sign(rng, 0.0));
    if rng.once_in(2) {
        p.setup.threshold = rng.pick(&[0.0, -0.0, -2.0]);
    }
    p
}

/// Plain data with a few broken readings anywhere.
fn sprinkled(rng: &mut Rng, size: Size) -> Problem {
    let mut p = well(rng, size);
    for _ in 0..rng.between(1, 3) {
        break_one(rng, &mut p);
    }
    if rng.once_in(3) {
        p.setup = setups::odd(rng);
    }
    p
}

/// One broken reading in theta or in the target.
fn break_one(rng: &mut Rng, p: &mut Problem) {
    let x = floats::special(rng);
    let (row, j) = (rng.below(p.rows), rng.below(p.cols));
    if rng.once_in(4) {
        p.target[row] = x;
    } else {
        p.set(row, j, x);
    }
}

/// Mostly zeros and one infinity or large number, so that some coefficients are NaN and some are not.
fn partial_nan(rng: &mut Rng, size: Size) -> Problem {
    let mut p = drawn(rng, size, |rng| {
        if rng.once_in(3) {
            floats::whole(rng, 3)
        } else {
            0.0
        }
    });
    for j in 0..p.cols.min(p.rows) {
        p.set(j, j, rng.between(1, 3) as f64);
    }
    for _ in 0..rng.between(1, 2) {
        let x = rng.pick(&[
            f64::INFINITY,
            f64::NEG_INFINITY,
            1e300,
            1e200,
            f64::MAX,
            f64::NAN,
        ]);
        let (row, j) = (rng.below(p.rows), rng.below(p.cols));
        p.set(row, j, x);
    }
    if rng.once_in(2) {
        p.setup.max_iter = rng.below(3);
    }
    p
}

/// Numbers so small that their squares vanish.
fn subnormal(rng: &mut Rng, size: Size) -> Problem {
    let mut p = if rng.once_in(2) {
        drawn(rng, size, floats::subnormal)
    } else {
        drawn(rng, size, |rng| rng.signed() * 1e-160)
    };
    p.setup.threshold = rng.pick(&[0.0, 0.1, 1.0, f64::from_bits(1), 1e-300]);
    if rng.once_in(2) {
        p.setup.lambda = floats::subnormal(rng).abs();
    }
    p
}

/// Any bits anywhere.
fn wild(rng: &mut Rng, size: Size) -> Problem {
    let mut p = if rng.once_in(2) {
        drawn(rng, size, floats::any)
    } else {
        drawn(rng, size, floats::finite)
    };
    if rng.once_in(2) {
        p.setup = setups::odd(rng);
    }
    p
}

/// No rows, no columns, or neither.
fn no_shape(rng: &mut Rng, size: Size) -> Problem {
    let (mut rows, mut cols) = shape(rng, size);
    match rng.below(4) {
        0 => (rows, cols) = (0, 0),
        1 => rows = 0,
        _ => cols = 0,
    }
    let setup: Setup = setups::odd(rng);
    let mut p = Problem::zeros(solver(rng), rows, cols, setup);
    p.target.fill_with(|| floats::any(rng));
    p
}
