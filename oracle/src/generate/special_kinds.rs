//! Problems built for one spot of the rule or of a solver.

use super::kinds::{Size, drawn, shape, solver, true_target};
use super::{floats, setups};
use crate::fit::published;
use crate::problem::{Problem, Setup, Solver};
use crate::rng::Rng;

/// A threshold that equals a coefficient's magnitude, or stands one step beside it.
pub fn tied(rng: &mut Rng, size: Size) -> Problem {
    let mut p = match rng.below(3) {
        0 => drawn(rng, size, |rng| floats::whole(rng, 3)),
        _ => drawn(rng, size, Rng::signed),
    };
    true_target(rng, &mut p, 0.1);
    let setup = p.setup;
    let looks = rng.below(3);
    p.setup = first_solve_only(setup);
    for look in 0..=looks {
        let coeffs = published(&p);
        let c = coeffs[rng.below(p.cols)].abs();
        if c.is_finite() && c > 0.0 {
            p.setup.threshold = floats::step(rng, c);
        }
        p.setup.max_iter = look + 1;
    }
    p.setup.max_iter = setup.max_iter;
    p
}

/// No rounds, and a last pass that clears nothing.
fn first_solve_only(setup: Setup) -> Setup {
    Setup {
        threshold: f64::NAN,
        max_iter: 0,
        ..setup
    }
}

/// The coefficients of the first solve, zeros where it is refused.
pub fn first_coefficients(p: &Problem) -> Vec<f64> {
    let mut first = p.clone();
    first.setup = first_solve_only(p.setup);
    published(&first)
}

/// A threshold of zero or below over coefficients that are NaN in part: a dropped term returns.
pub fn swinging(rng: &mut Rng, size: Size) -> Problem {
    let mut p = drawn(rng, size, |rng| rng.pick(&[0.0, 0.0, 1.0, -1.0, 2.0]));
    for j in 0..p.cols.min(p.rows) {
        p.set(j, j, rng.between(1, 3) as f64);
    }
    let (row, j) = (rng.below(p.rows), rng.below(p.cols));
    p.set(
        row,
        j,
        rng.pick(&[f64::INFINITY, f64::NEG_INFINITY, 1e200, f64::MAX]),
    );
    p.setup.threshold = rng.pick(&[0.0, -0.0, -1.0, f64::NEG_INFINITY]);
    p.setup.max_iter = rng.pick(&[2, 3, 4, 5, 20, 21]);
    p
}

/// Each term leans on another, and some are found small only after the refit without that one: these fall in turn, in
/// any order of their numbers.
pub fn falling(rng: &mut Rng, size: Size) -> Problem {
    let cols = rng.between(1, 12.min(size.cols).min(size.rows));
    let rows = rng.between(cols, (3 * cols).min(size.rows));
    let mut p = Problem::zeros(solver(rng), rows, cols, setups::plain(rng));
    let mut chain: Vec<usize> = (0..cols).collect();
    for i in 1..cols {
        chain.swap(i, rng.below(i + 1));
    }
    for row in 0..rows {
        let mut before = 0.0;
        for (i, &j) in chain.iter().enumerate() {
            let own = if row % cols == i { 1.0 } else { 0.0 };
            before = own + 0.05 * rng.signed() + 0.7 * before;
            p.set(row, j, before);
        }
    }
    let falls = rng.between(1, cols);
    let truth = |i| match i {
        0 => 0.2,
        _ if i < falls => [0.3, -0.3][i % 2],
        _ => 1.5,
    };
    for row in 0..rows {
        let shares = chain.iter().enumerate();
        p.target[row] = shares.map(|(i, &j)| truth(i) * p.at(row, j)).sum();
    }
    p.setup.threshold = 0.25;
    p.setup.lambda = rng.pick(&[0.0, 1e-6, 0.01, 0.1]);
    p
}

/// One column, or columns apart, whose pivot stands at a bound of its solver.
pub fn at_bound(rng: &mut Rng, size: Size) -> Problem {
    let cols = rng.between(1, 3.min(size.cols));
    let rows = rng.between(cols, (cols + 2).min(size.rows).max(cols));
    let solver = solver(rng);
    let setup = Setup {
        lambda: 0.0,
        threshold: rng.pick(&[0.0, 1e-3, 1.0]),
        ..setups::plain(rng)
    };
    let mut p = Problem::zeros(solver, rows, cols, setup);
    for j in 0..cols {
        p.set(j, j, floats::whole(rng, 2));
    }
    p.target.fill_with(|| rng.signed());
    let j = rng.below(cols);
    match solver {
        // The pivot is lambda alone: at Cholesky's bound, or below zero at LU's.
        Solver::Normal | Solver::Marquardt => {
            p.set(j, j, 0.0);
            let lambda = rng.pick(&[1e-14, -1e-15, 1e-15, -1e-14, 4e-14]);
            p.setup.lambda = floats::step(rng, lambda);
        }
        // The column's norm, or the root of lambda, is the bound.
        Solver::Qr if rng.once_in(2) => {
            let x = floats::near(rng, 1e-15);
            p.set(j, j, x);
        }
        Solver::Qr => {
            p.set(j, j, 0.0);
            p.setup.lambda = floats::step(rng, 1e-30);
        }
    }
    p
}

/// Columns apart whose sums stand about 2^-52, where damping in proportion begins.
pub fn at_damping(rng: &mut Rng, size: Size) -> Problem {
    let cols = rng.between(1, 3.min(size.cols).min(size.rows));
    let mut p = Problem::zeros(Solver::Marquardt, cols, cols, setups::plain(rng));
    for j in 0..cols {
        let x = rng.pick(&[2.0_f64.powi(-26), 2.0_f64.powi(-26), 0.0, 1.0]);
        p.set(j, j, floats::near(rng, x));
    }
    p.target.fill_with(|| rng.signed());
    p.setup.lambda = rng.pick(&[4.0, 7.0, 100.0, 1e6, 0.5, f64::INFINITY, f64::NAN]);
    p.setup.threshold = rng.pick(&[0.0, 1e-12, 1e-3]);
    p
}

/// Indefinite sums of small whole numbers: LU runs, and magnitudes in its pivot columns meet.
pub fn pivot_tie(rng: &mut Rng, size: Size) -> Problem {
    let mut p = drawn(rng, size, |rng| rng.pick(&[1.0, -1.0, 1.0, 0.0]));
    p.solver = Solver::Normal;
    p.setup.lambda = -(rng.between(1, 2 * p.rows) as f64);
    if rng.once_in(2) {
        p.setup.threshold = rng.pick(&[0.25, 0.5, 0.125]);
    }
    p
}

/// The whole solve passes and a part of it can't.
pub fn refit_refused(rng: &mut Rng, size: Size) -> Problem {
    if size.rows < 3 || size.cols < 3 {
        return drawn(rng, size, Rng::signed);
    }
    if rng.once_in(2) {
        refit_refused_normal(rng, size)
    } else {
        refit_refused_qr(rng, size)
    }
}

/// The first pivot is zero by a negative lambda, in proportion both are; the target stands square to the first column,
/// so that only the first term is kept. In proportion the columns may change places.
fn refit_refused_normal(rng: &mut Rng, size: Size) -> Problem {
    let (rows, _) = shape(rng, size);
    let rows = rows.max(2);
    let setup = setups::plain(rng);
    let solver = rng.pick(&[Solver::Normal, Solver::Marquardt]);
    let mut p = Problem::zeros(solver, rows, 2, setup);
    p.theta.fill_with(|| floats::whole(rng, 3));
    p.target[0] = -p.at(1, 0);
    p.target[1] = p.at(0, 0);
    let square: f64 = (0..rows).map(|row| p.at(row, 0) * p.at(row, 0)).sum();
    p.setup.lambda = -square;
    if solver == Solver::Marquardt {
        p.setup.lambda = -1.0;
        if rng.once_in(2) {
            p.theta.chunks_mut(2).for_each(|row| row.swap(0, 1));
        }
    }
    p.setup.threshold = rng.pick(&[1e-3, 1e-2, 0.05]);
    p.setup.max_iter = rng.between(1, 4);
    p
}

/// A column stands twice. Behind another column rounding tells the two apart; alone they are exactly alike.
pub fn refit_refused_qr(rng: &mut Rng, size: Size) -> Problem {
    let (rows, _) = shape(rng, size);
    let rows = rows.max(3);
    let before = rng.between(1, 3.min(size.cols - 2));
    let setup = setups::plain(rng);
    let mut p = Problem::zeros(Solver::Qr, rows, before + 2, setup);
    p.theta.fill_with(|| rng.signed());
    p.target.fill_with(|| rng.signed());
    let unit = rng.between(1, 1 << 20) as f64;
    for row in 0..rows {
        let x = if row == 0 { unit } else { 0.0 };
        p.set(row, before, x);
        p.set(row, before + 1, x);
    }
    p.setup.lambda = 0.0;
    p.setup.threshold = 10.0_f64.powi(rng.between(1, 6) as i32);
    p.setup.max_iter = rng.between(1, 4);
    p
}
