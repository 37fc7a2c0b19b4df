//! The examples of the programs: a day's readings as a bench takes them, from a fixed seed.

use crate::fit::Stop;
use crate::frames::{answered, write};
use crate::problem::{Problem, Setup, Solver};
use crate::rng::Rng;
use crate::table::{f1, g8, no_columns};
use crate::why;
use std::io;
use std::path::Path;

/// An input with its name and the stop that it shows.
pub struct Example {
    pub name: &'static str,
    pub problem: Problem,
    pub stop: Stop,
}

pub fn all() -> Vec<Example> {
    let example = |name, problem, stop| Example {
        name,
        problem,
        stop,
    };
    vec![
        example("f1", f1(0.5, 10), Stop::Settled),
        example("last-round", f1(0.5, 1), Stop::Settled),
        example("no-round", f1(0.5, 0), Stop::OutOfRounds),
        example("eight-ports", eight_ports(), Stop::Settled),
        example("one-by-one", one_by_one(5, 10), Stop::Settled),
        example("one-by-one-two-rounds", one_by_one(5, 2), Stop::OutOfRounds),
        example("all-fall", one_by_one(3, 10), Stop::Empty),
        example("in-series", in_series(0.0), Stop::FirstRefused),
        example("in-series-damped", in_series(0.0625), Stop::Settled),
        example("in-series-refit", g8(), Stop::RefitRefused),
        example("two-units", two_units(Solver::Normal), Stop::Settled),
        example(
            "two-units-in-proportion",
            two_units(Solver::Marquardt),
            Stop::Settled,
        ),
        example("dead-port", dead_port(), Stop::Settled),
        example("nan-reading", nan_reading(10), Stop::Empty),
        example("nan-left", nan_reading(0), Stop::OutOfRounds),
        example("infinite-reading", infinite_reading(), Stop::Empty),
        example("no-rows", no_rows(), Stop::NoData),
        example("no-ports", no_columns(), Stop::NoData),
        example("no-threshold", f1(0.0, 10), Stop::Settled),
        example("f1-by-columns", f1(0.5, 10).by_columns(), Stop::Settled),
        example(
            "dead-port-by-columns",
            dead_port().by_columns(),
            Stop::Settled,
        ),
        example(
            "two-units-by-columns",
            two_units(Solver::Marquardt).by_columns(),
            Stop::Settled,
        ),
        example("no-rows-by-columns", no_rows().by_columns(), Stop::NoData),
    ]
}

/// Writes NAME.frames of each example to a folder, with NAME.answer of the bench program and NAME.why of `why`.
pub fn write_all(folder: &Path) -> io::Result<()> {
    std::fs::create_dir_all(folder)?;
    for example in all() {
        let input = write(&example.problem);
        let name = |end| folder.join(format!("{}.{end}", example.name));
        std::fs::write(name("answer"), answered(&input).0)?;
        std::fs::write(name("why"), why::answered(&input).0)?;
        std::fs::write(name("frames"), input)?;
    }
    Ok(())
}

fn setup(threshold: f64, lambda: f64) -> Setup {
    Setup {
        threshold,
        lambda,
        max_iter: 10,
    }
}

/// Readings of every port, and the reference flow: each port's share, and noise.
fn readings(solver: Solver, rows: usize, shares: &[f64], noise: f64, setup: Setup) -> Problem {
    let mut rng = Rng::for_part(1, "examples", shares.len() as u64);
    let mut p = Problem::zeros(solver, rows, shares.len(), setup);
    for row in 0..rows {
        for (port, share) in shares.iter().enumerate() {
            let reading = rng.signed();
            p.set(row, port, reading);
            p.target[row] += share * reading;
        }
        p.target[row] += noise * rng.signed();
    }
    p
}

/// Eight ports of which four carry the flow; the noise gives the others a little, which the fit drops.
fn eight_ports() -> Problem {
    let shares = [1.5, 0.0, -0.75, 0.0, 0.0, 2.25, 0.0, 0.5];
    readings(Solver::Normal, 24, &shares, 0.2, setup(0.125, 1e-6))
}

/// Up to five ports, each of which also reads three quarters of the one before it. Port 0 is small; each time that a
/// port is dropped, the one behind it takes over a part of its share and is small then, but for the last two of five.
fn one_by_one(ports: usize, max_iter: usize) -> Problem {
    let shares = &[0.125, -0.25, 0.25, 1.0, -2.0][..ports];
    let mut p = Problem::zeros(Solver::Normal, ports, ports, setup(0.2, 0.0));
    p.setup.max_iter = max_iter;
    for row in 0..ports {
        let mut before = 0.0;
        for (port, share) in shares.iter().enumerate() {
            let own = if row == port { 1.0 } else { 0.0 };
            before = own + 0.75 * before;
            p.set(row, port, before);
            p.target[row] += share * before;
        }
    }
    p
}

/// Two ports in series read alike: no solve can tell them apart, unless lambda is above zero.
fn in_series(lambda: f64) -> Problem {
    let mut p = Problem::zeros(Solver::Normal, 6, 3, setup(0.25, lambda));
    let flow = [1.0, 2.0, -1.0, 3.0, 0.0, -2.0];
    let other = [0.0, 1.0, 1.0, -1.0, 2.0, 0.0];
    for row in 0..6 {
        p.set(row, 0, flow[row]);
        p.set(row, 1, other[row]);
        p.set(row, 2, flow[row]);
        p.target[row] = 2.0 * flow[row] + other[row];
    }
    p
}

/// One port reads litres an hour, the other cubic metres a second; the reference flow is in litres an hour.
fn two_units(solver: Solver) -> Problem {
    let litres = [900.0, -300.0, 600.0, 1200.0, -600.0, 300.0];
    let metres = [1.0, 2.0, -1.0, 1.0, 1.0, -3.0].map(|x| x / 4096.0);
    let mut p = Problem::zeros(solver, 6, 2, setup(0.125, 1.0 / 1024.0));
    for row in 0..6 {
        p.set(row, 0, litres[row]);
        p.set(row, 1, metres[row]);
        p.target[row] = 0.5 * litres[row] + 0.25 * 3_600_000.0 * metres[row];
    }
    p
}

/// A port that reads nothing, under least squares.
fn dead_port() -> Problem {
    let mut p = readings(
        Solver::Qr,
        12,
        &[1.0, -2.0, 0.0, 0.5],
        0.0,
        setup(0.1, 1e-9),
    );
    for row in 0..p.rows {
        p.set(row, 2, 0.0);
    }
    p
}

/// One reading of one port failed.
fn nan_reading(max_iter: usize) -> Problem {
    let mut p = readings(Solver::Normal, 8, &[1.0, 0.5, -1.5], 0.01, setup(0.1, 0.0));
    p.set(5, 1, f64::NAN);
    p.setup.max_iter = max_iter;
    p
}

/// One reading is infinite, and nothing is too small to be kept.
fn infinite_reading() -> Problem {
    let mut p = nan_reading(10);
    p.set(5, 1, f64::INFINITY);
    p.setup.threshold = 0.0;
    p
}

/// A header and nothing behind it: no reading was taken.
fn no_rows() -> Problem {
    Problem::zeros(Solver::Normal, 0, 3, setup(0.5, 0.0))
}

#[cfg(test)]
mod tests {
    use super::*;
    use crate::problem::Layout;

    #[test]
    fn each_shows_its_stop() {
        for example in all() {
            let (_, said) = answered(&write(&example.problem));
            let (_, fit) = said.expect("no example is refused");
            assert_eq!(fit.report.stop, example.stop, "{}", example.name);
        }
    }

    /// Those by columns are answered as the same by rows.
    #[test]
    fn both_layouts_are_answered_alike() {
        let by_columns = |example: &Example| example.problem.layout == Layout::ByColumns;
        let examples: Vec<Example> = all().into_iter().filter(by_columns).collect();
        assert_eq!(examples.len(), 4);
        for Example { problem, name, .. } in examples {
            let mut by_rows = problem.clone();
            by_rows.layout = Layout::ByRows;
            let (input, other) = (write(&problem), write(&by_rows));
            assert_ne!(input, other, "{name}");
            assert_eq!(answered(&input).0, answered(&other).0, "{name}");
            assert_eq!(why::answered(&input).0, why::answered(&other).0, "{name}");
        }
    }
}
