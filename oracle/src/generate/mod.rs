//! Inputs of the programs, of every kind, from a seed.

pub mod damage;
pub mod floats;
pub mod kinds;
pub mod setups;
pub mod special_kinds;
pub mod why_kinds;

use crate::exchange::Exchange;
use crate::frames::write;
use crate::histogram::Histogram;
use crate::problem::{Layout, Problem};
use crate::refusal::{MAX_FRAME_COLS, MAX_FRAME_ROWS};
use crate::rng::Rng;
use kinds::Size;
use std::io;
use std::path::Path;

/// What the bench program takes.
pub const FRAME_SIZE: Size = Size {
    rows: MAX_FRAME_ROWS,
    cols: MAX_FRAME_COLS,
};

/// An input and the name of its kind.
pub struct Made {
    pub kind: String,
    pub input: Vec<u8>,
}

/// A way to draw a problem up to a size, with its kind's name.
type Draw = fn(&mut Rng, Size) -> (&'static str, Problem);

/// Input number `index` of a seed: mostly well formed, else beyond a limit or damaged.
pub fn input(seed: u64, index: u64) -> Made {
    made(&mut Rng::for_part(seed, "frames", index), kinds::any)
}

/// The same for the program `why`.
pub fn why_input(seed: u64, index: u64) -> Made {
    made(&mut Rng::for_part(seed, "why", index), why_kinds::any)
}

fn made(rng: &mut Rng, draw: Draw) -> Made {
    match rng.below(10) {
        0 => Made {
            kind: "over".into(),
            input: damage::over(rng),
        },
        1 | 2 => damaged_by(rng, draw),
        _ => {
            let (kind, problem) = in_a_layout(rng, draw, FRAME_SIZE);
            Made {
                kind: kind.into(),
                input: write(&problem),
            }
        }
    }
}

/// A drawn problem, by columns as often as not.
fn in_a_layout(rng: &mut Rng, draw: Draw, size: Size) -> (&'static str, Problem) {
    let (kind, mut problem) = draw(rng, size);
    problem.layout = rng.pick(&Layout::ALL);
    (kind, problem)
}

/// Damaged input number `index` of a seed.
pub fn damaged(seed: u64, index: u64) -> Made {
    damaged_by(&mut Rng::for_part(seed, "damaged", index), kinds::any)
}

/// The same for the program `why`.
pub fn why_damaged(seed: u64, index: u64) -> Made {
    damaged_by(
        &mut Rng::for_part(seed, "why damaged", index),
        why_kinds::any,
    )
}

/// A good input, mostly of few frames, with damage done to it.
fn damaged_by(rng: &mut Rng, draw: Draw) -> Made {
    let few = Size { rows: 4, cols: 3 };
    let size = if rng.once_in(20) { FRAME_SIZE } else { few };
    let (_, problem) = in_a_layout(rng, draw, size);
    let mut input = write(&problem);
    let name = damage::any(rng, &mut input);
    Made {
        kind: format!("bad-{name}"),
        input,
    }
}

/// Makes a program's inputs with their answers, writes them as pairs where a folder is given, and counts the answers.
pub fn run(
    exchange: &Exchange,
    seed: u64,
    count: u64,
    folder: Option<&Path>,
) -> io::Result<Histogram> {
    let mut histogram = Histogram::default();
    if let Some(folder) = folder {
        std::fs::create_dir_all(folder)?;
    }
    for index in 0..count {
        let made = (exchange.input)(seed, index);
        let (answer, labels) = (exchange.answered)(&made.input);
        labels.iter().for_each(|label| histogram.count(label));
        if let Some(folder) = folder {
            let name = format!("{index:06}-{}", made.kind);
            std::fs::write(folder.join(format!("{name}.in")), &made.input)?;
            std::fs::write(folder.join(format!("{name}.out")), &answer)?;
        }
    }
    Ok(histogram)
}

#[cfg(test)]
mod tests {
    use super::*;
    use crate::cause::Cause;
    use crate::exchange::{FITBENCH, WHY, label};
    use crate::fit::{Fit, Stop, fit};
    use crate::frames::read;
    use crate::problem::{Code, Solver};
    use crate::refusal::Refusal::{self, *};

    /// Each solver in each layout meets each of these answers, by code and name, and each of these refusals.
    fn all_met(histogram: &Histogram, answers: &[(u64, String)], refusals: &[Refusal]) {
        for code in Code::all() {
            let answers = answers
                .iter()
                .map(|(number, name)| format!("{number:02x} {name}"));
            let refusals = refusals
                .iter()
                .map(|refusal| format!("ff{:02x} {refusal:?}", refusal.number()));
            for answer in answers.chain(refusals) {
                let name = label(&code.name(), answer);
                assert!(histogram.of(&name) > 5, "{name}\n{histogram}");
            }
        }
    }

    #[test]
    fn every_stop_and_refusal_is_met() {
        let histogram = run(&FITBENCH, 1, 20_000, None).unwrap();
        let stops = Stop::ALL.map(|stop| (stop.code(), format!("{stop:?}")));
        all_met(&histogram, &stops, &[Columns, Rows, Rounds, MalformedFrame]);
    }

    #[test]
    fn every_cause_and_refusal_is_met() {
        let histogram = run(&WHY, 1, 20_000, None).unwrap();
        let names = Cause::NAMES.iter().map(|name| name.to_string());
        let causes: Vec<(u64, String)> = (0..).zip(names).collect();
        let refusals = [Columns, Rows, Rounds, Threshold, MalformedFrame];
        all_met(&histogram, &causes, &refusals);
    }

    /// Does a test hold of a reading and its coefficient, at a term that is kept, or at one that is not?
    fn at_some(p: &Problem, fit: &Fit, kept: bool, test: fn(f64, f64) -> bool) -> bool {
        let terms = (0..p.cols).filter(|j| (fit.report.kept >> j & 1 == 1) == kept);
        let mut places = terms.flat_map(|j| (0..p.rows).map(move |row| (row, j)));
        places.any(|(row, j)| test(p.at(row, j), fit.coeffs[j]))
    }

    /// The error is a number though the test holds of a reading and its coefficient at a term that is not kept.
    fn a_number_though(p: &Problem, fit: &Fit, test: fn(f64, f64) -> bool) -> bool {
        fit.report.error.is_finite() && at_some(p, fit, false, test)
    }

    /// It ended so, and the target is not all zeros.
    fn ended(fit: &Fit, stop: Stop) -> bool {
        fit.report.stop == stop && fit.report.error > 0.0
    }

    /// Where a report's error may go wrong, and whether a fit is there.
    type Edge = (&'static str, fn(&Problem, &Fit) -> bool);

    const EDGES: [Edge; 10] = [
        ("no rows", |p, _| p.rows == 0),
        ("no columns", |p, fit| {
            p.cols == 0 && ended(fit, Stop::NoData)
        }),
        ("first refused", |_, fit| ended(fit, Stop::FirstRefused)),
        ("refit refused", |_, fit| ended(fit, Stop::RefitRefused)),
        ("nothing kept", |_, fit| {
            fit.report.kept == 0 && ended(fit, Stop::Empty)
        }),
        ("kept zero", |p, fit| {
            at_some(p, fit, true, |_, c| c == 0.0) && fit.report.error.is_finite()
        }),
        ("kept zero times infinity", |p, fit| {
            at_some(p, fit, true, |x, c| x.is_infinite() && c == 0.0)
        }),
        ("broken, not kept", |p, fit| {
            a_number_though(p, fit, |x, _| !x.is_finite())
        }),
        ("NaN left", |p, fit| {
            a_number_though(p, fit, |_, c| c.is_nan())
        }),
        ("infinite", |_, fit| fit.report.error == f64::INFINITY),
    ];

    #[test]
    fn every_edge_of_the_error_is_met() {
        let mut histogram = Histogram::default();
        for p in (0..20_000).filter_map(|index| read(&input(1, index).input).ok()) {
            let fit = fit(&p);
            for (name, _) in EDGES.iter().filter(|edge| edge.1(&p, &fit)) {
                histogram.count(&format!("{} {name}", p.solver.name()));
            }
        }
        let solvers = Solver::ALL.iter();
        let names =
            solvers.flat_map(|solver| EDGES.map(|(name, _)| format!("{} {name}", solver.name())));
        for name in names {
            assert!(histogram.of(&name) > 5, "{name}\n{histogram}");
        }
    }

    #[test]
    fn a_seed_gives_the_same_inputs() {
        for index in 0..50 {
            for exchange in [FITBENCH, WHY] {
                for made in [exchange.input, exchange.damaged] {
                    assert_eq!(made(3, index).input, made(3, index).input);
                }
            }
        }
    }
}
