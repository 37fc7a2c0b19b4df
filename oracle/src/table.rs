//! The numbers of document 01, held against the published Rust: a line each.

use crate::bits::{first_difference, same};
use crate::cause::Cause;
use crate::fit::{NO_TERM, Stop, fit};
use crate::frames::respond;
use crate::linalg::{invert_spd, qr, solve_lu, solve_spd_cholesky};
use crate::model;
use crate::problem::{Code, Layout, Problem, Setup, Solver};
use crate::refusal::Refusal;

/// One number of the table.
pub struct Line {
    pub name: &'static str,
    pub says: String,
    pub holds: bool,
}

/// All of them, in document 01's order, then its frame and its sizes.
pub fn lines() -> Vec<Line> {
    let mut lines = roots();
    lines.extend(fits());
    lines.extend(causes());
    lines.extend(solvers());
    lines.extend(inverses());
    lines.extend(exchanges());
    lines.extend(by_columns());
    lines.extend(sizes());
    lines
}

fn line(name: &'static str, says: impl Into<String>, holds: bool) -> Line {
    Line {
        name,
        says: says.into(),
        holds,
    }
}

fn roots() -> Vec<Line> {
    let root = |name, x: f64, bits: u64| {
        let r = std::hint::black_box(x).sqrt();
        line(
            name,
            format!("root of {x:e} is {:016x}", r.to_bits()),
            r.to_bits() == bits,
        )
    };
    vec![
        root("R1", 4.0, 2.0_f64.to_bits()),
        root("R2", 2.0, 0x3ff6_a09e_667f_3bcd),
        root("R3", -0.0, (-0.0_f64).to_bits()),
        root("R4", f64::from_bits(1), 0x1e60_0000_0000_0000),
        root("R5", f64::MAX, 0x5fef_ffff_ffff_ffff),
    ]
}

/// F1's problem, at another threshold and limit.
pub fn f1(threshold: f64, max_iter: usize) -> Problem {
    let setup = Setup {
        threshold,
        lambda: 0.0,
        max_iter,
    };
    let mut p = Problem::zeros(Solver::Normal, 2, 2, setup);
    p.theta = vec![1.0, 0.0, 0.0, 1.0];
    p.target = vec![3.0, 0.25];
    p
}

/// Ones on theta's diagonal and at row 0, column 1: the first solve gives term 0 the difference of the first two targets, and a refit without term 1 only the first.
fn falling(target: &[f64]) -> Problem {
    let n = target.len();
    let setup = Setup {
        threshold: 0.5,
        lambda: 0.0,
        max_iter: 1,
    };
    let mut p = Problem::zeros(Solver::Normal, n, n, setup);
    for term in 0..n {
        p.theta[term * n + term] = 1.0;
    }
    p.theta[1] = 1.0;
    p.target = target.to_vec();
    p
}

/// A problem of one row and one column.
fn one(theta: f64, target: f64, lambda: f64, threshold: f64, max_iter: usize) -> Problem {
    let mut p = Problem::zeros(
        Solver::Normal,
        1,
        1,
        Setup {
            threshold,
            lambda,
            max_iter,
        },
    );
    p.theta = vec![theta];
    p.target = vec![target];
    p
}

fn fits() -> Vec<Line> {
    use Stop::*;
    let case_at = |name, p: Problem, coeffs: &[f64], stop, refits, kept, term, error| {
        let got = fit(&p);
        let r = got.report;
        let told = (r.stop, r.refits, r.kept, r.term) == (stop, refits, kept, term);
        let fitted = first_difference(&got.coeffs, coeffs).is_none();
        let says = format!(
            "{:?}, {:?}, {} refits, word {:x}, term {:02x}, error {:e}",
            got.coeffs, r.stop, r.refits, r.kept, r.term, r.error
        );
        line(name, says, told && fitted && same(r.error, error))
    };
    let case = |name, p, coeffs: &[f64], stop, refits, kept, error| {
        case_at(name, p, coeffs, stop, refits, kept, NO_TERM, error)
    };
    let (nan, below) = (f64::NAN, 1_f64.next_down());
    let (large, tiny) = (2.0_f64.powi(56) + 64.0, 2.0_f64.powi(-60));
    vec![
        case("F1", f1(0.5, 10), &[3.0, 0.0], Settled, 1, 1, 0.0625),
        case("F2", f1(0.5, 0), &[3.0, 0.0], OutOfRounds, 0, 1, 0.0625),
        case("F3", f1(0.5, 1), &[3.0, 0.0], Settled, 1, 1, 0.0625),
        case("F4", f1(4.0, 10), &[0.0, 0.0], Empty, 0, 0, 9.0625),
        case_at("F5", f5(), &[0.0], FirstRefused, 0, 0, 0, 1.0),
        case("F6", f6(), &[0.5], Settled, 1, 1, 0.0),
        case("F7", f7(), &[-0.0], OutOfRounds, 0, 1, 1.0),
        case("F8", f8(0), &[nan], OutOfRounds, 0, 0, nan),
        case("F8", f8(1), &[0.0], Empty, 0, 0, nan),
        case("G2", no_rows(), &[0.0; 2], NoData, 0, 3, 0.0),
        case("G3", g3(), &[0.0; 2], OutOfRounds, 1, 0, 0.125),
        case("G4", g4(), &[0.0, 0.0, 3.0], OutOfRounds, 1, 4, 0.125),
        case_at("G5", g5(), &[0.0; 2], RefitRefused, 1, 0, 1, 9.0),
        case_at("G6", g6(), &[0.0; 2], FirstRefused, 0, 0, 1, 1.0),
        case_at("G7", g7(), &[0.0; 2], FirstRefused, 0, 0, 1, 1.0),
        case_at("G8", g8(), &[0.0; 3], RefitRefused, 1, 0, 2, 1.0),
        case("G9", g9(), &[below, 1.0, 1.0], Settled, 1, 7, large),
        case("G10", apart(0.5, 1.0), &[0.5, 1.0], Settled, 1, 3, 36.5625),
        case("G11", apart(1.0, 0.25), &[0.0, 1.0], Settled, 1, 2, 36.0625),
        case("G12", g12(), &[nan], OutOfRounds, 0, 0, 1.0),
        case("G13", infinite(0.0), &[0.0], Empty, 0, 1, nan),
        case("G14", infinite(0.5), &[0.0], Empty, 0, 0, 1.0),
        case(
            "G15",
            cancelling(),
            &[-1.0, 1.0],
            Settled,
            1,
            3,
            tiny * tiny,
        ),
        case("G16", no_columns(), &[], NoData, 0, 0, 9.0625),
    ]
}

/// Why the terms of some of these fits were kept or not.
fn causes() -> Vec<Line> {
    use Cause::*;
    let case = |name, p: Problem, wanted: &[Cause]| {
        let got = fit(&p).causes;
        line(name, format!("{got:?}"), got == wanted)
    };
    vec![
        case("F1", f1(0.5, 10), &[Kept, Dropped(1, 0.25)]),
        case("F2", f1(0.5, 0), &[Kept, Zeroed(0.25)]),
        case("F3", f1(0.5, 1), &[Kept, Dropped(1, 0.25)]),
        case("F4", f1(4.0, 10), &[Dropped(1, 3.0), Dropped(1, 0.25)]),
        case("F5", f5(), &[FirstRefused]),
        case("F8", f8(0), &[LeftNan]),
        case("G4", g4(), &[Zeroed(-0.25), Dropped(1, 0.25), Kept]),
        case("G5", g5(), &[Dropped(1, 0.0), Cleared(1)]),
    ]
}

fn f5() -> Problem {
    one(0.0, 1.0, 0.0, 0.5, 1)
}

fn f6() -> Problem {
    one(1.0, 0.5, 0.0, 0.5, 2)
}

fn f7() -> Problem {
    one(0.0, 1.0, -1.0, 0.0, 0)
}

fn f8(max_iter: usize) -> Problem {
    one(1.0, f64::NAN, 0.0, 0.5, max_iter)
}

/// Both terms fall, one after the other.
fn g3() -> Problem {
    falling(&[-0.25, 0.25])
}

/// So do two of three.
fn g4() -> Problem {
    falling(&[-0.25, 0.25, 3.0])
}

/// Some readings of some ports, threshold 0.5.
fn rows(solver: Solver, theta: &[f64], target: &[f64], lambda: f64) -> Problem {
    let setup = Setup {
        threshold: 0.5,
        lambda,
        max_iter: 10,
    };
    let cols = theta.len() / target.len();
    let mut p = Problem::zeros(solver, target.len(), cols, setup);
    p.theta = theta.to_vec();
    p.target = target.to_vec();
    p
}

/// The refit of the second column alone is refused: its place is 0, its term 1.
fn g5() -> Problem {
    rows(Solver::Normal, &[1.0, 1.0, 1.0, 0.0], &[0.0, 3.0], -1.0)
}

/// Cholesky refuses the first column, whose sum is small beside the other's; LU the second.
fn g6() -> Problem {
    rows(Solver::Normal, &[1.0, 33_554_432.0], &[1.0], 0.0)
}

/// Both columns are zeros: the back substitution meets the last one first.
fn g7() -> Problem {
    rows(Solver::Qr, &[0.0; 2], &[1.0], 0.0)
}

/// Ports 1 and 2 are alike. Their refit is refused at place 1, which is term 2.
pub fn g8() -> Problem {
    let theta = [1.0, 16.0, 16.0, 0.0, 0.0, 0.0, 2.0, 0.0, 0.0];
    rows(Solver::Qr, &theta, &[0.0, 1.0, 0.0], 0.0)
}

/// Damped in proportion by 4: a sum just below 2^-52, which gets 4, one of 2^-52 and one of 4, which get four times themselves.
fn g9() -> Problem {
    let small = 2.0_f64.powi(-26);
    let theta = [small.next_down(), 0.0, 0.0, 0.0, small, 0.0, 0.0, 0.0, 2.0];
    let target = [2.0_f64.powi(28), 5.0 * small, 10.0];
    rows(Solver::Marquardt, &theta, &target, 4.0)
}

/// Damped in proportion by 3: a port of this reading and target, and one of reading 2 and target 8.
fn apart(reading: f64, target: f64) -> Problem {
    rows(
        Solver::Marquardt,
        &[reading, 0.0, 0.0, 2.0],
        &[target, 8.0],
        3.0,
    )
}

/// A sum that is NaN, damped in proportion.
fn g12() -> Problem {
    let mut p = rows(Solver::Marquardt, &[f64::NAN], &[1.0], 3.0);
    p.setup.max_iter = 0;
    p
}

/// An infinite reading, whose solve gives a NaN: the look finds nothing. At a threshold of zero the cleared term is kept.
fn infinite(threshold: f64) -> Problem {
    one(f64::INFINITY, 1.0, 0.0, threshold, 1)
}

/// The products of the first row, -1 and 1, cancel, and its target is left; taken from it in turn they would leave nothing.
fn cancelling() -> Problem {
    let target = [2.0_f64.powi(-60), 1.0];
    rows(Solver::Normal, &[1.0, 1.0, 0.0, 1.0], &target, 0.0)
}

/// Two ports and no reading, at a threshold of zero.
fn no_rows() -> Problem {
    let mut p = f1(0.0, 10);
    (p.rows, p.theta, p.target) = (0, vec![], vec![]);
    p
}

/// F1's target alone.
pub fn no_columns() -> Problem {
    let mut p = f1(0.5, 10);
    (p.cols, p.theta) = (0, vec![]);
    p
}

fn solvers() -> Vec<Line> {
    let (mut a, mut b) = (vec![1.0, 2.0, -1.0, 3.0], vec![1.0, 4.0]);
    let accepted = solve_lu(&mut a, &mut b, 2).is_ok();
    let l1 = accepted
        && first_difference(&b, &[-1.0, 1.0]).is_none()
        && first_difference(&a, &[1.0, 2.0, -1.0, 5.0]).is_none();

    let q = qr(&[-0.0, 1.0], 2, 1).expect("two rows and a column");
    let q1 = first_difference(&q.data, &[-1.0, 1.0]).is_none() && same(q.betas[0], 1.0);

    let cholesky = |x: f64| solve_spd_cholesky(&mut [x], &mut [1.0], 1).is_ok();
    let lu = |x: f64| solve_lu(&mut [x], &mut [1.0], 1).is_ok();
    let up = 1e-14_f64.next_up();
    let down = 1e-15_f64.next_down();
    vec![
        line("L1", format!("x {b:?}, matrix {a:?}"), l1),
        line("Q1", format!("data {:?}, beta {:?}", q.data, q.betas), q1),
        line("C1", "Cholesky of 1e-14 is refused", !cholesky(1e-14)),
        line("C1", format!("Cholesky of {up:e} passes"), cholesky(up)),
        line("C2", "LU of 1e-15 is accepted", lu(1e-15)),
        line("C2", format!("LU of {down:e} is refused"), !lu(down)),
    ]
}

/// The inverses of the proved table.
fn inverses() -> Vec<Line> {
    let inverse = invert_spd(&[2.0, 1.0, 1.0, 2.0], 2).expect("it is positive definite");
    let bits = [
        0x3fe5_5555_5555_5554,
        0xbfd5_5555_5555_5556,
        0xbfd5_5555_5555_5555,
        0x3fe5_5555_5555_5557,
    ];
    let i1 = first_difference(&inverse, &bits.map(f64::from_bits)).is_none();

    let (mut out, mut workspace, mut column) = ([3.0, 5.0, 1.0, 2.0], [7.0; 6], 9);
    let refused = model::invert_spd(
        &[4.0, 2.0, 2.0, -1.0],
        2,
        &mut out,
        &mut workspace,
        &mut column,
    );
    let i2 = (refused, column) == (Err(Refusal::Cholesky), 1) && out == [3.0, 5.0, 1.0, 2.0];
    vec![
        line("I1", format!("inverse {inverse:?}"), i1),
        line("I2", "8 at column 1 leaves all of the output", i2),
    ]
}

/// F1 as frames, by rows and by columns.
fn exchanges() -> [Line; 2] {
    let by_rows = "01000202000a3fe00000000000000000000000000000\n\
        40080000000000003ff00000000000000000000000000000\n\
        3fd000000000000000000000000000003ff0000000000000\n";
    let by_columns = "11000202000a3fe00000000000000000000000000000\n\
        40080000000000003fd0000000000000\n\
        3ff00000000000000000000000000000\n\
        00000000000000003ff0000000000000\n";
    let output = "0400010000000000000001ff3fb0000000000000\n4008000000000000\n0000000000000000\n";
    let answered = |input: &str| respond(input.as_bytes()) == output.as_bytes();
    [
        line("F1", "as frames, byte for byte", answered(by_rows)),
        line("F1", "by columns, byte for byte", answered(by_columns)),
    ]
}

/// G17: three readings of two ports, a port after the other; the second alone is kept. By rows the second port would be dead.
fn by_columns() -> [Line; 3] {
    let (theta, target) = ([1.0, 0.0, 0.0, 0.0, 1.0, 0.0], [0.25, 3.0, 0.0]);
    Solver::ALL.map(|solver| {
        let setup = Setup {
            threshold: 0.5,
            lambda: 0.0,
            max_iter: 10,
        };
        let (mut coeffs, mut workspace) = ([9.0; 2], [9.0; 64]);
        let code = Code {
            solver,
            layout: Layout::ByColumns,
        };
        let report = model::fit(
            code,
            &theta,
            3,
            2,
            &target,
            setup,
            &mut coeffs,
            &mut workspace,
        );
        let settled = report
            .is_ok_and(|r| (r.stop, r.refits, r.kept, r.error) == (Stop::Settled, 1, 2, 0.0625));
        line(
            "G17",
            format!("{} {coeffs:?}", code.name()),
            coeffs.map(f64::to_bits) == [0.0, 3.0].map(f64::to_bits) && settled,
        )
    })
}

/// The size sentences, by the model of the calls.
fn sizes() -> Vec<Line> {
    let fit = |cols: usize, max_iter: usize, short: usize| {
        let setup = Setup {
            threshold: 0.5,
            lambda: 1.0,
            max_iter,
        };
        let mut p = Problem::zeros(Solver::Normal, 1, cols, setup);
        p.theta.fill(1.0);
        let needed = 3 * cols * cols + 2 * cols;
        let (mut coeffs, mut workspace) = (vec![1.0; cols], vec![1.0; needed - short]);
        model::fit(
            p.code(),
            &p.theta,
            1,
            cols,
            &p.target,
            setup,
            &mut coeffs,
            &mut workspace,
        )
        .err()
    };
    vec![
        line("size", "64 columns pass", fit(64, 1, 0).is_none()),
        line(
            "size",
            "65 columns give 1",
            fit(65, 1, 0) == Some(Refusal::Columns),
        ),
        line("size", "max_iter 1,000 passes", fit(1, 1000, 0).is_none()),
        line(
            "size",
            "max_iter 1,001 gives 3",
            fit(1, 1001, 0) == Some(Refusal::Rounds),
        ),
        line(
            "size",
            "a workspace one short gives 7",
            fit(3, 1, 1) == Some(Refusal::Workspace),
        ),
    ]
}

#[cfg(test)]
mod tests {
    #[test]
    fn every_number_holds() {
        for line in super::lines() {
            assert!(line.holds, "{}: {}", line.name, line.says);
        }
    }
}
