//! Each call by columns against the call by rows on the transpose: answer, coefficients and workspace.

use dapmotar::*;

type Fit =
    fn(&[f64], usize, usize, &[f64], Setup, &mut [f64], &mut [f64]) -> Result<Report, Refusal>;

type Workspace = fn(usize, usize) -> usize;

/// A solver's fit by rows, its fit by columns, and the workspace of both.
const FITS: [(Solver, Fit, Fit, Workspace); 3] = [
    (Solver::Normal, strlsq, strlsq_by_columns, strlsq_workspace),
    (
        Solver::Qr,
        strlsq_qr,
        strlsq_qr_by_columns,
        strlsq_qr_workspace,
    ),
    (
        Solver::Marquardt,
        strlsq_marquardt,
        strlsq_marquardt_by_columns,
        strlsq_marquardt_workspace,
    ),
];

const SETUP: Setup = Setup {
    threshold: 0.25,
    lambda: 1e-3,
    max_iter: 10,
};

/// Entry (i, j): no two of a matrix are alike, and none is that of (j, i).
fn entry(i: usize, j: usize) -> f64 {
    let x = ((i * 37 + j * 101) * 7919 % 1009) as f64 / 256.0 - 2.0;
    if i == j { x + 3.0 } else { x }
}

fn by_rows(rows: usize, cols: usize) -> Vec<f64> {
    let row = |i| (0..cols).map(move |j| entry(i, j));
    (0..rows).flat_map(row).collect()
}

fn by_columns(rows: usize, cols: usize) -> Vec<f64> {
    let column = |j| (0..rows).map(move |i| entry(i, j));
    (0..cols).flat_map(column).collect()
}

/// Every second column carries the target, the others hardly do.
fn target(rows: usize, cols: usize) -> Vec<f64> {
    let share = |j: usize| [1.5, 0.01][j % 2];
    let sum = |i| (0..cols).map(|j| entry(i, j) * share(j)).sum();
    (0..rows).map(sum).collect()
}

const SHAPES: [(usize, usize); 9] = [
    (0, 0),
    (0, 3),
    (3, 0),
    (1, 1),
    (5, 2),
    (31, 7),
    (32, 5),
    (33, 4),
    (100, 64),
];

#[test]
fn fits() {
    for (rows, cols) in SHAPES {
        let target = target(rows, cols);
        for (solver, fit, fit_by_columns, workspace) in FITS {
            let run = |fit: Fit, theta: &[f64]| {
                let mut coeffs = vec![9.0; cols];
                let mut space = vec![9.0; workspace(rows, cols) + 1];
                let report = fit(theta, rows, cols, &target, SETUP, &mut coeffs, &mut space);
                (report.expect("accepted"), coeffs, space)
            };
            let one = run(fit, &by_rows(rows, cols));
            let other = run(fit_by_columns, &by_columns(rows, cols));
            assert_eq!(other, one, "{solver:?} at {rows}x{cols}");
            if (rows, cols) == (31, 7) {
                assert_eq!((one.0.stop, one.0.kept), (Stop::Settled, 0b101_0101));
                // read by rows it is another matrix
                assert_ne!(run(fit, &by_columns(rows, cols)), one, "{solver:?}");
            }
        }
    }
}

#[test]
fn causes() {
    for (rows, cols) in SHAPES {
        let target = target(rows, cols);
        for (solver, _, _, workspace) in FITS {
            for term in 0..=cols {
                let room = || (vec![9.0; cols], vec![9.0; workspace(rows, cols) + 1]);
                let (mut one, mut other) = (room(), room());
                let cause = why(
                    solver,
                    &by_rows(rows, cols),
                    rows,
                    cols,
                    &target,
                    SETUP,
                    term,
                    &mut one.0,
                    &mut one.1,
                );
                let cause_by_columns = why_by_columns(
                    solver,
                    &by_columns(rows, cols),
                    rows,
                    cols,
                    &target,
                    SETUP,
                    term,
                    &mut other.0,
                    &mut other.1,
                );
                assert_eq!(
                    cause_by_columns, cause,
                    "{solver:?} at {rows}x{cols}, {term}"
                );
                assert_eq!(other, one);
                if (rows, term) == (31, 1) {
                    assert!(matches!(cause, Ok(Cause::Dropped(1, c)) if c != 0.0));
                }
            }
        }
    }
}

/// The refusals come as by rows, in the same order, and leave everything.
#[test]
fn refusals() {
    let refused = |rows, cols, max_iter, theta: usize, target: usize, coeffs: usize, short| {
        let all = FITS.map(|(_, _, fit, workspace)| {
            let setup = Setup { max_iter, ..SETUP };
            let mut out = vec![9.0; coeffs];
            let mut space = vec![9.0; workspace(rows, cols).saturating_sub(short)];
            let (theta, target) = (vec![1.0; theta], vec![1.0; target]);
            let answer = fit(&theta, rows, cols, &target, setup, &mut out, &mut space);
            assert!(out.iter().chain(&space).all(|&x| x == 9.0));
            answer.expect_err("refused")
        });
        assert!(all.iter().all(|refusal| *refusal == all[0]), "{all:?}");
        all[0]
    };
    assert_eq!(refused(4097, 65, 1001, 1, 1, 1, 1), Refusal::Columns);
    assert_eq!(refused(4097, 2, 1001, 1, 1, 1, 1), Refusal::Rows);
    assert_eq!(refused(3, 2, 1001, 1, 1, 1, 1), Refusal::Rounds);
    assert_eq!(refused(3, 2, 1, 9, 1, 1, 1), Refusal::Matrix);
    assert_eq!(refused(3, 2, 1, 4, 1, 1, 1), Refusal::Matrix);
    assert_eq!(refused(3, 2, 1, 6, 2, 1, 1), Refusal::RightHandSide);
    assert_eq!(refused(3, 2, 1, 6, 3, 3, 1), Refusal::Output);
    assert_eq!(refused(3, 2, 1, 6, 3, 2, 1), Refusal::Workspace);
}

#[test]
fn exchanges() {
    let input = b"11000202000a3fe00000000000000000000000000000\n\
        40080000000000003fd0000000000000\n\
        3ff00000000000000000000000000000\n\
        00000000000000003ff0000000000000\n";
    let said = b"0400010000000000000001ff3fb0000000000000\n4008000000000000\n0000000000000000\n";
    assert_eq!(respond(input, &mut [0; ANSWER]), said);
    let causes = b"0200000000000000000000\n0300013fd0000000000000\n";
    assert_eq!(respond_why(input, &mut [0; WHY_ANSWER]), causes);
    // without rows a line for the targets and one a column
    let empty = |lines| format!("120000020001{:016x}{:016x}\n{}", 1, 0, "\n".repeat(lines));
    let none = b"0000000000000000000000\n0000000000000000000000\n";
    assert_eq!(respond_why(empty(3).as_bytes(), &mut [0; WHY_ANSWER]), none);
    for lines in [0, 2, 4] {
        let answer = &mut [0; WHY_ANSWER];
        assert_eq!(respond_why(empty(lines).as_bytes(), answer), b"ff0b\n");
    }
}
