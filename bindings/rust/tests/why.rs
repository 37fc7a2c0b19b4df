//! `why` once for each cause and each of its own refusals, and its program's exchange.

use dapmotar::*;

const SETUP: Setup = Setup {
    threshold: 0.5,
    lambda: 0.0,
    max_iter: 10,
};

/// Two ports, each read once: the first solve gives the targets themselves.
fn asked(target: [f64; 2], setup: Setup, term: usize) -> Result<Cause, Refusal> {
    let (mut coeffs, mut workspace) = ([9.0; 2], vec![9.0; strlsq_workspace(2, 2)]);
    let theta = [1.0, 0.0, 0.0, 1.0];
    let cause = why(
        Solver::Normal,
        &theta,
        2,
        2,
        &target,
        setup,
        term,
        &mut coeffs,
        &mut workspace,
    );
    match cause {
        Ok(_) => assert_eq!(workspace, [0.0; 16]),
        Err(_) => assert_eq!((coeffs, workspace), ([9.0; 2], vec![9.0; 16])),
    }
    cause
}

#[test]
fn kept_dropped_zeroed_and_left() {
    let none = Setup {
        max_iter: 0,
        ..SETUP
    };
    assert_eq!(asked([3.0, 0.25], SETUP, 0), Ok(Cause::Kept));
    assert_eq!(asked([3.0, 0.25], SETUP, 1), Ok(Cause::Dropped(1, 0.25)));
    assert_eq!(asked([0.25, -0.25], SETUP, 1), Ok(Cause::Dropped(1, -0.25)));
    assert_eq!(asked([3.0, 0.25], none, 1), Ok(Cause::Zeroed(0.25)));
    assert_eq!(asked([f64::NAN, f64::NAN], none, 0), Ok(Cause::LeftNan));
    let dropped = asked([f64::NAN, f64::NAN], SETUP, 0);
    assert!(matches!(dropped, Ok(Cause::Dropped(1, c)) if c.is_nan()));
}

#[test]
fn no_data_and_refused_solves() {
    let mut workspace = vec![9.0; strlsq_qr_workspace(3, 3)];
    let mut ask = |solver, theta: &[f64], rows, cols, target: &[f64], lambda, term| {
        let setup = Setup { lambda, ..SETUP };
        let mut coeffs = vec![9.0; cols];
        let cause = why(
            solver,
            theta,
            rows,
            cols,
            target,
            setup,
            term,
            &mut coeffs,
            &mut workspace,
        );
        assert_eq!(coeffs, vec![0.0; cols]);
        cause
    };
    assert_eq!(ask(Solver::Qr, &[], 0, 2, &[], 0.0, 1), Ok(Cause::NoData));
    assert_eq!(
        ask(Solver::Marquardt, &[0.0], 1, 1, &[1.0], 0.0, 0),
        Ok(Cause::FirstRefused)
    );
    // the first look drops port 0, and the refit of port 1 alone is refused
    let theta = [1.0, 1.0, 1.0, 0.0];
    let mut refused = |term| ask(Solver::Normal, &theta, 2, 2, &[0.0, 3.0], -1.0, term);
    assert_eq!(refused(0), Ok(Cause::Dropped(1, 0.0)));
    assert_eq!(refused(1), Ok(Cause::Cleared(1)));
}

#[test]
fn refusals_in_order() {
    let with = |threshold, max_iter| Setup {
        threshold,
        max_iter,
        ..SETUP
    };
    assert_eq!(asked([3.0, 0.25], with(0.0, 1001), 2), Err(Refusal::Rounds));
    assert_eq!(
        asked([3.0, 0.25], with(0.0, 10), 2),
        Err(Refusal::Threshold)
    );
    let nan = with(f64::NAN, 10);
    assert_eq!(asked([3.0, 0.25], nan, 1), Err(Refusal::Threshold));
    assert_eq!(asked([3.0, 0.25], SETUP, 2), Err(Refusal::Term));
    let infinite = with(f64::INFINITY, 10);
    assert_eq!(asked([3.0, 0.25], infinite, 0), Ok(Cause::Dropped(1, 3.0)));
    let short = why(
        Solver::Normal,
        &[1.0],
        1,
        1,
        &[],
        SETUP,
        1,
        &mut [],
        &mut [],
    );
    assert_eq!(short, Err(Refusal::Term));
}

#[test]
fn exchange() {
    let input = b"01000202000a3fe00000000000000000000000000000\n\
        40080000000000003ff00000000000000000000000000000\n\
        3fd000000000000000000000000000003ff0000000000000\n";
    let mut answer = [b'.'; WHY_ANSWER];
    let said = b"0200000000000000000000\n0300013fd0000000000000\n";
    assert_eq!(respond_why(input, &mut answer), said);
    assert_eq!(answer[said.len()..], [b'.'; WHY_ANSWER][said.len()..]);
    let no_threshold = format!("01000202000a{:032x}\n", 0);
    assert_eq!(respond_why(no_threshold.as_bytes(), &mut answer), b"ff0c\n");
}
