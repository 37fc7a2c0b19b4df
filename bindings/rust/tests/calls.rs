//! Each safe wrapper once: its answer, and a refusal.

use dapmotar::*;

#[test]
fn root_and_magnitude() {
    assert_eq!(sqrt(4.0), 2.0);
    assert_eq!(sqrt(2.0).to_bits(), 0x3ff6_a09e_667f_3bcd);
    assert_eq!(abs(-0.0).to_bits(), 0);
}

/// NaN of both signs, quiet and signalling, with payloads.
const NANS: [u64; 5] = [
    0x7ff8_0000_0000_0000,
    0xfff8_0000_0000_0000,
    0x7ff0_0000_0000_0001,
    0xfff0_0000_0000_0001,
    0xffff_ffff_ffff_ffff,
];

#[test]
fn the_bits_of_a_nan() {
    let smallest = f64::from_bits(0x8000_0000_0000_0001);
    let below_zero = [-1.0, f64::NEG_INFINITY, f64::MIN, smallest];
    for x in NANS.map(f64::from_bits).into_iter().chain(below_zero) {
        assert_eq!(sqrt(x).to_bits(), 0x7ff8_0000_0000_0000, "{x:e}");
    }
    for bits in NANS {
        assert_eq!(abs(f64::from_bits(bits)).to_bits(), bits);
    }
}

#[test]
fn builders() {
    let (mut sums, mut products) = ([9.0; 4], [9.0; 2]);
    let jac = [1.0, 2.0, 3.0, 4.0];
    assert_eq!(jtj(&jac, 2, 2, 0.5, &mut sums), Ok(()));
    assert_eq!(sums, [10.5, 14.0, 14.0, 20.5]);
    assert_eq!(jtj_marquardt(&jac, 2, 2, 0.5, &mut sums), Ok(()));
    assert_eq!(sums, [15.0, 14.0, 14.0, 30.0]);
    // sums just below 2^-52 and exactly there
    let small = [
        f64::from_bits(0x3e4f_ffff_ffff_ffff),
        0.0,
        0.0,
        2f64.powi(-26),
    ];
    assert_eq!(jtj_marquardt(&small, 2, 2, 4.0, &mut sums), Ok(()));
    assert_eq!(sums, [4.0, 0.0, 0.0, 5.0 * f64::EPSILON]);
    assert_eq!(jtr(&jac, &[1.0, -1.0], 2, 2, &mut products), Ok(()));
    assert_eq!(products, [-2.0, -2.0]);
    assert_eq!(jtj(&jac, 2, 65, 0.5, &mut sums), Err(Refusal::Columns));
    assert_eq!(jtj(&jac, 4097, 2, 0.5, &mut sums), Err(Refusal::Rows));
    assert_eq!(
        jtj_marquardt(&jac, 3, 2, 0.5, &mut sums),
        Err(Refusal::Matrix)
    );
    assert_eq!(
        jtr(&jac, &[1.0], 2, 2, &mut products),
        Err(Refusal::RightHandSide)
    );
    assert_eq!(
        jtr(&jac, &[1.0, -1.0], 2, 2, &mut sums),
        Err(Refusal::Output)
    );
}

#[test]
fn square_solvers() {
    let (mut a, mut b) = ([4.0, 2.0, 2.0, 5.0], [8.0, 8.0]);
    assert_eq!(solve_spd_cholesky(&mut a, &mut b, 2), Ok(()));
    assert_eq!(b, [1.5, 1.0]);
    let mut a = [1e-14];
    assert_eq!(
        solve_spd_cholesky(&mut a, &mut [1.0], 1),
        Err(Refusal::Cholesky(0))
    );
    // a signalling NaN is passed over in the scale, on every processor
    let mut a = [0.0, 0.0, 0.0, f64::from_bits(0x7ff0_0000_0000_0001)];
    assert_eq!(
        solve_spd_cholesky(&mut a, &mut [1.0, 1.0], 2),
        Err(Refusal::Cholesky(0))
    );

    let (mut a, mut b) = ([1.0, 2.0, -1.0, 3.0], [1.0, 4.0]);
    assert_eq!(solve_lu(&mut a, &mut b, 2), Ok(()));
    assert_eq!((a, b), ([1.0, 2.0, -1.0, 5.0], [-1.0, 1.0]));
    assert_eq!(
        solve_lu(&mut [0.0], &mut [1.0], 1),
        Err(Refusal::SmallPivot(0))
    );
    // Cholesky refuses at column 0, LU at column 1: the normal equations tell LU's
    let (scale, series) = (
        33_554_432.0,
        [1.0, 33_554_432.0, 33_554_432.0, 33_554_432.0 * 33_554_432.0],
    );
    assert_eq!(
        solve_spd_cholesky(&mut series.clone(), &mut [1.0, scale], 2),
        Err(Refusal::Cholesky(0))
    );
    assert_eq!(
        solve_normal_equations(&series, &mut [1.0, scale], 2, &mut [0.0; 4]),
        Err(Refusal::SmallPivot(1))
    );

    let (mut b, mut workspace) = ([1.0, 4.0], [7.0; 5]);
    let a = [1.0, 2.0, -1.0, 3.0];
    assert_eq!(
        solve_normal_equations(&a, &mut b, 2, &mut workspace),
        Ok(())
    );
    assert_eq!(workspace, [0.0, 0.0, 0.0, 0.0, 7.0]);
    let short = solve_normal_equations(&a, &mut b, 2, &mut workspace[..3]);
    assert_eq!(short, Err(Refusal::Workspace));
}

#[test]
fn inverse() {
    // the two numbers off the diagonal differ in their last digit: a column that is stored as a row shows
    let (mut out, mut workspace) = ([9.0; 4], [7.0; 7]);
    assert_eq!(
        invert_spd(&[2.0, 1.0, 1.0, 2.0], 2, &mut out, &mut workspace),
        Ok(())
    );
    assert_eq!(
        out.map(f64::to_bits),
        [
            0x3fe5_5555_5555_5554,
            0xbfd5_5555_5555_5556,
            0xbfd5_5555_5555_5555,
            0x3fe5_5555_5555_5557
        ]
    );
    assert_eq!(workspace, [0.0, 0.0, 0.0, 0.0, 0.0, 0.0, 7.0]);

    // 8 at the second column leaves all of the output, and clears the workspace
    let (mut out, mut workspace) = ([9.0; 4], [7.0; 7]);
    let indefinite = [4.0, 2.0, 2.0, -1.0];
    assert_eq!(
        invert_spd(&indefinite, 2, &mut out, &mut workspace),
        Err(Refusal::Cholesky(1))
    );
    assert_eq!(out, [9.0; 4]);
    assert_eq!(workspace, [0.0, 0.0, 0.0, 0.0, 0.0, 0.0, 7.0]);

    let refused = |n, out: usize, room: usize| {
        let (mut out, mut workspace) = (vec![9.0; out], vec![7.0; room]);
        let answer = invert_spd(&indefinite, n, &mut out, &mut workspace);
        assert!(out.iter().all(|&x| x == 9.0) && workspace.iter().all(|&x| x == 7.0));
        answer
    };
    assert_eq!(refused(65, 3, 5), Err(Refusal::Columns));
    assert_eq!(refused(1, 3, 5), Err(Refusal::Matrix));
    assert_eq!(refused(2, 3, 5), Err(Refusal::Output));
    assert_eq!(refused(2, 4, 5), Err(Refusal::Workspace));
}

#[test]
fn householder() {
    let (mut data, mut betas, mut workspace) = ([9.0; 2], [9.0], [9.0; 6]);
    let column = [-0.0, 1.0];
    assert_eq!(
        qr(&column, 2, 1, &mut data, &mut betas, &mut workspace),
        Ok(())
    );
    assert_eq!((data, betas), ([-1.0, 1.0], [1.0]));
    let mut x = [9.0];
    let wide = solve_least_squares(&[1.0, 2.0], &[1.0], 1, 2, &mut data, &mut workspace);
    assert_eq!(wide, Err(Refusal::FewerRowsThanColumns));
    let mut workspace = [9.0; 8];
    assert_eq!(
        solve_least_squares(&[0.0, 2.0], &[5.0, 6.0], 2, 1, &mut x, &mut workspace),
        Ok(())
    );
    assert_eq!(x, [3.0]);
    assert_eq!(workspace, [0.0; 8]);
    // both diagonal numbers are small: back substitution meets the last one first
    let mut workspace = [9.0; 12];
    assert_eq!(
        solve_least_squares(&[0.0; 4], &[5.0, 6.0], 2, 2, &mut [9.0; 2], &mut workspace),
        Err(Refusal::SmallPivot(1))
    );
}

#[test]
fn fits() {
    let theta = [1.0, 0.0, 0.0, 1.0];
    let target = [3.0, 0.25];
    let setup = Setup {
        threshold: 0.5,
        lambda: 0.0,
        max_iter: 10,
    };
    let settled = Ok(Report {
        stop: Stop::Settled,
        refits: 1,
        kept: 1,
        error: 0.0625,
    });
    let mut coeffs = [9.0; 2];

    let mut workspace = vec![9.0; strlsq_workspace(2, 2)];
    assert_eq!(
        strlsq(&theta, 2, 2, &target, setup, &mut coeffs, &mut workspace),
        settled
    );
    assert_eq!(coeffs, [3.0, 0.0]);

    let mut workspace = vec![9.0; strlsq_qr_workspace(2, 2)];
    assert_eq!(
        strlsq_qr(&theta, 2, 2, &target, setup, &mut coeffs, &mut workspace),
        settled
    );
    assert_eq!(coeffs, [3.0, 0.0]);

    // by lambda alone the first port would fall
    let mut workspace = vec![9.0; strlsq_marquardt_workspace(2, 2)];
    let damped = Setup {
        lambda: 3.0,
        ..setup
    };
    assert_eq!(
        strlsq_marquardt(
            &[0.5, 0.0, 0.0, 2.0],
            2,
            2,
            &[1.0, 8.0],
            damped,
            &mut coeffs,
            &mut workspace
        ),
        Ok(Report {
            stop: Stop::Settled,
            refits: 1,
            kept: 3,
            error: 36.5625,
        })
    );
    assert_eq!(coeffs, [0.5, 1.0]);
    assert_eq!(workspace, [0.0; 16]);

    // the refit of port 1 alone is refused at its place 0: the stop names the term
    let refused = Setup {
        lambda: -1.0,
        ..setup
    };
    let mut workspace = vec![9.0; strlsq_workspace(2, 2)];
    let report = strlsq(
        &[1.0, 1.0, 1.0, 0.0],
        2,
        2,
        &[0.0, 3.0],
        refused,
        &mut coeffs,
        &mut workspace,
    );
    let stop_and_error = report.map(|r| (r.stop, r.error));
    assert_eq!(stop_and_error, Ok((Stop::RefitRefused(1), 9.0)));
    assert_eq!(coeffs, [0.0, 0.0]);

    let mut workspace = vec![9.0; strlsq_qr_workspace(2, 2)];
    let many = Setup {
        max_iter: 1001,
        ..setup
    };
    let refused = strlsq(&theta, 2, 2, &target, many, &mut coeffs, &mut workspace);
    assert_eq!(refused, Err(Refusal::Rounds));
    assert_eq!(strlsq_workspace(2, 65), 0);
}

#[test]
fn empty_slices() {
    assert_eq!(jtj(&[], 0, 0, 1.0, &mut []), Ok(()));
    assert_eq!(solve_lu(&mut [], &mut [], 0), Ok(()));
    assert_eq!(invert_spd(&[], 0, &mut [], &mut []), Ok(()));
    let setup = Setup {
        threshold: 0.5,
        lambda: 0.0,
        max_iter: 0,
    };
    let report = strlsq(&[], 0, 0, &[], setup, &mut [], &mut []);
    assert_eq!(
        report,
        Ok(Report {
            stop: Stop::NoData,
            refits: 0,
            kept: 0,
            error: 0.0,
        })
    );
    assert_eq!(report.map(|r| r.error.to_bits()), Ok(0));
    let report = strlsq(&[], 2, 0, &[3.0, 0.25], setup, &mut [], &mut []);
    assert_eq!(report.map(|r| r.error), Ok(9.0625));
}

/// An infinite reading makes the coefficient NaN, which no look keeps: the fit is Empty, and the coefficient a zero.
#[test]
fn the_error_of_a_kept_zero() {
    let fitted = |threshold| {
        let setup = Setup {
            threshold,
            lambda: 0.0,
            max_iter: 1,
        };
        let (mut coeffs, mut workspace) = ([9.0], [9.0; 5]);
        let report = strlsq(
            &[f64::INFINITY],
            1,
            1,
            &[2.0],
            setup,
            &mut coeffs,
            &mut workspace,
        );
        let report = report.expect("accepted");
        assert_eq!((report.stop, coeffs), (Stop::Empty, [0.0]));
        (report.kept, report.error)
    };
    assert_eq!(fitted(0.5), (0, 4.0));
    // at a threshold of zero it is kept
    let (kept, error) = fitted(0.0);
    assert!(kept == 1 && error.is_nan());
}

#[test]
fn a_refusal_leaves_the_report_and_its_error() {
    let (mut report, mut error) = ([7; 4], [7.0]);
    let mut fit = |max_iter| unsafe {
        let (theta, mut coeffs, mut workspace) = ([1.0], [9.0], [9.0; 5]);
        let answer = raw::dapmotar_strlsq(
            theta.as_ptr(),
            1,
            1,
            1,
            theta.as_ptr(),
            1,
            0.125,
            3.0,
            max_iter,
            coeffs.as_mut_ptr(),
            1,
            workspace.as_mut_ptr(),
            5,
            &mut report,
            &mut error,
        );
        (answer, report, error)
    };
    assert_eq!(fit(1001), (3, [7; 4], [7.0]));
    assert_eq!(fit(1000), (0, [4, 1, 1, 255], [0.5625]));
}

#[test]
fn exchange() {
    let input = b"01000202000a3fe00000000000000000000000000000\n\
        40080000000000003ff00000000000000000000000000000\n\
        3fd000000000000000000000000000003ff0000000000000\n";
    let mut answer = [b'.'; ANSWER];
    let said = b"0400010000000000000001ff3fb0000000000000\n4008000000000000\n0000000000000000\n";
    assert_eq!(respond(input, &mut answer), said);
    assert_eq!(answer[said.len()..], [b'.'; ANSWER][said.len()..]);
    assert_eq!(respond(b"", &mut answer), b"ff0b\n");
}
