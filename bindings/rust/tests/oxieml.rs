//! The drop-ins where oxieml takes more than the core does.

use dapmotar::Refusal;
use dapmotar::oxieml::{invert_spd, jtj_marquardt, strlsq, strlsq_qr};
use std::panic::catch_unwind;

const THETA: [f64; 4] = [1.0, 0.0, 0.0, 1.0];
const TARGET: [f64; 2] = [3.0, 0.25];

#[test]
fn a_fit() {
    assert_eq!(strlsq(&THETA, 2, 2, &TARGET, 0.5, 0.0, 10), [3.0, 0.0]);
    assert_eq!(strlsq_qr(&THETA, 2, 2, &TARGET, 0.5, 0.0, 10), [3.0, 0.0]);
}

#[test]
fn sums_damped_in_proportion() {
    assert_eq!(jtj_marquardt(&[1.0, 2.0], 1, 2, 0.5), [1.5, 2.0, 2.0, 6.0]);
    assert_eq!(jtj_marquardt(&[], 0, 2, 0.5), [0.5, 0.0, 0.0, 0.5]);
}

#[test]
fn longer_slices_are_cut() {
    assert_eq!(jtj_marquardt(&[2.0, f64::NAN], 1, 1, 0.5), [6.0]);
    let (theta, target) = ([1.0, 0.0, 0.0, 1.0, f64::NAN], [3.0, 0.25, f64::NAN]);
    assert_eq!(strlsq(&theta, 2, 2, &target, 0.5, 0.0, 10), [3.0, 0.0]);
    assert_eq!(strlsq_qr(&theta, 2, 2, &target, 0.5, 0.0, 10), [3.0, 0.0]);
}

#[test]
fn nothing_is_read_without_rows_or_columns() {
    assert_eq!(strlsq(&[], 0, 3, &[], 0.5, 0.0, 10), [0.0; 3]);
    assert_eq!(strlsq_qr(&[], 5, 0, &[], 0.5, 0.0, 10), [0.0; 0]);
    assert_eq!(strlsq(&[], 0, 100, &[], 0.5, 0.0, 5000), [0.0; 100]);
    assert_eq!(jtj_marquardt(&[], 5000, 0, 0.5), [0.0; 0]);
}

#[test]
fn beyond_the_limits_is_a_panic_with_the_number() {
    let said =
        |fit: fn() -> Vec<f64>| *catch_unwind(fit).unwrap_err().downcast::<String>().unwrap();
    assert!(said(|| strlsq(&[1.0; 65], 1, 65, &[1.0], 0.5, 0.0, 10)).starts_with("refusal 1:"));
    assert!(
        said(|| strlsq_qr(&[1.0; 4097], 4097, 1, &[1.0; 4097], 0.5, 0.0, 10))
            .starts_with("refusal 2:")
    );
    assert!(said(|| jtj_marquardt(&[1.0; 65], 1, 65, 0.5)).starts_with("refusal 1:"));
    assert!(said(|| jtj_marquardt(&THETA, 3, 2, 0.5)).starts_with("refusal 4:"));
    assert!(said(|| strlsq(&THETA, 2, 2, &TARGET, 0.5, 0.0, 1001)).starts_with("refusal 3:"));
    assert!(said(|| strlsq(&THETA, 3, 2, &TARGET, 0.5, 0.0, 10)).starts_with("refusal 4:"));
    assert!(said(|| strlsq_qr(&THETA, 2, 2, &[1.0], 0.5, 0.0, 10)).starts_with("refusal 5:"));
    assert!(
        said(|| strlsq(&[], usize::MAX, usize::MAX, &[], 0.5, 0.0, 10)).starts_with("refusal 1:")
    );
}

#[test]
fn an_inverse() {
    let a = [4.0, 2.0, 2.0, 2.0, f64::NAN];
    let inverse = vec![0.5, -0.5, -0.5, 1.0];
    assert_eq!(invert_spd(&a[..4], 2), Ok(inverse.clone()));
    assert_eq!(invert_spd(&a, 2), Ok(inverse));
    assert_eq!(invert_spd(&[], 0), Ok(vec![]));
    assert_eq!(invert_spd(&a[..3], 2), Err(Refusal::Matrix));
    assert_eq!(invert_spd(&[], usize::MAX), Err(Refusal::Columns));
    assert_eq!(
        invert_spd(&[1.0, 1.0, 1.0, 1.0], 2),
        Err(Refusal::Cholesky(1))
    );
}
