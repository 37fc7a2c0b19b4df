//! Numbers compared by their bits, any NaN for any NaN.

/// The bits that every NaN is shown with.
pub const NAN_SHOWN: u64 = 0x7ff8_0000_0000_0000;

/// The same number: the same bits, or a NaN each.
pub fn same(a: f64, b: f64) -> bool {
    a.to_bits() == b.to_bits() || (a.is_nan() && b.is_nan())
}

/// The first place at which two lists differ, if they do.
pub fn first_difference(a: &[f64], b: &[f64]) -> Option<usize> {
    if a.len() != b.len() {
        return Some(a.len().min(b.len()));
    }
    (0..a.len()).find(|&i| !same(a[i], b[i]))
}

/// The bits of a number as an answer shows them.
pub fn shown(x: f64) -> u64 {
    if x.is_nan() { NAN_SHOWN } else { x.to_bits() }
}

/// A list with each NaN made the shown one: the same list, any NaN for any NaN.
///
/// Document 01 passes every NaN over in Cholesky's scale; a signalling one `f64::max` hands on where the
/// machine's own instruction does.
pub fn quiet(xs: &[f64]) -> Vec<f64> {
    xs.iter().map(|&x| f64::from_bits(shown(x))).collect()
}

#[cfg(test)]
mod tests {
    use super::*;

    #[test]
    fn zeros_differ_and_nans_do_not() {
        assert!(!same(0.0, -0.0));
        assert!(same(f64::NAN, f64::from_bits(0xfff0_0000_0000_0001)));
        assert!(!same(f64::NAN, f64::INFINITY));
        assert_eq!(first_difference(&[1.0, 0.0], &[1.0, -0.0]), Some(1));
        assert_eq!(first_difference(&[1.0], &[1.0, 2.0]), Some(1));
        assert_eq!(first_difference(&[f64::NAN], &[-f64::NAN]), None);
    }
}
