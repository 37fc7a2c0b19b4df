//! Root and magnitude, by whole numbers.

use crate::fault::{self, Fault};

/// The root's one NaN, by document 01.
const NAN: f64 = f64::from_bits(0x7ff8 << 48);
/// The NaN that arithmetic gives on x86-64.
const OTHER_NAN: f64 = f64::from_bits(0xfff8 << 48);

pub fn sqrt(x: f64) -> f64 {
    if x == 0.0 {
        return fault::or(x, Fault::RootOfMinusZero, 0.0);
    }
    if x < 0.0 && fault::is(Fault::RootOfNegatives) {
        return 0.0;
    }
    if x.is_nan() || x < 0.0 {
        return fault::or(NAN, Fault::RootNanOtherBits, OTHER_NAN);
    }
    if x == f64::INFINITY {
        return x;
    }
    if x.is_subnormal() && fault::is(Fault::RootOfSubnormals) {
        return sqrt(f64::MIN_POSITIVE);
    }
    // x = n * 2^e, with e even and n of 107 or 108 bits, so that its whole root has 54.
    let (n, e) = parts(x);
    let bits = 128 - n.leading_zeros() as i32;
    let up = if (e - (107 - bits)) % 2 == 0 {
        107 - bits
    } else {
        108 - bits
    };
    let root = (n << up).isqrt();
    // An odd root of 54 bits can't be exact, so there is no tie.
    let rounded = (root + fault::or(1, Fault::RootTruncated, 0)) >> 1;
    rounded as f64 * power((e - up) / 2 + 1)
}

/// A positive number's whole part and its power of two.
fn parts(x: f64) -> (u128, i32) {
    let (field, fraction) = ((x.to_bits() >> 52) as i32, x.to_bits() & ((1 << 52) - 1));
    if field == 0 {
        (u128::from(fraction), -1074)
    } else {
        (u128::from(fraction | 1 << 52), field - 1075)
    }
}

/// Two to a power in the range of normal numbers.
fn power(e: i32) -> f64 {
    f64::from_bits(((e + 1023) as u64) << 52)
}

pub fn abs(x: f64) -> f64 {
    let whole = x.is_nan() && !fault::is(Fault::MagnitudeOfNanUnsigned)
        || x == 0.0 && fault::is(Fault::MagnitudeOfMinusZero);
    if whole {
        return x;
    }
    f64::from_bits(x.to_bits() & !(1 << 63))
}
