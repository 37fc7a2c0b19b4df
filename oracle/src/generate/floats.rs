//! Numbers of every class.

use crate::rng::Rng;

/// A number of any class, each class about as often as the others.
pub fn any(rng: &mut Rng) -> f64 {
    match rng.below(12) {
        0 => f64::from_bits(rng.word()),
        1 => nan(rng),
        2 => sign(rng, f64::INFINITY),
        3 => sign(rng, 0.0),
        4 => subnormal(rng),
        5 => near(rng, f64::MIN_POSITIVE),
        6 => near(rng, f64::MAX),
        7 => power_of_two(rng),
        8 => whole(rng, 4),
        9 => rng.signed(),
        10 => bound(rng),
        _ => scaled(rng),
    }
}

/// A number that is neither NaN nor infinite.
pub fn finite(rng: &mut Rng) -> f64 {
    loop {
        let x = any(rng);
        if x.is_finite() {
            return x;
        }
    }
}

/// A NaN: quiet or signalling, of either sign, with few or many bits.
pub fn nan(rng: &mut Rng) -> f64 {
    let bits = match rng.below(4) {
        0 => 0x7ff8_0000_0000_0000,
        1 => 0x7ff0_0000_0000_0001,
        2 => u64::MAX >> 1,
        _ => 0x7ff0_0000_0000_0000 | (rng.word() >> 12).max(1),
    };
    f64::from_bits(bits | (rng.word() & 1 << 63))
}

/// What breaks sums: NaN, infinities, zeros of both signs, the largest and the smallest.
pub fn special(rng: &mut Rng) -> f64 {
    match rng.below(6) {
        0 => nan(rng),
        1 | 2 => sign(rng, f64::INFINITY),
        3 => sign(rng, 0.0),
        4 => near(rng, f64::MAX),
        _ => subnormal(rng),
    }
}

pub fn subnormal(rng: &mut Rng) -> f64 {
    let shift = rng.between(12, 63);
    let x = f64::from_bits(rng.word() >> shift);
    sign(rng, x)
}

/// A whole number of magnitude at most `most`; its zero has either sign.
pub fn whole(rng: &mut Rng, most: usize) -> f64 {
    let x = rng.between(0, most) as f64;
    sign(rng, x)
}

/// A power of two or a neighbour.
pub fn power_of_two(rng: &mut Rng) -> f64 {
    let x = f64::from_bits((rng.between(1, 2046) as u64) << 52);
    near(rng, x)
}

/// One of the solvers' bounds or a neighbour.
pub fn bound(rng: &mut Rng) -> f64 {
    let x = rng.pick(&[1e-14, 1e-15, 1e-30]);
    near(rng, x)
}

/// From 1e-300 to 1e300 in magnitude.
pub fn scaled(rng: &mut Rng) -> f64 {
    rng.signed() * 10.0_f64.powi(rng.between(0, 600) as i32 - 300)
}

/// The number itself as often as not, else one or two steps off, of either sign.
pub fn near(rng: &mut Rng, x: f64) -> f64 {
    let x = step(rng, x);
    sign(rng, x)
}

/// The number itself as often as not, else one or two steps off.
pub fn step(rng: &mut Rng, x: f64) -> f64 {
    match rng.below(8) {
        0 | 1 => x.next_up(),
        2 | 3 => x.next_down(),
        4 => x.next_up().next_up(),
        _ => x,
    }
}

pub fn sign(rng: &mut Rng, x: f64) -> f64 {
    if rng.once_in(2) { -x } else { x }
}

#[cfg(test)]
mod tests {
    use super::*;

    #[test]
    fn every_class_is_met() {
        let mut rng = Rng::new(1);
        let xs: Vec<f64> = (0..2000).map(|_| any(&mut rng)).collect();
        let bits = |wanted: u64| xs.iter().any(|x| x.to_bits() == wanted);
        assert!(bits(0) && bits(1 << 63));
        assert!(bits(0x7ff0 << 48) && bits(0xfff0 << 48));
        assert!(bits(1e-14_f64.to_bits()) && bits(1e-15_f64.next_down().to_bits()));
        assert!(xs.iter().any(|x| x.is_subnormal()));
        let signalling = |x: &&f64| x.is_nan() && x.to_bits() & 1 << 51 == 0;
        assert!(xs.iter().filter(signalling).count() > 20);
    }
}
