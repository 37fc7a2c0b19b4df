//! `dapmotar_sqrt` against the machine's root: equal bits on every class of patterns, the one NaN too, and the time a
//! call.

use dapmotar::raw::dapmotar_sqrt;
use oracle::generate::floats;
use oracle::model;
use oracle::rng::Rng;
use std::hint::black_box;
use std::time::Instant;

/// A class of patterns.
pub struct Class {
    pub name: &'static str,
    draw: fn(&mut Rng) -> f64,
}

pub const CLASSES: [Class; 9] = [
    Class {
        name: "any bits",
        draw: |rng| f64::from_bits(rng.word()),
    },
    Class {
        name: "positive",
        draw: |rng| f64::from_bits(rng.word() >> 1),
    },
    Class {
        name: "subnormals",
        draw: |rng| floats::subnormal(rng).abs(),
    },
    Class {
        name: "powers of two and neighbours",
        draw: |rng| floats::power_of_two(rng).abs(),
    },
    Class {
        name: "perfect squares and neighbours",
        draw: square,
    },
    Class {
        name: "squares of midpoints, rounded",
        draw: midpoint,
    },
    Class {
        name: "largest finite and neighbours",
        draw: largest,
    },
    Class {
        name: "from 1 to 4",
        draw: |rng| 1.0 + 3.0 * rng.unit(),
    },
    Class {
        name: "zeros, infinities, NaN",
        draw: special,
    },
];

fn square(rng: &mut Rng) -> f64 {
    let root = (rng.word() >> rng.between(38, 63)) as f64;
    let power = 2.0_f64.powi(2 * (rng.between(0, 400) as i32 - 200));
    beside(rng, root * root * power)
}

/// Near the square of a number half way between two f64: the hardest to round.
fn midpoint(rng: &mut Rng) -> f64 {
    let half = u128::from(rng.word() >> 11 | 1 << 52) * 2 + 1;
    beside(rng, (half * half) as f64)
}

fn largest(rng: &mut Rng) -> f64 {
    f64::from_bits(f64::MAX.to_bits() - (rng.word() >> rng.between(12, 63)) % (1 << 52))
}

fn special(rng: &mut Rng) -> f64 {
    match rng.below(4) {
        0 => floats::sign(rng, 0.0),
        1 => floats::sign(rng, f64::INFINITY),
        2 => floats::nan(rng),
        _ => -floats::subnormal(rng).abs(),
    }
}

fn beside(rng: &mut Rng, x: f64) -> f64 {
    floats::step(rng, x)
}

/// How many patterns of a class differ, and the first that does.
pub fn compare(class: &Class, seed: u64, count: u64) -> (u64, Option<f64>) {
    let mut rng = Rng::for_part(seed, class.name, 0);
    let (mut differ, mut first) = (0, None);
    for _ in 0..count {
        let x = (class.draw)(&mut rng);
        if dapmotar_sqrt(x).to_bits() != model::sqrt(x).to_bits() {
            differ += 1;
            first = first.or(Some(x));
        }
    }
    (differ, first)
}

#[inline(never)]
extern "C" fn machine_sqrt(x: f64) -> f64 {
    x.sqrt()
}

/// The median time a call, in nanoseconds, of the library's root and of the machine's, taken in turn.
pub fn times(class: &Class, seed: u64) -> (f64, f64) {
    let mut rng = Rng::for_part(seed, class.name, 1);
    let xs: Vec<f64> = (0..1 << 12).map(|_| (class.draw)(&mut rng)).collect();
    let (mut ours, mut machines) = (Vec::new(), Vec::new());
    for _ in 0..101 {
        ours.push(time(&xs, |x| dapmotar_sqrt(x)));
        machines.push(time(&xs, machine_sqrt_of));
    }
    (median(ours), median(machines))
}

fn machine_sqrt_of(x: f64) -> f64 {
    machine_sqrt(x)
}

fn time(xs: &[f64], root: impl Fn(f64) -> f64) -> f64 {
    let start = Instant::now();
    for &x in xs {
        black_box(root(black_box(x)));
    }
    start.elapsed().as_nanos() as f64 / xs.len() as f64
}

fn median(mut times: Vec<f64>) -> f64 {
    times.sort_by(f64::total_cmp);
    times[times.len() / 2]
}
