//! Why a term was kept or not: order 6's causes, found by watching the looks.

use crate::fit::Stop;

/// The causes, in code order.
#[derive(Clone, Copy, Debug, PartialEq)]
pub enum Cause {
    NoData,
    FirstRefused,
    Kept,
    /// At the look before the refit of this number, with this coefficient.
    Dropped(u64, f64),
    /// When the refit of this number was refused.
    Cleared(u64),
    /// By the last pass, with this value.
    Zeroed(f64),
    LeftNan,
}

impl Cause {
    pub const NAMES: [&str; 7] = [
        "NoData",
        "FirstRefused",
        "Kept",
        "Dropped",
        "Cleared",
        "Zeroed",
        "LeftNan",
    ];

    pub fn code(self) -> u64 {
        match self {
            Cause::NoData => 0,
            Cause::FirstRefused => 1,
            Cause::Kept => 2,
            Cause::Dropped(..) => 3,
            Cause::Cleared(_) => 4,
            Cause::Zeroed(_) => 5,
            Cause::LeftNan => 6,
        }
    }

    /// The refit's number, 0 where the cause has none.
    pub fn refit(self) -> u64 {
        match self {
            Cause::Dropped(refit, _) | Cause::Cleared(refit) => refit,
            _ => 0,
        }
    }

    /// The coefficient, +0.0 where the cause has none.
    pub fn value(self) -> f64 {
        match self {
            Cause::Dropped(_, c) | Cause::Zeroed(c) => c,
            _ => 0.0,
        }
    }
}

/// The looks of the rounds, watched: for each term the first that did not find it, by the number of the refit that
/// comes next, and the coefficient that it saw.
pub struct Watch(Vec<Option<(u64, f64)>>);

impl Watch {
    pub fn new(cols: usize) -> Watch {
        Watch(vec![None; cols])
    }

    /// A look before the refit of this number.
    pub fn look(&mut self, refit: u64, support: u64, coeffs: &[f64]) {
        for (term_idx, drop) in self.0.iter_mut().enumerate() {
            if support >> term_idx & 1 == 0 {
                drop.get_or_insert((refit, coeffs[term_idx]));
            }
        }
    }

    /// The cause of each term of a fit that ended so, with these coefficients before the last pass. The last look of
    /// order 1 is none of those watched.
    pub fn causes(&self, stop: Stop, refits: u64, coeffs: &[f64], threshold: f64) -> Vec<Cause> {
        let terms = self.0.iter().zip(coeffs);
        let cause = |(&drop, &c): (&Option<(u64, f64)>, &f64)| match (drop, stop) {
            (_, Stop::NoData) => Cause::NoData,
            (_, Stop::FirstRefused) => Cause::FirstRefused,
            (Some((refit, seen)), _) => Cause::Dropped(refit, seen),
            (None, Stop::RefitRefused) => Cause::Cleared(refits),
            (None, _) if c.is_nan() => Cause::LeftNan,
            (None, _) if c.abs() < threshold => Cause::Zeroed(c),
            (None, _) => Cause::Kept,
        };
        terms.map(cause).collect()
    }
}

#[cfg(test)]
mod tests {
    use super::*;
    use crate::bits::same;
    use crate::fit::{Fit, fit};
    use crate::generate::{FRAME_SIZE, why_kinds};
    use crate::rng::Rng;
    use crate::why::above_zero;

    /// What a cause must say beside the fit's report and its coefficient.
    fn agrees(cause: Cause, fit: &Fit, term_idx: usize, threshold: f64) -> bool {
        let (refits, c) = (fit.report.refits, fit.coeffs[term_idx]);
        let kept = fit.report.kept >> term_idx & 1 == 1;
        let gone = !kept && c.to_bits() == 0;
        match cause {
            Cause::NoData => gone && fit.report.stop == Stop::NoData,
            Cause::FirstRefused => gone && fit.report.stop == Stop::FirstRefused,
            Cause::Kept => kept && c.abs() >= threshold,
            Cause::Dropped(r, seen) => {
                gone && (1..=refits + 1).contains(&r) && (seen.is_nan() || seen.abs() < threshold)
            }
            Cause::Cleared(r) => gone && r == refits && fit.report.stop == Stop::RefitRefused,
            Cause::Zeroed(seen) => {
                gone && seen.abs() < threshold && fit.report.stop == Stop::OutOfRounds
            }
            Cause::LeftNan => c.is_nan() && fit.report.stop == Stop::OutOfRounds,
        }
    }

    /// A dropped term is still there at a limit of one round less than its look's, with the coefficient that the look saw.
    #[test]
    fn causes_agree_with_reports_and_with_smaller_limits() {
        let (mut dropped, mut later) = (0, 0);
        for index in 0..4_000 {
            let (_, p) = why_kinds::any(&mut Rng::for_part(1, "causes", index), FRAME_SIZE);
            if above_zero(p.setup).is_err() {
                continue;
            }
            let whole = fit(&p);
            for (term_idx, &cause) in whole.causes.iter().enumerate() {
                assert!(
                    agrees(cause, &whole, term_idx, p.setup.threshold),
                    "{cause:?} in {p:?}"
                );
                let Cause::Dropped(r, seen) = cause else {
                    continue;
                };
                dropped += 1;
                later += usize::from(r > 1);
                let mut before = p.clone();
                before.setup.max_iter = r as usize - 1;
                let holds = match fit(&before).causes[term_idx] {
                    Cause::Zeroed(c) => same(c, seen),
                    Cause::LeftNan => seen.is_nan(),
                    _ => false,
                };
                assert!(holds, "term {term_idx}, {cause:?} in {p:?}");
            }
        }
        assert!(
            dropped > 4_000 && later > 400,
            "{dropped} dropped, {later} later"
        );
    }
}
