//! Why a term was kept or not, from what a fit saw on its way.

use crate::fault::{self, Fault};
use crate::fits::{Fit, Seen, bit};
use crate::root::abs;

/// Code, refit number and coefficient.
pub type Cause = (u64, u64, f64);

impl Fit<'_> {
    /// The fit, and the cause of each term.
    pub fn causes(&self, coeffs: &mut [f64]) -> Vec<Cause> {
        let mut seen = Seen::default();
        let [stop, refits, ..] = self.run_seen(coeffs, &mut seen);
        if refits > 0 && stop >= 4 && fault::is(Fault::WhyLastLookDrops) {
            let support = self.support(&seen.ended);
            seen.looks.push((seen.ended.clone(), support));
        }
        let told = |term| told(self.cause(term, stop, refits, &seen, coeffs), refits);
        let causes = (0..self.cols).map(told).collect();
        if fault::is(Fault::WhyCoeffsBeforeLastPass) {
            coeffs.copy_from_slice(&seen.ended);
        }
        causes
    }

    fn cause(&self, term: usize, stop: u64, refits: u64, seen: &Seen, coeffs: &[f64]) -> Cause {
        match stop {
            0 => return (0, 0, 0.0),
            1 => return (fault::or(1, Fault::WhyFirstRefusedCleared, 4), 0, 0.0),
            3 if fault::is(Fault::WhyAllCleared) => return (4, refits, 0.0),
            _ => {}
        }
        // The refits that had it: a look that didn't find it was followed by none that did.
        let had = |support: u64| support & bit(term) != 0;
        let times = seen.looks.iter().take_while(|look| had(look.1)).count();
        if let Some((then, _)) = seen.looks.get(times) {
            let refit = times as u64 + 1;
            if stop == 3 && refit == refits && fault::is(Fault::WhyLookCleared) {
                return (4, refits, 0.0);
            }
            let before = if times == 0 {
                u64::MAX
            } else {
                seen.looks[times - 1].1
            };
            let place = (0..term).filter(|&j| before & bit(j) != 0).count();
            let value = then[fault::or(term, Fault::WhyPlaceForTerm, place)];
            let value = fault::or(value, Fault::WhyFinalValue, coeffs[term]);
            let cleared = matches!(stop, 2 | 3) && fault::is(Fault::WhyClearedValue);
            let nothing = stop == 2 && refit > refits;
            let one_less =
                fault::is(Fault::WhyRefitOneLess) || nothing && fault::is(Fault::WhyEmptyRefit);
            let refit = fault::or(refit - u64::from(one_less), Fault::WhyLastRefit, refits);
            return (3, refit, if cleared { 0.0 } else { value });
        }
        if stop == 3 {
            return (4, refits, 0.0);
        }
        self.left(seen.ended[term])
    }

    /// A term of every refit, by its last value.
    fn left(&self, c: f64) -> Cause {
        if c.is_nan() {
            return fault::or((6, 0, 0.0), Fault::WhyNanZeroed, (5, 0, c));
        }
        let kept = c == 0.0 && fault::is(Fault::WhyZeroKept) || fault::is(Fault::WhyZeroedKept);
        if abs(c) < self.threshold && !kept {
            return (5, 0, fault::or(c, Fault::WhyZeroedFinal, 0.0));
        }
        (2, 0, 0.0)
    }
}

/// A cause as it is told.
fn told((code, refit, value): Cause, refits: u64) -> Cause {
    let value = fault::or(value, Fault::WhyMagnitude, abs(value));
    let value = fault::or(value, Fault::WhyZeroUnsigned, value + 0.0);
    let everywhere = refit == 0 && fault::is(Fault::WhyRefitAlways);
    (code, if everywhere { refits } else { refit }, value)
}
