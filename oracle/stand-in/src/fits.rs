//! The fits over one loop.

use crate::builders::{Damping, PAGE, damp, jtr, pair_sums};
use crate::fault::{self, Fault};
use crate::layout::{Layout, Use};
use crate::qr::least_squares;
use crate::root::{abs, sqrt};
use crate::square::normal_equations;

/// How a fit solves.
#[derive(Clone, Copy, PartialEq, Eq)]
pub enum By {
    Normal,
    Qr,
    Marquardt,
}

/// What is fitted.
#[derive(Clone, Copy)]
pub struct Fit<'a> {
    pub by: By,
    pub layout: Layout,
    /// Theta's, in that layout.
    pub numbers: &'a [f64],
    pub rows: usize,
    pub cols: usize,
    pub target: &'a [f64],
    pub threshold: f64,
    pub lambda: f64,
    pub max_iter: usize,
}

/// The refused term of a report where no solve was refused.
const NO_TERM: u64 = 255;

/// What a fit saw on its way.
pub struct Seen {
    /// The support that was refitted last.
    last: u64,
    /// The term at which a solve refused.
    term: u64,
    /// Each look of a round: the coefficients and their support.
    pub looks: Vec<(Vec<f64>, u64)>,
    /// The coefficients before the last pass.
    pub ended: Vec<f64>,
}

impl Default for Seen {
    fn default() -> Seen {
        Seen {
            last: 0,
            term: NO_TERM,
            looks: Vec::new(),
            ended: Vec::new(),
        }
    }
}

/// A term's bit; none past 64.
pub fn bit(j: usize) -> u64 {
    1u64.checked_shl(j as u32).unwrap_or(0)
}

/// The workspace that a fit needs, sizes not looked at.
pub fn workspace(by: By, r: usize, c: usize) -> usize {
    let twice = |x: usize| x.wrapping_mul(2);
    let thrice = |x: usize| x.wrapping_mul(3);
    let rows = r.wrapping_add(c);
    if by == By::Qr {
        twice(rows.wrapping_mul(c))
            .wrapping_add(thrice(rows))
            .wrapping_add(thrice(c))
    } else {
        let old = r.wrapping_mul(c).wrapping_add(twice(c.wrapping_mul(c)));
        let kept = thrice(c.wrapping_mul(c)).wrapping_add(twice(c));
        fault::or(kept, Fault::WorkspaceOldFigure, old.wrapping_add(c))
    }
}

/// What the first pass keeps for every solve of the normal equations.
struct Kept {
    /// The pair sums of all columns, undamped.
    sums: Vec<f64>,
    /// Their products with the target.
    products: Vec<f64>,
}

impl Kept {
    fn of(fit: &Fit<'_>) -> Kept {
        let c = fit.cols;
        let (mut sums, mut products) = (vec![0.0; c * c], vec![0.0; c]);
        pair_sums(&fit.theta(Use::Sums), fit.rows, c, fit.lambda, &mut sums);
        let target = |row| fault::or(row, Fault::ProductsByFirstTargets, row % PAGE);
        let targets: Vec<f64> = (0..fit.rows).map(|row| fit.target[target(row)]).collect();
        jtr(
            &fit.theta(Use::Products),
            &targets,
            fit.rows,
            c,
            &mut products,
        );
        if fault::is(Fault::KeptDamped) {
            damp(&mut sums, c, fit.damping(false), fit.lambda);
        }
        Kept { sums, products }
    }

    /// The block of some columns and their products.
    fn block(&self, terms: &[usize]) -> (Vec<f64>, Vec<f64>) {
        let n = self.products.len();
        let term = |p: usize| fault::or(terms[p], Fault::BlockByPlace, p);
        let places = 0..terms.len();
        let row = |p: usize| {
            places
                .clone()
                .map(move |q| self.sums[term(p) * n + term(q)])
        };
        let sums = places.clone().flat_map(row).collect();
        let product = |p: usize| self.products[fault::or(term(p), Fault::ProductsByPlace, p)];
        (sums, places.clone().map(product).collect())
    }
}

impl Fit<'_> {
    /// The coefficients into their slice, and the report: stop, refits, kept word, refused term, and the error.
    pub fn run(&self, coeffs: &mut [f64]) -> ([u64; 4], f64) {
        let said = self.run_seen(coeffs, &mut Seen::default());
        let [stop, _, kept, _] = said;
        (said, self.error(stop, kept, coeffs))
    }

    /// The same without the error, and what it saw.
    pub fn run_seen(&self, coeffs: &mut [f64], seen: &mut Seen) -> [u64; 4] {
        if !fault::is(Fault::OldValuesStay) {
            coeffs.fill(0.0);
        }
        let (mut stop, mut refits) = self.rounds(coeffs, seen);
        let (last, mut term) = (seen.last, seen.term);
        seen.ended = coeffs.to_vec();
        for c in coeffs.iter_mut() {
            let small = abs(*c) < self.threshold
                || abs(*c) == self.threshold && fault::is(Fault::LastPassLessOrEqual);
            if small && !fault::is(Fault::LastPassMissing) {
                *c = if fault::is(Fault::LastPassKeepsSign) {
                    *c * 0.0
                } else {
                    0.0
                };
            }
        }
        let mut kept = self.support(coeffs);
        if fault::is(Fault::KeptFromLastSupport) && stop == 4 {
            kept = last;
        }
        if fault::is(Fault::KeptFromLastSupport) && stop == 5 && refits > 0 {
            kept = last;
        }
        if fault::is(Fault::KeptNotBelowColumns) && self.threshold <= 0.0 && self.cols < 64 {
            kept |= u64::MAX << self.cols;
        }
        if fault::is(Fault::StopsSwapped) {
            stop = [0, 1, 3, 2, 4, 5][stop as usize];
        }
        if fault::is(Fault::RefitsInvented) {
            refits = (self.max_iter as u64).min(1);
        }
        if fault::is(Fault::TermAtEveryStop) && term == NO_TERM {
            term = 0;
        }
        if fault::is(Fault::TermNotToldAtFirst) && stop == 1
            || fault::is(Fault::TermNotToldAtRefit) && stop == 3
        {
            term = NO_TERM;
        }
        [stop, refits, kept, term]
    }

    /// The first solve and the rounds: stop and refits.
    fn rounds(&self, coeffs: &mut [f64], seen: &mut Seen) -> (u64, u64) {
        if self.rows == 0 || self.cols == 0 {
            return (0, 0);
        }
        let all: Vec<usize> = (0..self.cols).collect();
        let mut kept = (self.by != By::Qr).then(|| Kept::of(self));
        let values = match self.solve(&mut kept, &all, false) {
            Ok(values) => values,
            Err(col) => {
                seen.term = col as u64;
                return (1, 0);
            }
        };
        coeffs.copy_from_slice(&values);
        let mut refits = 0;
        if fault::is(Fault::LastSupportStartsFull) {
            seen.last = all.iter().fold(0, |w, &j| w | bit(j));
        }
        let rounds = if fault::is(Fault::OneRoundMore) {
            self.max_iter + 1
        } else {
            self.max_iter
        };
        let rounds = fault::or(rounds, Fault::OneRoundLess, rounds.saturating_sub(1));
        for _ in 0..rounds {
            let support = self.support(coeffs);
            seen.looks.push((coeffs.to_vec(), support));
            if support == 0 && !(fault::is(Fault::SettledTestedFirst) && seen.last == 0) {
                if !fault::is(Fault::EmptyKeepsValues) {
                    coeffs.fill(0.0);
                }
                return (2, refits);
            }
            if support == seen.last {
                return (4, refits);
            }
            if !(fault::is(Fault::LastSupportNotKept) && seen.last != 0) {
                seen.last = support;
            }
            refits += 1;
            if fault::is(Fault::FitsOnce) {
                continue;
            }
            let terms: Vec<usize> = (0..self.cols).filter(|&j| support & bit(j) != 0).collect();
            let values = match self.solve(&mut kept, &terms, true) {
                Ok(values) => values,
                Err(col) => {
                    let place = if self.by == By::Qr {
                        Fault::TermIsPlaceByQr
                    } else {
                        Fault::TermIsPlace
                    };
                    seen.term = fault::or(terms[col], place, col) as u64;
                    if !fault::is(Fault::RefusedRefitKeepsValues) {
                        coeffs.fill(0.0);
                    }
                    let counted = fault::or(refits, Fault::RefusedRefitNotCounted, refits - 1);
                    return (3, counted);
                }
            };
            coeffs.fill(0.0);
            for (col, &term_idx) in terms.iter().enumerate() {
                coeffs[fault::or(term_idx, Fault::ScatterByPlace, col)] = values[col];
            }
        }
        (self.last_look(coeffs, refits, seen.last), refits)
    }

    /// Rounds used up: after at least one refit one more look, and its stop.
    fn last_look(&self, coeffs: &mut [f64], refits: u64, last: u64) -> u64 {
        let looks = refits > 0 || fault::is(Fault::LastLookWithoutRefit);
        if !looks || fault::is(Fault::LastLookMissing) {
            return 5;
        }
        let support = self.support(coeffs);
        if support == 0 && fault::is(Fault::LastLookEmpties) {
            return 2;
        }
        let smaller = support != 0 && support & !last == 0;
        if support == last || smaller && fault::is(Fault::LastLookTakesSmaller) {
            if fault::is(Fault::LastLookClears) {
                coeffs.fill(0.0);
            }
            return 4;
        }
        5
    }

    /// The terms at or above the threshold.
    pub fn support(&self, coeffs: &[f64]) -> u64 {
        let kept = |j: &usize| {
            let c = abs(coeffs[*j]);
            if fault::is(Fault::LookKeepsNan) {
                !(c < self.threshold)
            } else if fault::is(Fault::LookStrict) {
                c > self.threshold
            } else {
                c >= self.threshold
            }
        };
        (0..self.cols).filter(kept).fold(0, |w, j| w | bit(j))
    }

    /// How the normal equations are damped, at first and again.
    fn damping(&self, again: bool) -> Damping {
        let other = if again {
            Fault::MarquardtOnlyAtFirst
        } else {
            Fault::MarquardtNotAtFirst
        };
        if self.by == By::Marquardt && !fault::is(other) {
            Damping::InProportion
        } else {
            Damping::Plain
        }
    }

    /// The solve over some columns, or the place among them at which it refused.
    fn solve(
        &self,
        kept: &mut Option<Kept>,
        terms: &[usize],
        again: bool,
    ) -> Result<Vec<f64>, usize> {
        let lambda = if again && fault::is(Fault::LambdaOnlyAtFirst) {
            0.0
        } else {
            self.lambda
        };
        let (r, c) = (self.rows, terms.len());
        if let Some(kept) = kept {
            let (mut a, mut b) = kept.block(terms);
            damp(&mut a, c, self.damping(again), lambda);
            normal_equations(&a, &mut b, c)?;
            if fault::is(Fault::ProductsOverwritten) {
                kept.products[..c].copy_from_slice(&b);
            }
            return Ok(b);
        }
        let mut part = Vec::with_capacity((r + c) * c);
        let theta = self.theta(Use::LeastSquares);
        let column = |(col, &j)| self.column(j, col, Fault::LayoutRefitByPlace);
        let columns: Vec<usize> = terms.iter().enumerate().map(column).collect();
        for row in theta.chunks_exact(self.cols).take(r) {
            part.extend(columns.iter().map(|&j| row[j]));
        }
        let root = fault::or(sqrt(lambda), Fault::LambdaNotRooted, lambda);
        for i in 0..c {
            part.extend((0..c).map(|j| if i == j { root } else { 0.0 }));
        }
        let mut b = self.target.to_vec();
        b.resize(r + c, 0.0);
        least_squares(&part, &b, r + c, c)
    }
}
