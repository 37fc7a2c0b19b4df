//! Many calls of an export against the model.

use crate::call::{Call, Function};
use crate::compare::difference;
use oracle::histogram::Histogram;
use oracle::rng::Rng;
use std::collections::BTreeSet;

/// What a run of calls gave.
#[derive(Default)]
pub struct Outcome {
    /// The model's answers.
    pub answers: Histogram,
    pub calls: u64,
    /// The largest sizes accepted, and how many calls had them.
    pub largest: (Vec<usize>, u64),
    /// The counts of rows and of columns accepted, or of one of them.
    pub counts: Vec<BTreeSet<usize>>,
    /// The first few differences.
    pub told: Vec<String>,
    pub differ: u64,
}

impl Outcome {
    fn take_sizes(&mut self, sizes: &[usize]) {
        let sizes = &sizes[..sizes.len().min(2)];
        self.counts.resize(sizes.len(), BTreeSet::new());
        for (counts, &size) in self.counts.iter_mut().zip(sizes) {
            counts.insert(size);
        }
        let area = |sizes: &[usize]| sizes.iter().product::<usize>();
        if self.largest.0 == sizes {
            self.largest.1 += 1;
        } else if area(sizes) > area(&self.largest.0) || self.largest.1 == 0 {
            self.largest = (sizes.to_vec(), 1);
        }
    }
}

/// What one call gave.
pub struct One {
    /// The first difference, if there is one.
    pub difference: Option<String>,
    /// The model's answer, for the histogram.
    pub label: String,
    /// The sizes, where the call is accepted.
    pub accepted: Option<Vec<usize>>,
}

/// How many differences are told of each function.
const TOLD: usize = 5;

/// Call number `index` of a seed.
pub fn one(function: &Function, seed: u64, index: u64) -> One {
    let before = made(function, seed, index);
    let (mut got, mut expected) = (before.clone(), before.clone());
    let wanted = (function.model)(&mut expected);
    let answer = (function.library)(&mut got);
    let label = (function.label)(&expected, wanted);
    let differs = difference(&before, (&got, answer), (&expected, wanted));
    let alike = || {
        let mut other = before.clone();
        let said = function.alike?(&mut other);
        let text = difference(&before, (&got, answer), (&other, said))?;
        Some(format!("as the call beside it: {text}"))
    };
    One {
        difference: differs.or_else(alike),
        label,
        accepted: (wanted == 0 && !before.writes.is_empty()).then_some(before.sizes),
    }
}

/// The call itself.
pub fn made(function: &Function, seed: u64, index: u64) -> Call {
    (function.make)(&mut Rng::for_part(seed, function.name, index))
}

/// So many calls of an export.
pub fn many(function: &Function, seed: u64, count: u64) -> Outcome {
    let mut outcome = Outcome::default();
    for index in 0..count {
        let one = one(function, seed, index);
        outcome.calls += 1;
        outcome.answers.count(&one.label);
        if let Some(sizes) = one.accepted {
            outcome.take_sizes(&sizes);
        }
        if let Some(text) = one.difference {
            outcome.differ += 1;
            if outcome.told.len() < TOLD {
                outcome
                    .told
                    .push(format!("{} call {index}: {text}", function.name));
            }
        }
    }
    outcome
}
