//! Sizes and lengths: right ones, and wrong ones in every combination.

use crate::slice::Slice;
use oracle::generate::floats;
use oracle::refusal::MAX_ROWS;
use oracle::rng::Rng;

/// A size up to a limit: mostly small, at times zero, up to the limit, or the limit itself.
pub fn good(rng: &mut Rng, limit: usize) -> usize {
    match rng.below(3000) {
        0 => limit,
        1..4 => rng.between(0, limit),
        4..150 => rng.between(0, limit.min(40)),
        150..400 => rng.below(2),
        _ => rng.between(1, limit.min(8)),
    }
}

/// A size that may be at, just over or far over its limit; the large limits are met less often, since they cost.
pub fn any(rng: &mut Rng, limit: usize) -> usize {
    let cheap = limit < 100 || rng.once_in(8);
    match rng.below(8) {
        0 if cheap => limit + 1,
        1 if cheap => limit,
        0 | 2 => huge(rng),
        _ => good(rng, limit),
    }
}

/// Rows at which a walk by pages of 32 rows may go wrong: few, beside a multiple of 32, and up to the most.
pub fn rows_by_pages(rng: &mut Rng) -> usize {
    let beside = |rng: &mut Rng, pages| 32 * rng.between(1, pages) + rng.below(3) - 1;
    match rng.below(100) {
        0 => MAX_ROWS - rng.below(4),
        1..4 => beside(rng, MAX_ROWS / 32).min(MAX_ROWS),
        4..50 => beside(rng, 8),
        _ => rng.below(10),
    }
}

/// A size that no slice has; products of two of them wrap.
pub fn huge(rng: &mut Rng) -> usize {
    let x = rng.pick(&[
        1 << 31,
        1 << 32,
        1 << 33,
        1 << 62,
        1 << 63,
        usize::MAX,
        usize::MAX / 3,
    ]);
    x.wrapping_add(rng.below(3)).wrapping_sub(1).max(1 << 30)
}

/// The right length, which is none where it is too long to have.
pub fn right(length: Option<usize>) -> usize {
    length.filter(|&n| n <= 600_000).unwrap_or(0)
}

/// A length beside the right one.
pub fn wrong(rng: &mut Rng, length: usize) -> usize {
    match rng.below(4) {
        0 => length.saturating_sub(1),
        1 => length + 1,
        2 => 0,
        _ => rng.between(0, length + 8),
    }
}

/// The right length but once in so many draws.
pub fn mostly(rng: &mut Rng, length: usize, once_in: usize) -> usize {
    if rng.once_in(once_in) {
        wrong(rng, length)
    } else {
        length
    }
}

/// A workspace's length: exact, longer, one short, or short.
pub fn workspace(rng: &mut Rng, needed: usize) -> usize {
    match rng.below(8) {
        0 => needed.saturating_sub(1),
        1 => rng.between(0, needed),
        2 => needed + 1,
        3 => needed + rng.between(0, 20),
        _ => needed,
    }
}

/// A slice of junk, as an output or a workspace may hold before a call.
pub fn junk(rng: &mut Rng, name: &'static str, length: usize) -> Slice {
    let seed = floats::any(rng);
    let one_kind = rng.once_in(2);
    let numbers: Vec<f64> = (0..length)
        .map(|i| {
            if one_kind || i > 64 {
                seed
            } else {
                floats::any(rng)
            }
        })
        .collect();
    given(rng, name, &numbers)
}

/// A slice of these numbers; an empty one is null as often as not.
pub fn given(rng: &mut Rng, name: &'static str, numbers: &[f64]) -> Slice {
    Slice::new(name, numbers, rng.once_in(2))
}

/// Whether a call's sizes and lengths are all right, or each may be wrong.
#[derive(Clone, Copy)]
pub struct Plan {
    right: bool,
}

impl Plan {
    pub const RIGHT: Plan = Plan { right: true };

    /// Right twice in three calls.
    pub fn new(rng: &mut Rng) -> Plan {
        Plan {
            right: !rng.once_in(3),
        }
    }

    pub fn is_right(self) -> bool {
        self.right
    }

    pub fn size(self, rng: &mut Rng, limit: usize) -> usize {
        if self.right {
            good(rng, limit)
        } else {
            any(rng, limit)
        }
    }

    /// A length of so many numbers, or of none where that can't be had.
    pub fn length(self, rng: &mut Rng, length: Option<usize>) -> usize {
        let length = right(length);
        if self.right {
            length
        } else {
            mostly(rng, length, 4)
        }
    }

    /// A workspace's length; it is short in calls that are right otherwise, too.
    pub fn workspace(self, rng: &mut Rng, needed: Option<usize>) -> usize {
        workspace(rng, right(needed))
    }
}

#[cfg(test)]
mod tests {
    use super::*;
    use std::collections::BTreeSet;

    #[test]
    fn the_rows_of_a_walk_by_pages_are_all_met() {
        let beside = (1..=128).flat_map(|pages| [32 * pages - 1, 32 * pages, 32 * pages + 1]);
        let wanted = (0..10).chain(beside).chain(4093..4097);
        let wanted: BTreeSet<usize> = wanted.filter(|&rows| rows <= MAX_ROWS).collect();
        let mut rng = Rng::new(1);
        let met: BTreeSet<usize> = (0..100_000).map(|_| rows_by_pages(&mut rng)).collect();
        assert_eq!(met, wanted);
    }
}
