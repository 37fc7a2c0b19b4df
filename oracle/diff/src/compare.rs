//! What a call left, held against what the model left.

use crate::call::Call;
use crate::slice::Slice;
use oracle::bits::{first_difference, same};

/// The answers that leave every slice unchanged.
const NOTHING_CHANGED: [u64; 11] = [1, 2, 3, 4, 5, 6, 7, 10, 11, 12, 13];

/// The first thing in which a call differs from the model: answer, slices, column, report, guards.
///
/// Computed numbers in slices may be any NaN for any NaN. What must stay unchanged keeps its bits.
pub fn difference(before: &Call, got: (&Call, u64), expected: (&Call, u64)) -> Option<String> {
    let ((got, answer), (expected, wanted)) = (got, expected);
    if answer != wanted {
        return Some(format!(
            "the answer is {answer} ({answer:#x}) and should be {wanted} ({wanted:#x})"
        ));
    }
    let unchanged = NOTHING_CHANGED.contains(&wanted) && !expected.writes.is_empty();
    let reads = got
        .reads
        .iter()
        .zip(&before.reads)
        .find_map(|(g, b)| bits_differ(g, b, 0));
    let writes = || {
        let pairs = got
            .writes
            .iter()
            .zip(expected.writes.iter().zip(&before.writes));
        pairs.into_iter().find_map(|(g, (e, b))| {
            if unchanged {
                bits_differ(g, b, 0)
            } else {
                numbers_differ(g, e)
            }
        })
    };
    reads
        .or_else(writes)
        .or_else(|| workspace(before, got, expected, unchanged))
        .or_else(|| {
            let column = got.column != expected.column;
            column.then(|| {
                format!(
                    "the column is {:x?} and should be {:x?}",
                    got.column, expected.column
                )
            })
        })
        .or_else(|| {
            let report = got.report != expected.report;
            report.then(|| {
                format!(
                    "the report is {:x?} and should be {:x?}",
                    got.report, expected.report
                )
            })
        })
}

/// The workspace: as the model's over the needed length, untouched past it.
fn workspace(before: &Call, got: &Call, expected: &Call, unchanged: bool) -> Option<String> {
    let (before, needed) = before.workspace.as_ref()?;
    let (got, expected) = (&got.workspace.as_ref()?.0, &expected.workspace.as_ref()?.0);
    let untouched_from = if unchanged {
        0
    } else {
        (*needed).min(got.len())
    };
    bits_differ(got, before, untouched_from).or_else(|| numbers_differ(got, expected))
}

fn numbers_differ(got: &Slice, expected: &Slice) -> Option<String> {
    if !got.guards_hold() {
        return Some(format!("{}: written outside", got.name));
    }
    let i = first_difference(got.numbers(), expected.numbers())?;
    Some(told(got, expected, i))
}

/// A difference of bits from a place on.
fn bits_differ(got: &Slice, before: &Slice, from: usize) -> Option<String> {
    if !got.guards_hold() {
        return Some(format!("{}: written outside", got.name));
    }
    let (g, b) = (got.numbers(), before.numbers());
    let i = (from..g.len()).find(|&i| g[i].to_bits() != b[i].to_bits())?;
    Some(told(got, before, i))
}

fn told(got: &Slice, expected: &Slice, i: usize) -> String {
    let (g, e) = (got.numbers()[i], expected.numbers()[i]);
    let bits = if same(g, e) {
        "bits that should stay: "
    } else {
        ""
    };
    format!(
        "{}[{i}] is {bits}{g:e} ({:016x}) and should be {e:e} ({:016x})",
        got.name,
        g.to_bits(),
        e.to_bits()
    )
}
