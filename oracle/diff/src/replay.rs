//! The list of exchanges that the program `cases` replays: several of each answer for each solver in each layout, the
//! examples by columns, and several that tell each wilful fault of the stand-in apart, document 01's traps first.

use crate::fault::{self, Fault};
use crate::frames::FITBENCH;
use oracle::examples;
use oracle::exchange::fit_label;
use oracle::frames::{answered, write};
use oracle::generate::{Made, damaged, input};
use oracle::problem::Layout;
use std::collections::BTreeMap;

/// Only short inputs, so that the list stays small.
const LONGEST: usize = 700;
/// Inputs that are looked at, for each fault anew.
const LOOKED_AT: u64 = 60_000;
/// Exchanges of each answer, by rows and by columns, of each trap, and of each other fault.
const OF_AN_ANSWER: usize = 10;
const OF_AN_ANSWER_BY_COLUMNS: usize = 5;
const OF_A_TRAP: usize = 10;
const OF_A_FAULT: usize = 3;

/// Document 01's traps, but for two that `numbers` meets at the solvers: `QrShareFromZero` and `CholeskyNanRefused` changed no
/// answer to the short ones of 400,000 inputs of seed 1. That no fit can show them is not proved.
const TRAPS: [Fault; 5] = [
    Fault::ScatterByPlace,
    Fault::QtShareFromZero,
    Fault::LuOnOverwritten,
    Fault::SwapRightPartOnly,
    Fault::RootTruncated,
];

/// The list of a seed. An entry is two lengths of four hex digits and a newline, then an input and its answer; an entry
/// with no answer names the group of those after it.
pub fn list(seed: u64) -> Vec<u8> {
    let mut list = Vec::new();
    for (name, inputs) in by_answer(seed) {
        assert_eq!(inputs.len(), of_an_answer(&name), "{name}");
        group(&mut list, &name, &inputs);
    }
    let by_columns = examples::all().into_iter().map(|example| example.problem);
    let by_columns = by_columns.filter(|problem| problem.layout == Layout::ByColumns);
    let inputs: Vec<Vec<u8>> = by_columns.map(|problem| write(&problem)).collect();
    group(&mut list, "examples by columns", &inputs);
    for &trap in &TRAPS {
        let inputs = telling(seed, trap, OF_A_TRAP);
        assert_eq!(inputs.len(), OF_A_TRAP, "{trap:?}");
        group(&mut list, &format!("trap {trap:?}"), &inputs);
    }
    // The faults of `why` can't show here.
    let shown = |fault: &&Fault| !TRAPS.contains(fault) && !fault.is_of_why();
    for &fault in Fault::ALL.iter().filter(shown) {
        let inputs = telling(seed, fault, OF_A_FAULT);
        if inputs.len() == OF_A_FAULT {
            group(&mut list, &format!("fault {fault:?}"), &inputs);
        }
    }
    list
}

fn group(list: &mut Vec<u8>, name: &str, inputs: &[Vec<u8>]) {
    entry(list, name.as_bytes(), b"");
    for input in inputs {
        entry(list, input, &answered(input).0);
    }
}

fn entry(list: &mut Vec<u8>, input: &[u8], answer: &[u8]) {
    list.extend(format!("{:04x}{:04x}\n", input.len(), answer.len()).bytes());
    list.extend(input);
    list.extend(answer);
}

/// The short inputs of a seed, made and damaged in turn.
fn inputs(seed: u64) -> impl Iterator<Item = Made> {
    (0..LOOKED_AT)
        .flat_map(move |index| [input(seed, index), damaged(seed, index)])
        .filter(|made| made.input.len() <= LONGEST)
}

/// The first few inputs of each answer, by the answer's name.
fn by_answer(seed: u64) -> BTreeMap<String, Vec<Vec<u8>>> {
    let mut groups: BTreeMap<String, Vec<Vec<u8>>> = BTreeMap::new();
    for made in inputs(seed) {
        let (_, said) = answered(&made.input);
        let name = fit_label(&made.input, &said);
        let most = of_an_answer(&name);
        let group = groups.entry(name).or_default();
        if group.len() < most {
            group.push(made.input);
        }
    }
    groups
}

fn of_an_answer(name: &str) -> usize {
    if name.contains("by columns") {
        OF_AN_ANSWER_BY_COLUMNS
    } else {
        OF_AN_ANSWER
    }
}

/// The first few inputs that a fault answers otherwise.
fn telling(seed: u64, wrong: Fault, count: usize) -> Vec<Vec<u8>> {
    fault::set(wrong);
    let told = inputs(seed).filter(|made| FITBENCH.one(made).0.is_some());
    let found = told.take(count).map(|made| made.input).collect();
    fault::set(Fault::None);
    found
}
