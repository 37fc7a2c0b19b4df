//! The runs find every wilful fault of the stand-in, and nothing in it without one.
#![cfg(feature = "stand-in")]

use diff::fault::{self, Fault};
use diff::frames::{FITBENCH, Responder, WHY};
use diff::functions::ALL;
use diff::{drop_in, run, sqrt};

const SEED: u64 = 1;

/// Where a run first finds something: the function and the number of its call.
fn found(calls: u64) -> Option<(&'static str, u64, String)> {
    (0..calls).find_map(|index| {
        ALL.iter().find_map(|function| {
            let one = run::one(function, SEED, index);
            one.difference.map(|text| (function.name, index, text))
        })
    })
}

/// The same for frames.
fn found_in_frames(responder: &Responder, inputs: u64) -> Option<(&'static str, u64, String)> {
    let reference = &responder.reference;
    (0..inputs).find_map(|index| {
        [reference.damaged, reference.input]
            .iter()
            .find_map(|make| {
                let (difference, _) = responder.one(&make(SEED, index));
                difference.map(|text| ("frames", index, text))
            })
    })
}

/// The same for `diff sqrt`: the class, how many of its patterns differ, and the first.
fn found_among_roots(patterns: u64) -> Option<(&'static str, u64, String)> {
    sqrt::CLASSES.iter().find_map(|class| {
        let (differ, first) = sqrt::compare(class, SEED, patterns);
        first.map(|x| (class.name, differ, format!("{:016x}", x.to_bits())))
    })
}

/// One test, since the fault is one for the whole process.
#[test]
fn every_fault_is_found_and_nothing_else() {
    assert_eq!(found(3_000), None);
    assert_eq!(found_in_frames(&FITBENCH, 3_000), None);
    assert_eq!(found_in_frames(&WHY, 3_000), None);
    assert_eq!(found_among_roots(3_000), None);
    for index in 0..3_000 {
        assert_eq!(drop_in::one(SEED, index), None);
        assert_eq!(drop_in::inverse(SEED, index), None);
    }
    let mut missed = Vec::new();
    for &fault in Fault::ALL {
        fault::set(fault);
        let name = format!("{fault:?}");
        let found = if name.starts_with("Frame") {
            found_in_frames(&FITBENCH, 20_000)
        } else if name.starts_with("WhyFrame") {
            found_in_frames(&WHY, 20_000)
        } else {
            found(20_000)
        };
        match found {
            Some((name, index, text)) => println!("{fault:?}: {name} {index}: {text}"),
            None => missed.push(fault),
        }
        if name.starts_with("Root") && found_among_roots(3_000).is_none() {
            missed.push(fault);
        }
        fault::set(Fault::None);
    }
    assert_eq!(missed, []);
}
