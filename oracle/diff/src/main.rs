//! The commands of the differential runs.

use diff::frames::{FITBENCH, Responder, WHY};
use diff::functions::ALL;
use diff::{drop_in, run, sqrt};
use oracle::published::check_build;
use std::env;
use std::process::ExitCode;
use std::time::Instant;

const USAGE: &str = "diff SEED COUNT [FUNCTION..]   COUNT calls of each export (or of the named ones) against the model
diff one SEED INDEX FUNCTION   that one call, whole
diff sqrt COUNT                dapmotar_sqrt against the machine's root on COUNT patterns, and the times
diff frames SEED COUNT         dapmotar_respond against the reference on COUNT damaged inputs and COUNT/10 made ones
diff why-frames SEED COUNT     dapmotar_respond_why so
diff replay SEED               the list of exchanges that the program cases replays, on standard output
diff drop-in SEED COUNT        the Rust drop-ins against the published functions";

fn main() -> ExitCode {
    check_build("diff");
    diff::set_fault_from_env();
    let args: Vec<String> = env::args().skip(1).collect();
    let words: Vec<&str> = args.iter().map(String::as_str).collect();
    let numbers: Vec<Option<u64>> = words.iter().map(|w| w.parse().ok()).collect();
    match (words.as_slice(), numbers.as_slice()) {
        (["sqrt", _], [_, Some(count)]) => run_sqrt(*count),
        (["frames", ..], [_, Some(seed), Some(count)]) => run_frames(&FITBENCH, *seed, *count),
        (["why-frames", ..], [_, Some(seed), Some(count)]) => run_frames(&WHY, *seed, *count),
        (["replay", _], [_, Some(seed)]) => run_replay(*seed),
        (["drop-in", ..], [_, Some(seed), Some(count)]) => run_drop_in(*seed, *count),
        (["one", _, _, name], [_, Some(seed), Some(index), _]) => run_one(*seed, *index, name),
        ([_, _, names @ ..], [Some(seed), Some(count), ..]) => run_calls(*seed, *count, names),
        _ => usage(),
    }
}

fn usage() -> ExitCode {
    eprintln!("{USAGE}");
    eprintln!("functions: {}", ALL.map(|f| f.name).join(" "));
    ExitCode::from(2)
}

fn verdict(differ: u64) -> ExitCode {
    if differ == 0 {
        ExitCode::SUCCESS
    } else {
        ExitCode::FAILURE
    }
}

fn run_calls(seed: u64, count: u64, names: &[&str]) -> ExitCode {
    if names.iter().any(|name| ALL.iter().all(|f| f.name != *name)) {
        return usage();
    }
    let start = Instant::now();
    let (mut calls, mut differ) = (0, 0);
    for function in ALL
        .iter()
        .filter(|f| names.is_empty() || names.contains(&f.name))
    {
        let outcome = run::many(function, seed, count);
        println!("{}", function.name);
        print!("{}", outcome.answers);
        let (sizes, times) = &outcome.largest;
        if !sizes.is_empty() {
            println!("{times:>10}  of them accepted at {sizes:?}, the largest");
        }
        if let [rows, cols] = outcome.counts.as_slice() {
            let (rows, cols) = (rows.len(), cols.len());
            println!("            at {rows} row counts and {cols} column counts");
        }
        for text in &outcome.told {
            println!("  differs: {text}");
        }
        calls += outcome.calls;
        differ += outcome.differ;
    }
    println!(
        "{calls} calls, {differ} differ ({:.0} s)",
        start.elapsed().as_secs_f64()
    );
    verdict(differ)
}

fn run_one(seed: u64, index: u64, name: &str) -> ExitCode {
    let Some(function) = ALL.iter().find(|f| f.name == name) else {
        return usage();
    };
    println!("{:#?}", run::made(function, seed, index));
    let one = run::one(function, seed, index);
    println!("the model's answer: {}", one.label);
    println!("{}", one.difference.as_deref().unwrap_or("nothing differs"));
    verdict(u64::from(one.difference.is_some()))
}

fn run_sqrt(count: u64) -> ExitCode {
    let share = count.div_ceil(sqrt::CLASSES.len() as u64);
    let mut differ = 0;
    for class in &sqrt::CLASSES {
        let (bad, first) = sqrt::compare(class, 1, share);
        let (ours, machines) = sqrt::times(class, 1);
        println!(
            "{share:>10} {:<32} {bad} differ; {ours:5.1} ns a call, f64::sqrt {machines:4.1} ns",
            class.name
        );
        if let Some(x) = first {
            println!("  the first: {:016x}", x.to_bits());
        }
        differ += bad;
    }
    println!(
        "{} patterns, {differ} differ",
        share * sqrt::CLASSES.len() as u64
    );
    verdict(differ)
}

fn run_drop_in(seed: u64, count: u64) -> ExitCode {
    let found =
        (0..count).flat_map(|index| [drop_in::one(seed, index), drop_in::inverse(seed, index)]);
    let found = found.flatten();
    let differ = found.inspect(|text| println!("differs: {text}")).count() as u64;
    println!("{count} problems and {count} inverses, {differ} differ");
    verdict(differ)
}

fn run_frames(responder: &Responder, seed: u64, count: u64) -> ExitCode {
    let start = Instant::now();
    let (histogram, differ) = responder.many(seed, count, |text| println!("differs: {text}"));
    print!("{histogram}");
    println!("{differ} differ ({:.0} s)", start.elapsed().as_secs_f64());
    verdict(differ)
}

#[cfg(feature = "stand-in")]
fn run_replay(seed: u64) -> ExitCode {
    use std::io::Write;
    let done = std::io::stdout().write_all(&diff::replay::list(seed));
    verdict(u64::from(done.is_err()))
}

#[cfg(not(feature = "stand-in"))]
fn run_replay(_: u64) -> ExitCode {
    eprintln!("diff: built without the feature `stand-in`");
    ExitCode::from(2)
}
