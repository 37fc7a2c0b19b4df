//! The oracle's commands.

use oracle::exchange::{Exchange, FITBENCH, WHY};
use oracle::histogram::Histogram;
use oracle::{examples, generate, pairs, published, table};
use std::env;
use std::ffi::OsString;
use std::io::{self, Read, Write};
use std::path::Path;
use std::process::ExitCode;

const USAGE: &str = "oracle table                          the documents' numbers against the published Rust
oracle fitbench                       answer the frames on standard input
oracle pairs DIR [PROGRAM..]          hold NAME.in and NAME.out against the reference, or against a program
oracle gen SEED COUNT [DIR]           make inputs, count the answers, write pairs to a folder
oracle fuzz-frames SEED COUNT PROGRAM..   hold a program against the reference on made inputs, a process each
oracle why, why-pairs, why-gen, why-fuzz-frames   the same for the program why
oracle examples DIR                   write the examples of the programs with their answers";

fn main() -> ExitCode {
    published::check_build("oracle");
    let args: Vec<OsString> = env::args_os().skip(1).collect();
    let words: Vec<&str> = args.iter().map(|a| a.to_str().unwrap_or("")).collect();
    let done = match words.as_slice() {
        ["table"] => Ok(run_table()),
        ["fitbench"] => answer(&FITBENCH),
        ["why"] => answer(&WHY),
        ["examples", folder] => examples::write_all(Path::new(folder)).map(|()| ExitCode::SUCCESS),
        [command, rest @ ..] => match command.strip_prefix("why-") {
            Some(command) => run_on(&WHY, command, rest, &args),
            None => run_on(&FITBENCH, command, rest, &args),
        },
        [] => Ok(usage()),
    };
    done.unwrap_or_else(|e| {
        eprintln!("oracle: {e}");
        ExitCode::from(2)
    })
}

/// A command that is there for each program.
fn run_on(
    exchange: &Exchange,
    command: &str,
    words: &[&str],
    args: &[OsString],
) -> io::Result<ExitCode> {
    let number = |i: usize| words.get(i).and_then(|word| word.parse().ok());
    match (command, words, number(0), number(1)) {
        ("pairs", [folder, ..], ..) => run_pairs(exchange, Path::new(folder), &args[2..]),
        ("gen", [_, _], Some(seed), Some(count)) => run_gen(exchange, seed, count, None),
        ("gen", [_, _, folder], Some(seed), Some(count)) => {
            run_gen(exchange, seed, count, Some(Path::new(folder)))
        }
        ("fuzz-frames", [_, _, _, ..], Some(seed), Some(count)) => {
            run_fuzz(exchange, seed, count, &args[3..])
        }
        _ => Ok(usage()),
    }
}

fn usage() -> ExitCode {
    eprintln!("{USAGE}");
    ExitCode::from(2)
}

fn verdict(holds: bool) -> ExitCode {
    if holds {
        ExitCode::SUCCESS
    } else {
        ExitCode::FAILURE
    }
}

fn run_table() -> ExitCode {
    let lines = table::lines();
    for line in &lines {
        println!(
            "{:<5} {:<4} {}",
            if line.holds { "holds" } else { "FAILS" },
            line.name,
            line.says
        );
    }
    let fail = lines.iter().filter(|line| !line.holds).count();
    println!("{} lines, {fail} fail", lines.len());
    verdict(fail == 0)
}

fn answer(exchange: &Exchange) -> io::Result<ExitCode> {
    let mut input = Vec::new();
    io::stdin().read_to_end(&mut input)?;
    io::stdout().write_all(&(exchange.answered)(&input).0)?;
    Ok(ExitCode::SUCCESS)
}

fn run_pairs(exchange: &Exchange, folder: &Path, program: &[OsString]) -> io::Result<ExitCode> {
    let checked = pairs::check(exchange, folder, program)?;
    for name in &checked.differ {
        println!("differs: {name}");
    }
    println!("{} pairs, {} differ", checked.pairs, checked.differ.len());
    Ok(verdict(checked.pairs > 0 && checked.differ.is_empty()))
}

fn run_gen(
    exchange: &Exchange,
    seed: u64,
    count: u64,
    folder: Option<&Path>,
) -> io::Result<ExitCode> {
    print!("{}", generate::run(exchange, seed, count, folder)?);
    Ok(ExitCode::SUCCESS)
}

fn run_fuzz(
    exchange: &Exchange,
    seed: u64,
    count: u64,
    program: &[OsString],
) -> io::Result<ExitCode> {
    let mut histogram = Histogram::default();
    let mut differ = 0;
    for index in 0..count {
        let made = (exchange.input)(seed, index);
        let (expected, labels) = (exchange.answered)(&made.input);
        labels.iter().for_each(|label| histogram.count(label));
        if pairs::run(program, &made.input)? != expected {
            println!("differs: input {index} of seed {seed}, {}", made.kind);
            differ += 1;
        }
    }
    print!("{histogram}");
    println!("{count} inputs, {differ} differ");
    Ok(verdict(differ == 0))
}
