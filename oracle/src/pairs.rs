//! A folder of pairs NAME.in and NAME.out, held against the reference or against a program.

use crate::exchange::Exchange;
use std::ffi::OsString;
use std::fs;
use std::io::{self, Write};
use std::path::{Path, PathBuf};
use std::process::{Command, Stdio};

/// What a folder's pairs gave: how many, and the names of those answered otherwise.
pub struct Checked {
    pub pairs: usize,
    pub differ: Vec<String>,
}

/// Answers every input of a folder, by the program where one is given, and compares byte for byte.
pub fn check(exchange: &Exchange, folder: &Path, program: &[OsString]) -> io::Result<Checked> {
    let mut checked = Checked {
        pairs: 0,
        differ: Vec::new(),
    };
    for path in inputs(folder)? {
        let input = fs::read(&path)?;
        let expected = fs::read(path.with_extension("out"))?;
        let answer = if program.is_empty() {
            (exchange.answered)(&input).0
        } else {
            run(program, &input)?
        };
        checked.pairs += 1;
        if answer != expected {
            checked.differ.push(path.display().to_string());
        }
    }
    Ok(checked)
}

/// The inputs of a folder, by name.
fn inputs(folder: &Path) -> io::Result<Vec<PathBuf>> {
    let mut paths = Vec::new();
    for entry in fs::read_dir(folder)? {
        let path = entry?.path();
        if path.extension().is_some_and(|e| e == "in") {
            paths.push(path);
        }
    }
    paths.sort();
    Ok(paths)
}

/// What a program writes for an input.
pub fn run(program: &[OsString], input: &[u8]) -> io::Result<Vec<u8>> {
    let mut child = Command::new(&program[0])
        .args(&program[1..])
        .stdin(Stdio::piped())
        .stdout(Stdio::piped())
        .spawn()?;
    let mut stdin = child.stdin.take().expect("it is piped");
    // A program may answer before it has read all.
    match stdin.write_all(input) {
        Err(e) if e.kind() != io::ErrorKind::BrokenPipe => return Err(e),
        _ => drop(stdin),
    }
    Ok(child.wait_with_output()?.stdout)
}
