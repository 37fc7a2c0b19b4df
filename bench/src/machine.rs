//! The machine's kind and the date.

use std::process::Command;

/// What a command prints.
fn said(program: &str, args: &[&str]) -> String {
    let output = Command::new(program).args(args).output();
    let text = output.map(|o| String::from_utf8_lossy(&o.stdout).trim().to_string());
    text.unwrap_or_else(|_| "unknown".into())
}

/// The processor's name, as `lscpu` has it.
fn cpu_model() -> String {
    let told = said("lscpu", &[]);
    let line = told.lines().find(|line| line.starts_with("Model name"));
    let model = line
        .and_then(|line| line.split_once(':'))
        .map(|(_, model)| model.trim());
    model.unwrap_or("unknown processor").to_string()
}

/// One line on where and when.
pub fn line() -> String {
    format!(
        "{}, {}, {}",
        said("uname", &["-m"]),
        cpu_model(),
        said("date", &["+%Y-%m-%d"])
    )
}
