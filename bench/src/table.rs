//! The markdown table.

use crate::calls::Call;
use crate::data::Data;
use crate::machine;
use crate::measure::Times;
use std::env::consts::ARCH;
use std::fs;
use std::io;
use std::path::Path;

/// The most that a fit by columns may take, as a multiple of its time by rows.
const BY_COLUMNS: f64 = 1.5;

/// A call by the port beside the Rust's, or by columns beside the port's by rows.
pub struct Row {
    name: &'static str,
    rows: usize,
    cols: usize,
    times: Times,
}

impl Row {
    pub fn new(call: Call, data: &Data, times: Times) -> Row {
        Row {
            name: call.name,
            rows: data.rows,
            cols: data.cols,
            times,
        }
    }

    fn ratio(&self) -> f64 {
        self.times.one / self.times.other
    }

    /// The most that the ratio should be.
    fn limit(&self) -> f64 {
        let size = (self.rows, self.cols);
        match self.name {
            name if name.ends_with("_by_columns") => BY_COLUMNS,
            "jtj" | "jtj_marquardt" => limit_at(size, [0.07, 0.3, 0.5]),
            "solve_normal_equations" if self.cols <= 8 => 1.8,
            "solve_normal_equations" if self.cols <= 16 => 1.3,
            "solve_least_squares" | "strlsq_qr" => limit_at(size, [0.35, 1.0, 0.85]),
            name if name.starts_with("strlsq") => limit_at(size, [0.1, 0.4, 0.5]),
            _ => 1.0,
        }
    }

    pub fn within(&self) -> bool {
        self.ratio() <= self.limit()
    }

    /// A row of the table. The normal equations and the inverse see the columns only.
    fn text(&self) -> String {
        let size = match self.name {
            "solve_normal_equations" | "invert_spd" => {
                format!("{0}x{0}, of {1} rows", self.cols, self.rows)
            }
            _ => format!("{}x{}", self.rows, self.cols),
        };
        format!(
            "| {} | {size} | {} | {} | {}{:.2} | {:.2} |\n",
            self.name,
            time(self.times.one),
            time(self.times.other),
            if self.within() { "" } else { "**above** " },
            self.ratio(),
            self.limit()
        )
    }
}

/// The limits of a call at the three larger sizes; 1.0 at the small ones.
fn limit_at(size: (usize, usize), [large, long, short]: [f64; 3]) -> f64 {
    match size {
        (4096, 64) => large,
        (1000, 16) => long,
        (128, 16) => short,
        _ => 1.0,
    }
}

fn time(seconds: f64) -> String {
    match seconds {
        s if s >= 1e-3 => format!("{:.2} ms", s * 1e3),
        s => format!("{:.2} µs", s * 1e6),
    }
}

/// The tables under a line on the machine and the date.
pub fn text(rows: &[Row], small: &[Row], layouts: &[Row]) -> String {
    format!(
        "{}\n\n{}\n{}\nSmall sizes:\n\n{}\nBy columns:\n\n{}",
        machine::line(),
        table("port", "Rust", rows),
        between(rows),
        table("port", "Rust", small),
        table("by columns", "by rows", layouts)
    )
}

/// A table of times of one and the other.
fn table(one: &str, other: &str, rows: &[Row]) -> String {
    let head = format!("| call | size | {one} | {other} | {one} / {other} | most allowed |");
    let body: String = rows.iter().map(Row::text).collect();
    format!("{head}\n|---|---|---|---|---|---|\n{body}")
}

/// The most that `strlsq` at 4096x64 may take with eight refits, as a multiple of its time with one.
const MORE_REFITS: f64 = 1.15;
/// The most that `strlsq_marquardt` may take there, as a multiple of the time of `strlsq`.
const IN_PROPORTION: f64 = 1.05;

fn more_refits(rows: &[Row]) -> f64 {
    port(rows, "strlsq, 8 refits") / port(rows, "strlsq, 1 refit")
}

fn in_proportion(rows: &[Row]) -> f64 {
    port(rows, "strlsq_marquardt") / port(rows, "strlsq")
}

/// The port's time for a call at 4096x64.
fn port(rows: &[Row], name: &str) -> f64 {
    let row = rows.iter().find(|r| r.name == name && r.rows == 4096);
    row.expect("it is measured").times.one
}

/// What the port's own times at 4096x64 are to each other.
fn between(rows: &[Row]) -> String {
    format!(
        "At 4096x64 `strlsq` takes {:.2} times as long with eight refits as with one; at most {MORE_REFITS:.2} is allowed. \
         `strlsq_marquardt` takes {:.2} times as long as `strlsq`; at most {IN_PROPORTION:.2} is allowed.\n",
        more_refits(rows),
        in_proportion(rows)
    )
}

/// Whether they are within what is allowed.
pub fn between_within(rows: &[Row]) -> bool {
    more_refits(rows) <= MORE_REFITS && in_proportion(rows) <= IN_PROPORTION
}

const END: &str = "<!-- end of table -->\n";

/// Puts the table into the README, between the marks of this kind of processor.
pub fn write(text: &str) -> io::Result<()> {
    let path = Path::new(env!("CARGO_MANIFEST_DIR")).join("README.md");
    let readme = fs::read_to_string(&path)?;
    let begin = format!("<!-- table of {} -->\n", ARCH);
    let parts = readme.split_once(&begin).and_then(|(before, rest)| {
        let (_, after) = rest.split_once(END)?;
        Some((before, after))
    });
    let Some((before, after)) = parts else {
        return Err(io::Error::other(format!(
            "bench/README.md has no table of {ARCH} to write into"
        )));
    };
    fs::write(&path, format!("{before}{begin}\n{text}\n{END}{after}"))
}
