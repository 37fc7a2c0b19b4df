//! The port's time against the published Rust's, and its time by columns against that by rows, as markdown tables.

mod calls;
mod data;
mod machine;
mod measure;
mod table;

use calls::{Call, Room, STRLSQ};
use data::{Data, FALLING};
use std::env;
use std::process::ExitCode;

#[cfg(feature = "stand-in")]
use stand_in as _;

/// Rows and columns that are measured, with fits of one refit and of several.
const SHAPES: [(usize, usize); 3] = [(4096, 64), (1000, 16), (128, 16)];
/// Small ones, at which a call's own start shows.
const SMALL: [(usize, usize); 4] = [(64, 8), (64, 4), (16, 8), (16, 4)];

fn main() -> ExitCode {
    oracle::published::check_build("bench");
    let write = env::args().skip(1).eq(["--write".to_string()]);
    if env::args().count() > 1 && !write {
        eprintln!(
            "bench            print the table\nbench --write    and put it into bench/README.md"
        );
        return ExitCode::from(2);
    }
    let mut rows = Vec::new();
    for (n_rows, n_cols) in SHAPES {
        rows.extend(each_call(n_rows, n_cols));
        rows.push(falling("strlsq, 1 refit", n_rows, n_cols, false, 1));
        rows.push(falling(
            "strlsq, 8 refits",
            n_rows,
            n_cols,
            true,
            FALLING as u64,
        ));
    }
    let small: Vec<table::Row> = SMALL
        .into_iter()
        .flat_map(|(n_rows, n_cols)| each_call(n_rows, n_cols))
        .collect();
    let layouts: Vec<table::Row> = SHAPES
        .into_iter()
        .chain(SMALL)
        .flat_map(|(n_rows, n_cols)| by_columns(n_rows, n_cols))
        .collect();
    let text = table::text(&rows, &small, &layouts);
    print!("{text}");
    if write && let Err(e) = table::write(&text) {
        eprintln!("bench: {e}");
        return ExitCode::from(2);
    }
    let mut all = rows.iter().chain(&small).chain(&layouts);
    let within = all.all(table::Row::within);
    if within && table::between_within(&rows) {
        ExitCode::SUCCESS
    } else {
        ExitCode::FAILURE
    }
}

/// Every call at these sizes.
fn each_call(rows: usize, cols: usize) -> Vec<table::Row> {
    let data = Data::new(rows, cols);
    let measured = calls::ALL.into_iter().map(|call| {
        eprintln!("{} at {rows}x{cols}", call.name);
        table::Row::new(call, &data, measure::measure(call, &data))
    });
    measured.collect()
}

/// The fits by columns beside those by rows at these sizes.
fn by_columns(rows: usize, cols: usize) -> Vec<table::Row> {
    let data = Data::new(rows, cols);
    let measured = calls::LAYOUTS.into_iter().map(|(call, by_rows)| {
        eprintln!("{} at {rows}x{cols}", call.name);
        table::Row::new(call, &data, measure::between(call, by_rows, &data))
    });
    measured.collect()
}

/// `strlsq` where eight terms fall, over so many refits.
fn falling(name: &'static str, rows: usize, cols: usize, in_turn: bool, refits: u64) -> table::Row {
    let data = Data::falling(rows, cols, in_turn);
    let call = Call { name, ..STRLSQ };
    assert_eq!(calls::refits(&data, &mut Room::new(call, &data)), refits);
    eprintln!("{name} at {rows}x{cols}");
    table::Row::new(call, &data, measure::measure(call, &data))
}
