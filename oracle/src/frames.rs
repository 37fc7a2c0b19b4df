//! The bench program's exchange, bytes in to bytes out, by document 01; by columns by order 8.

use crate::bits::shown;
use crate::fit::{Fit, fit};
use crate::problem::{Code, Layout, Problem, Setup};
use crate::refusal::{MAX_FRAME_COLS, MAX_FRAME_ROWS, MAX_ROUNDS, Refusal};
use std::fmt::Write as _;

/// Digits of a header frame, without its newline.
pub const HEADER_DIGITS: usize = 44;
/// Digits of one number.
pub const NUMBER_DIGITS: usize = 16;

/// The answer to an input: of a fit or of a refusal.
pub fn respond(input: &[u8]) -> Vec<u8> {
    answered(input).0
}

/// The answer, and what it says where it is no refusal.
pub fn answered(input: &[u8]) -> (Vec<u8>, Result<(Code, Fit), Refusal>) {
    match read(input) {
        Ok(problem) => {
            let fit = fit(&problem);
            (fit_text(&fit).into_bytes(), Ok((problem.code(), fit)))
        }
        Err(refusal) => (refusal_text(refusal).into_bytes(), Err(refusal)),
    }
}

/// The lines of a fit: stop, refits, kept word, refused term and error, then a coefficient a line.
pub fn fit_text(fit: &Fit) -> String {
    let r = fit.report;
    let mut text = format!(
        "{:02x}{:04x}{:016x}{:02x}{:016x}\n",
        r.stop.code(),
        r.refits,
        r.kept,
        r.term,
        shown(r.error)
    );
    for &c in &fit.coeffs {
        writeln!(text, "{:016x}", shown(c)).expect("a String takes it");
    }
    text
}

/// The line of a refusal.
pub fn refusal_text(refusal: Refusal) -> String {
    format!("ff{:02x}\n", refusal.number())
}

/// The problem that an input holds, or the first refusal: malformed header, 1, 2, 3, malformed frames or tail.
pub fn read(input: &[u8]) -> Result<Problem, Refusal> {
    read_if(input, |_| Ok(()))
}

/// The same where a setup may be refused, directly after 3.
pub fn read_if(
    input: &[u8],
    accepts: fn(Setup) -> Result<(), Refusal>,
) -> Result<Problem, Refusal> {
    let (header, rest) = frame(input, HEADER_DIGITS).ok_or(Refusal::MalformedFrame)?;
    let code = Code::of_number(number(&header[0..2])).ok_or(Refusal::MalformedFrame)?;
    let rows = number(&header[2..6]) as usize;
    let cols = number(&header[6..8]) as usize;
    let setup = Setup {
        max_iter: number(&header[8..12]) as usize,
        threshold: f64::from_bits(number(&header[12..28])),
        lambda: f64::from_bits(number(&header[28..44])),
    };
    if cols > MAX_FRAME_COLS {
        return Err(Refusal::Columns);
    }
    if rows > MAX_FRAME_ROWS {
        return Err(Refusal::Rows);
    }
    if setup.max_iter > MAX_ROUNDS {
        return Err(Refusal::Rounds);
    }
    accepts(setup)?;
    let mut problem = Problem::zeros(code.solver, rows, cols, setup);
    problem.layout = code.layout;
    let read = match code.layout {
        Layout::ByRows => read_rows(rest, &mut problem),
        Layout::ByColumns => read_columns(rest, &mut problem),
    };
    match read {
        Some([]) => Ok(problem),
        _ => Err(Refusal::MalformedFrame),
    }
}

/// Reads a frame a row, the target and then the features, and gives what follows.
fn read_rows<'a>(mut input: &'a [u8], problem: &mut Problem) -> Option<&'a [u8]> {
    for row in 0..problem.rows {
        let (numbers, rest) = numbers(input, 1 + problem.cols)?;
        problem.target[row] = numbers[0];
        for term_idx in 0..problem.cols {
            problem.set(row, term_idx, numbers[1 + term_idx]);
        }
        input = rest;
    }
    Some(input)
}

/// Reads a frame with all targets, then a frame a column, and gives what follows. With no rows each is an empty line.
fn read_columns<'a>(input: &'a [u8], problem: &mut Problem) -> Option<&'a [u8]> {
    let (target, mut input) = numbers(input, problem.rows)?;
    problem.target = target;
    for term_idx in 0..problem.cols {
        let (column, rest) = numbers(input, problem.rows)?;
        for (row, x) in column.into_iter().enumerate() {
            problem.set(row, term_idx, x);
        }
        input = rest;
    }
    Some(input)
}

/// A frame of so many numbers, and what follows it.
fn numbers(input: &[u8], count: usize) -> Option<(Vec<f64>, &[u8])> {
    let (digits, rest) = frame(input, NUMBER_DIGITS * count)?;
    Some((digits.chunks(NUMBER_DIGITS).map(float).collect(), rest))
}

/// A frame of so many lowercase hex digits and a newline, and what follows it.
fn frame(input: &[u8], digits: usize) -> Option<(&[u8], &[u8])> {
    let (line, rest) = input.split_at_checked(digits)?;
    let (&newline, rest) = rest.split_first()?;
    let hex = |&b: &u8| b.is_ascii_digit() || (b'a'..=b'f').contains(&b);
    (newline == b'\n' && line.iter().all(hex)).then_some((line, rest))
}

/// The number of up to 16 hex digits, the high digit first.
fn number(digits: &[u8]) -> u64 {
    digits.iter().fold(0, |n, &b| {
        let digit = if b.is_ascii_digit() {
            b - b'0'
        } else {
            b - b'a' + 10
        };
        n << 4 | u64::from(digit)
    })
}

fn float(digits: &[u8]) -> f64 {
    f64::from_bits(number(digits))
}

/// The input that holds a problem.
pub fn write(p: &Problem) -> Vec<u8> {
    let Setup {
        threshold,
        lambda,
        max_iter,
    } = p.setup;
    let code = p.code().number();
    let mut text = header(code, p.rows, p.cols, max_iter, threshold, lambda);
    let features = |row: usize| (0..p.cols).map(move |j| p.at(row, j));
    match p.layout {
        Layout::ByRows => {
            for row in 0..p.rows {
                push_frame(&mut text, [p.target[row]].into_iter().chain(features(row)));
            }
        }
        Layout::ByColumns => {
            push_frame(&mut text, p.target.iter().copied());
            for j in 0..p.cols {
                push_frame(&mut text, (0..p.rows).map(|row| p.at(row, j)));
            }
        }
    }
    text.into_bytes()
}

fn push_frame(text: &mut String, numbers: impl Iterator<Item = f64>) {
    numbers.for_each(|x| push_float(text, x));
    text.push('\n');
}

/// A header frame of any numbers that its digits can hold.
pub fn header(
    code: u8,
    rows: usize,
    cols: usize,
    max_iter: usize,
    threshold: f64,
    lambda: f64,
) -> String {
    let mut text = format!("{code:02x}{rows:04x}{cols:02x}{max_iter:04x}");
    push_float(&mut text, threshold);
    push_float(&mut text, lambda);
    text.push('\n');
    text
}

fn push_float(text: &mut String, x: f64) {
    write!(text, "{:016x}", x.to_bits()).expect("a String takes it");
}

#[cfg(test)]
mod tests {
    use super::*;
    use crate::problem::Solver;

    const F1_IN: &str = "01000202000a3fe00000000000000000000000000000\n\
        40080000000000003ff00000000000000000000000000000\n\
        3fd000000000000000000000000000003ff0000000000000\n";
    const F1_OUT: &str = "0400010000000000000001ff3fb0000000000000\n\
        4008000000000000\n0000000000000000\n";

    fn answer(input: &str) -> String {
        String::from_utf8(respond(input.as_bytes())).unwrap()
    }

    #[test]
    fn f1_is_answered_byte_for_byte() {
        assert_eq!(answer(F1_IN), F1_OUT);
        assert_eq!(write(&read(F1_IN.as_bytes()).unwrap()), F1_IN.as_bytes());
    }

    #[test]
    fn any_cut_is_malformed() {
        for n in 0..F1_IN.len() {
            assert_eq!(answer(&F1_IN[..n]), "ff0b\n");
        }
    }

    #[test]
    fn refusals_come_in_order() {
        let header = |code: &str, rows: &str, cols: &str, rounds: &str| {
            answer(&format!("{code}{rows}{cols}{rounds}{:032x}\n", 0))
        };
        assert_eq!(header("00", "ffff", "ff", "ffff"), "ff0b\n");
        for code in ["04", "10", "14", "0b", "21"] {
            assert_eq!(header(code, "0000", "00", "0000"), "ff0b\n");
        }
        assert_eq!(header("01", "ffff", "ff", "ffff"), "ff01\n");
        assert_eq!(header("01", "ffff", "10", "ffff"), "ff02\n");
        assert_eq!(header("01", "0080", "10", "ffff"), "ff03\n");
        assert_eq!(header("01", "0080", "10", "03e8"), "ff0b\n");
        assert_eq!(header("01", "0000", "11", "0000"), "ff01\n");
        assert_eq!(header("02", "0081", "00", "0000"), "ff02\n");
        assert_eq!(header("02", "0000", "00", "03e9"), "ff03\n");
        assert_eq!(header("03", "ffff", "ff", "ffff"), "ff01\n");
        assert_eq!(header("11", "ffff", "ff", "ffff"), "ff01\n");
        assert_eq!(header("12", "ffff", "10", "ffff"), "ff02\n");
        assert_eq!(header("13", "0080", "10", "ffff"), "ff03\n");
        assert_eq!(header("11", "0080", "10", "03e8"), "ff0b\n");
        assert_eq!(header("11", "0010", "80", "03e8"), "ff01\n");
        assert_eq!(
            header("02", "0000", "00", "03e8"),
            "0000000000000000000000ff0000000000000000\n"
        );
    }

    const F1_BY_COLUMNS: &str = "11000202000a3fe00000000000000000000000000000\n\
        40080000000000003fd0000000000000\n\
        3ff00000000000000000000000000000\n\
        00000000000000003ff0000000000000\n";

    #[test]
    fn f1_by_columns_is_answered_alike() {
        assert_eq!(answer(F1_BY_COLUMNS), F1_OUT);
        let again = write(&read(F1_BY_COLUMNS.as_bytes()).unwrap());
        assert_eq!(again, F1_BY_COLUMNS.as_bytes());
        for n in 0..F1_BY_COLUMNS.len() {
            assert_eq!(answer(&F1_BY_COLUMNS[..n]), "ff0b\n");
        }
        assert_eq!(answer(&format!("{F1_BY_COLUMNS}\n")), "ff0b\n");
    }

    /// The answers to a header by columns with 0 to 5 frames behind it: how many frames are accepted.
    fn frames_accepted(rows: usize, cols: usize) -> Vec<usize> {
        let header = header(0x11, rows, cols, 1, 0.5, 0.0);
        let frame = "0".repeat(NUMBER_DIGITS * rows) + "\n";
        let accepted = |&n: &usize| answer(&format!("{header}{}", frame.repeat(n))) != "ff0b\n";
        (0..6).filter(accepted).collect()
    }

    #[test]
    fn there_is_a_frame_of_targets_and_one_a_column() {
        assert_eq!(frames_accepted(2, 3), [4]);
        assert_eq!(frames_accepted(0, 3), [4]);
        assert_eq!(frames_accepted(2, 0), [1]);
        assert_eq!(frames_accepted(0, 0), [1]);
    }

    /// Three rows of two columns have frames of the same lengths in both layouts.
    #[test]
    fn the_code_alone_tells_the_layout() {
        let mut p = Problem::zeros(Solver::Normal, 3, 2, crate::table::f1(0.5, 10).setup);
        p.target = vec![1.0, 4.0, 7.0];
        p.theta = vec![2.0, 3.0, 5.0, 6.0, 8.0, 9.0];
        let mut text = write(&p);
        text[0] = b'1';
        let other = read(&text).unwrap();
        assert_eq!(other.target, [1.0, 2.0, 3.0]);
        assert_eq!(other.theta, [4.0, 7.0, 5.0, 8.0, 6.0, 9.0]);
        assert_eq!(write(&other), text);
    }

    #[test]
    fn the_longest_input_is_by_rows() {
        let setup = crate::table::f1(0.5, 10).setup;
        let longest = |rows, cols| {
            let p = Problem::zeros(Solver::Normal, rows, cols, setup);
            let (by_rows, by_columns) = (write(&p), write(&p.by_columns()));
            (by_rows.len(), by_columns.len())
        };
        assert_eq!(longest(128, 16), (34_989, 34_878));
        assert_eq!(longest(0, 16), (45, 62));
    }

    #[test]
    fn a_header_that_is_no_frame_comes_before_limits() {
        let over = format!("01ffffffffff{:032x}", 0);
        assert_eq!(answer(&over), "ff0b\n");
        assert_eq!(answer(&format!("{over}0\n")), "ff0b\n");
        assert_eq!(answer(&format!("{over}\r\n")), "ff0b\n");
        assert_eq!(answer(&format!("{over}\nanything")), "ff01\n");
    }

    #[test]
    fn every_nan_is_shown_alike() {
        let input = format!(
            "0100010100007ff00000000000010000000000000000\n{:016x}{:016x}\n",
            u64::MAX,
            0x3ff0000000000000u64
        );
        assert_eq!(
            answer(&input),
            "0500000000000000000000ff7ff8000000000000\n7ff8000000000000\n"
        );
    }
}
