//! The exchanges of the bench program and of `why`.

use crate::fault::{self, Fault};
use crate::fits::{By, Fit};
use crate::layout::Layout;

pub fn respond(input: &[u8]) -> Vec<u8> {
    match problem(input, |_| true) {
        Ok(problem) => problem.answer().into_bytes(),
        Err(number) => refusal(number, Fault::FrameRefusalDecimal),
    }
}

/// A line for each term, for a threshold above zero.
pub fn respond_why(input: &[u8]) -> Vec<u8> {
    if fault::is(Fault::WhyFrameColumnsMissing) && input.first() == Some(&b'1') {
        return refusal(11, Fault::WhyFrameRefusalDecimal);
    }
    match problem(input, |threshold| threshold > 0.0) {
        Ok(problem) => problem.why().into_bytes(),
        Err(number) => refusal(number, Fault::WhyFrameRefusalDecimal),
    }
}

fn refusal(number: u64, decimal: Fault) -> Vec<u8> {
    if fault::is(decimal) {
        format!("ff{number:02}\n").into_bytes()
    } else {
        format!("ff{number:02x}\n").into_bytes()
    }
}

/// A header's numbers and the frames behind it; theta in its layout.
struct Problem {
    by: By,
    layout: Layout,
    rows: usize,
    cols: usize,
    max_iter: usize,
    threshold: f64,
    lambda: f64,
    theta: Vec<f64>,
    target: Vec<f64>,
}

impl Problem {
    fn fit(&self) -> Fit<'_> {
        Fit {
            by: self.by,
            layout: self.layout,
            numbers: &self.theta,
            rows: self.rows,
            cols: self.cols,
            target: &self.target,
            threshold: self.threshold,
            lambda: self.lambda,
            max_iter: self.max_iter,
        }
    }

    fn why(&self) -> String {
        if self.cols == 0 && fault::is(Fault::WhyFrameNoColumnsLine) {
            return "\n".into();
        }
        let mut text = String::new();
        if fault::is(Fault::WhyFrameReportFirst) {
            let ([stop, refits, ..], _) = self.fit().run(&mut vec![0.0; self.cols]);
            text += &format!("{stop:02x}{refits:04x}\n");
        }
        for (code, refit, value) in self.fit().causes(&mut vec![0.0; self.cols]) {
            let refit = if fault::is(Fault::WhyFrameRefitShort) {
                format!("{refit:02x}")
            } else {
                format!("{refit:04x}")
            };
            let value = shown(value, Fault::WhyFrameNanOtherBits);
            if fault::is(Fault::WhyFrameValueFirst) {
                text += &format!("{code:02x}{value}{refit}\n");
            } else if !(code == 2 && fault::is(Fault::WhyFrameKeptLeftOut)) {
                text += &format!("{code:02x}{refit}{value}\n");
            }
        }
        text
    }

    fn answer(&self) -> String {
        let mut coeffs = vec![0.0; self.cols];
        let ([stop, refits, kept, term], error) = self.fit().run(&mut coeffs);
        let kept = if fault::is(Fault::FrameKeptShort) {
            format!("{kept:x}")
        } else {
            format!("{kept:016x}")
        };
        let term = if fault::is(Fault::FrameTermMissing) {
            String::new()
        } else if term != 255 && fault::is(Fault::FrameTermDecimal) {
            format!("{term:02}")
        } else {
            format!("{term:02x}")
        };
        let error = if fault::is(Fault::FrameErrorMissing) {
            String::new()
        } else {
            shown(error, Fault::FrameErrorNanOtherBits)
        };
        let first = if fault::is(Fault::FrameTermBeforeKept) {
            term + &kept + &error
        } else if fault::is(Fault::FrameErrorBeforeTerm) {
            kept + &error + &term
        } else {
            kept + &term + &error
        };
        let mut text = format!("{stop:02x}{refits:04x}{first}\n");
        for c in coeffs {
            text += &shown(c, Fault::FrameNanOtherBits);
            text.push('\n');
        }
        text
    }
}

/// A number's digits, every NaN's alike.
fn shown(c: f64, other_bits: Fault) -> String {
    let one = fault::or(0x7ff8 << 48, other_bits, 0xfff8 << 48);
    let bits: u64 = if c.is_nan() { one } else { c.to_bits() };
    format!("{bits:016x}")
}

/// The problem in an input, or the refusal's number: 12 where its threshold is not accepted.
fn problem(input: &[u8], accepted: fn(f64) -> bool) -> Result<Problem, u64> {
    let mut lines = Lines(input);
    let header = lines.take(44);
    if fault::is(Fault::FrameLimitsBeforeHeader)
        && header.is_none()
        && input.get(6..8) == Some(b"ff")
    {
        return Err(1);
    }
    let header = header.ok_or(11u64)?;
    let (by, layout) = known(number(&header[..2])).ok_or(11u64)?;
    let threshold = f64::from_bits(number(&header[12..28]));
    let twelve = |now| {
        if now && !accepted(threshold) {
            Err(12u64)
        } else {
            Ok(())
        }
    };
    twelve(fault::is(Fault::WhyFrameThresholdBeforeLimits))?;
    let rows = number(&header[2..6]) as usize;
    let cols = number(&header[6..8]) as usize;
    let max_iter = number(&header[8..12]) as usize;
    let limits = [
        (1, cols > fault::or(16, Fault::FrameColumnLimit, 17)),
        (2, rows > fault::or(128, Fault::FrameRowLimit, 4096)),
        (3, max_iter > 1000),
    ];
    let order = if fault::is(Fault::FrameRowsBeforeColumns) {
        [1, 0, 2]
    } else if fault::is(Fault::FrameRoundsBeforeRows) {
        [0, 2, 1]
    } else {
        [0, 1, 2]
    };
    for i in order {
        if limits[i].1 {
            return Err(limits[i].0);
        }
    }
    twelve(!fault::is(Fault::WhyFrameThresholdAfterRows))?;
    let read = match layout {
        Layout::ByRows => by_rows(&mut lines, rows, cols),
        Layout::ByColumns => by_columns(&mut lines, rows, cols),
    };
    let (theta, target) = read.ok_or(11u64)?;
    if !lines.0.is_empty() && !fault::is(Fault::FrameTailAccepted) {
        return Err(11);
    }
    twelve(true)?;
    Ok(Problem {
        by,
        layout,
        rows,
        cols,
        max_iter,
        threshold,
        lambda: f64::from_bits(number(&header[28..44])),
        theta,
        target,
    })
}

/// What a header's code says.
fn known(code: u64) -> Option<(By, Layout)> {
    let columns = fault::or(Layout::ByColumns, Fault::FrameColumnsAsRows, Layout::ByRows);
    Some(match code {
        1 => (By::Normal, Layout::ByRows),
        2 => (By::Qr, Layout::ByRows),
        3 if !fault::is(Fault::FrameThirdMissing) => (By::Marquardt, Layout::ByRows),
        4 if fault::is(Fault::FrameFourthSolver) => (By::Marquardt, Layout::ByRows),
        0x11 => (By::Normal, columns),
        0x12 => (By::Qr, columns),
        0x13 => (By::Marquardt, columns),
        0x10 if fault::is(Fault::FrameColumnsTenth) => (By::Normal, columns),
        _ => return None,
    })
}

/// Theta by rows and the targets, a frame a row.
fn by_rows(lines: &mut Lines<'_>, rows: usize, cols: usize) -> Option<(Vec<f64>, Vec<f64>)> {
    let (mut theta, mut target) = (Vec::new(), Vec::new());
    for _ in 0..rows {
        if cols == 0 && fault::is(Fault::FrameNoColumnsNoRows) {
            target.push(0.0);
            continue;
        }
        let numbers = lines.numbers(1 + cols)?;
        target.push(numbers[0]);
        theta.extend(&numbers[1..]);
    }
    Some((theta, target))
}

/// Theta by columns and the targets: a frame with all of these, then a frame a column.
fn by_columns(lines: &mut Lines<'_>, rows: usize, cols: usize) -> Option<(Vec<f64>, Vec<f64>)> {
    let nothing = rows == 0 && fault::is(Fault::FrameNoRowsNoLines)
        || cols == 0 && fault::is(Fault::FrameNoColumnsNoTargets);
    if nothing {
        return Some((Vec::new(), vec![0.0; rows]));
    }
    // As many numbers as a frame by rows may hold.
    if rows > 17 && fault::is(Fault::FrameColumnsShort) {
        return None;
    }
    let frames: Option<Vec<Vec<f64>>> = (0..1 + cols).map(|_| lines.numbers(rows)).collect();
    let mut frames = frames?;
    if fault::is(Fault::FrameTargetsLast) {
        frames.rotate_right(1);
    }
    let target = frames.remove(0);
    if fault::is(Fault::FrameColumnsTransposed) {
        let row = |i| frames.iter().map(move |column| column[i]);
        return Some(((0..rows).flat_map(row).collect(), target));
    }
    Some((frames.concat(), target))
}

/// What is left of an input.
struct Lines<'a>(&'a [u8]);

impl<'a> Lines<'a> {
    /// The next frame's numbers, if it has so many.
    fn numbers(&mut self, count: usize) -> Option<Vec<f64>> {
        let digits = self.take(16 * count)?;
        Some(
            digits
                .chunks(16)
                .map(|d| f64::from_bits(number(d)))
                .collect(),
        )
    }

    /// The next frame's digits, if it has so many and its newline.
    fn take(&mut self, digits: usize) -> Option<&'a [u8]> {
        let line = self.0.get(..digits)?;
        let hex = |b: &u8| {
            matches!(b, b'0'..=b'9' | b'a'..=b'f')
                || matches!(b, b'A'..=b'F') && fault::is(Fault::FrameUpperAccepted)
        };
        if !line.iter().all(hex) {
            return None;
        }
        let mut rest = &self.0[digits..];
        if fault::is(Fault::FrameCrlfAccepted) && rest.first() == Some(&b'\r') {
            rest = &rest[1..];
        }
        if rest.is_empty() && fault::is(Fault::FrameLastNewlineMissing) {
            self.0 = rest;
            return Some(line);
        }
        self.0 = rest.strip_prefix(b"\n")?;
        Some(line)
    }
}

fn number(digits: &[u8]) -> u64 {
    let value = |b: u8| (b as char).to_digit(16).map_or(0, u64::from);
    if fault::is(Fault::FrameLowDigitFirst) {
        return digits.iter().rev().fold(0, |n, &b| n << 4 | value(b));
    }
    digits.iter().fold(0, |n, &b| n << 4 | value(b))
}
