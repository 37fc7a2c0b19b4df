//! Inputs that no bench should send: damage to good ones, and headers beyond the limits.

// Every damage has one type, also where it changes no length.
#![allow(clippy::ptr_arg)]

use super::floats;
use crate::frames::{HEADER_DIGITS, header};
use crate::rng::Rng;

/// A way to damage an input; it may find nothing to damage.
type Damage = fn(&mut Rng, &mut Vec<u8>);

const DAMAGES: &[(&str, Damage)] = &[
    ("cut", cut),
    ("cut-last", cut_last),
    ("cut-in-header", cut_in_header),
    ("empty", |_, input| input.clear()),
    ("crlf", crlf),
    ("header-crlf", header_crlf),
    ("upper", upper),
    ("bit-flip", bit_flip),
    ("byte", byte),
    ("insert", insert),
    ("remove", remove),
    ("extra-digit", extra_digit),
    ("extra-frame", extra_frame),
    ("frame-lost", frame_lost),
    ("empty-line", empty_line),
    ("tail-byte", |rng, input| input.push(rng.word() as u8)),
    ("tail-newline", |_, input| input.push(b'\n')),
    ("tail-long", |_, input| input.extend([b'0'; 70_000])),
    ("solver", solver),
    ("size-digit", size_digit),
    ("first-last", first_last),
    ("no-rows", no_rows),
    ("widths", widths),
];

/// One or a few damages to an input, and the first one's name.
pub fn any(rng: &mut Rng, input: &mut Vec<u8>) -> &'static str {
    let index = pick(rng);
    DAMAGES[index].1(rng, input);
    while rng.once_in(4) {
        let more = pick(rng);
        DAMAGES[more].1(rng, input);
    }
    DAMAGES[index].0
}

/// The long tail is rare, since it says little and costs much.
fn pick(rng: &mut Rng) -> usize {
    loop {
        let index = rng.below(DAMAGES.len());
        if DAMAGES[index].0 != "tail-long" || rng.once_in(50) {
            return index;
        }
    }
}

/// A place in the input, none if it is empty.
fn place(rng: &mut Rng, input: &[u8]) -> Option<usize> {
    (!input.is_empty()).then(|| rng.below(input.len()))
}

fn cut(rng: &mut Rng, input: &mut Vec<u8>) {
    if let Some(at) = place(rng, input) {
        input.truncate(at);
    }
}

fn cut_last(_: &mut Rng, input: &mut Vec<u8>) {
    input.pop();
}

fn cut_in_header(rng: &mut Rng, input: &mut Vec<u8>) {
    input.truncate(rng.between(0, HEADER_DIGITS));
}

fn crlf(_: &mut Rng, input: &mut Vec<u8>) {
    *input = input
        .iter()
        .flat_map(|&b| {
            if b == b'\n' {
                vec![b'\r', b'\n']
            } else {
                vec![b]
            }
        })
        .collect();
}

fn header_crlf(_: &mut Rng, input: &mut Vec<u8>) {
    if let Some(at) = input.iter().position(|&b| b == b'\n') {
        input.insert(at, b'\r');
    }
}

/// One letter or all of them.
fn upper(rng: &mut Rng, input: &mut Vec<u8>) {
    if rng.once_in(2) {
        input.make_ascii_uppercase();
    } else if let Some(at) = place(rng, input) {
        let letter = input[at..].iter().position(u8::is_ascii_lowercase);
        if let Some(more) = letter {
            input[at + more].make_ascii_uppercase();
        }
    }
}

fn bit_flip(rng: &mut Rng, input: &mut Vec<u8>) {
    if let Some(at) = place(rng, input) {
        input[at] ^= 1 << rng.below(8);
    }
}

/// A byte that stands beside the digits, or any.
fn strange_byte(rng: &mut Rng) -> u8 {
    match rng.below(3) {
        0 => rng.pick(b"/:`gAFG \t\r\n\0-+.x@"),
        1 => rng.pick(b"0123456789abcdef"),
        _ => rng.word() as u8,
    }
}

fn byte(rng: &mut Rng, input: &mut Vec<u8>) {
    if let Some(at) = place(rng, input) {
        input[at] = strange_byte(rng);
    }
}

fn insert(rng: &mut Rng, input: &mut Vec<u8>) {
    let at = rng.between(0, input.len());
    input.insert(at, strange_byte(rng));
}

fn remove(rng: &mut Rng, input: &mut Vec<u8>) {
    if let Some(at) = place(rng, input) {
        input.remove(at);
    }
}

/// A digit more before a newline: the header's, or another frame's.
fn extra_digit(rng: &mut Rng, input: &mut Vec<u8>) {
    let ends: Vec<usize> = newlines(input);
    if !ends.is_empty() {
        input.insert(ends[rng.below(ends.len())], b'0');
    }
}

/// A frame twice.
fn extra_frame(rng: &mut Rng, input: &mut Vec<u8>) {
    if let Some((from, to)) = some_line(rng, input) {
        let line = input[from..to].to_vec();
        input.splice(to..to, line);
    }
}

fn frame_lost(rng: &mut Rng, input: &mut Vec<u8>) {
    if let Some((from, to)) = some_line(rng, input) {
        input.drain(from..to);
    }
}

fn empty_line(rng: &mut Rng, input: &mut Vec<u8>) {
    let (at, _) = some_line(rng, input).unwrap_or((0, 0));
    input.insert(at, b'\n');
}

fn newlines(input: &[u8]) -> Vec<usize> {
    (0..input.len()).filter(|&i| input[i] == b'\n').collect()
}

/// Where a line starts and where the next one does.
fn some_line(rng: &mut Rng, input: &[u8]) -> Option<(usize, usize)> {
    let ends = newlines(input);
    if ends.is_empty() {
        return None;
    }
    let i = rng.below(ends.len());
    let from = if i == 0 { 0 } else { ends[i - 1] + 1 };
    Some((from, ends[i] + 1))
}

/// Another solver code.
fn solver(rng: &mut Rng, input: &mut Vec<u8>) {
    if input.len() >= 2 {
        let code = rng.pick(&[
            0, 1, 2, 3, 4, 0x0b, 0x0c, 0x0d, 0x10, 0x11, 0x12, 0x13, 0x14, 0x20, 0x21, 0xff,
        ]);
        input.splice(0..2, format!("{code:02x}").into_bytes());
    }
}

/// Another digit among rows, columns and max_iter: the frames no longer fit the header.
fn size_digit(rng: &mut Rng, input: &mut Vec<u8>) {
    if input.len() >= 12 {
        input[rng.between(2, 11)] = rng.pick(b"0123456789abcdef");
    }
}

/// The frame behind the header, which by columns holds the targets, moved to the end.
fn first_last(_: &mut Rng, input: &mut Vec<u8>) {
    if let [header, first, ..] = newlines(input)[..] {
        input[header + 1..].rotate_left(first - header);
    }
}

/// No rows, and some empty lines: by columns one for the targets and one a column are asked for.
fn no_rows(rng: &mut Rng, input: &mut Vec<u8>) {
    if let Some(&header) = newlines(input).first()
        && header >= 8
    {
        let lines = rng.below(6);
        input.truncate(header + 1);
        input.extend(vec![b'\n'; lines]);
        input[2..6].fill(b'0');
    }
}

/// A newline sixteen digits before or behind its place.
fn widths(rng: &mut Rng, input: &mut Vec<u8>) {
    let ends = newlines(input);
    if let Some(&end) = ends.get(rng.below(ends.len().max(1))) {
        input.remove(end);
        let at = if rng.once_in(2) {
            end + 16
        } else {
            end.saturating_sub(16)
        };
        input.insert(at.min(input.len()), b'\n');
    }
}

/// A header beyond one or more limits, at a limit, or just under it, with junk after it or nothing.
pub fn over(rng: &mut Rng) -> Vec<u8> {
    let code = rng.pick(&[
        1, 2, 3, 1, 2, 3, 0x11, 0x12, 0x13, 0x11, 0x12, 0x13, 0, 4, 0x10, 0x14,
    ]);
    let rows = rng.pick(&[0, 1, 127, 128, 128, 129, 130, 255, 256, 4096, 4097, 0xffff]);
    let cols = rng.pick(&[0, 1, 15, 16, 16, 17, 18, 64, 65, 255]);
    let rounds = rng.pick(&[0, 1, 999, 1000, 1000, 1001, 1002, 4096, 0xffff]);
    let (threshold, lambda) = (floats::any(rng), floats::any(rng));
    let mut input = header(code, rows, cols, rounds, threshold, lambda).into_bytes();
    match rng.below(4) {
        0 => input.extend(b"junk"),
        1 => input.extend([b'0'; 17]),
        2 => {
            let at = rng.below(input.len());
            input[at] = strange_byte(rng);
        }
        _ => {}
    }
    input
}
