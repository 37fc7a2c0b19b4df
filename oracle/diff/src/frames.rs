//! The exports that answer bytes by bytes, against the reference programs.

use dapmotar::raw::{ANSWER, WHY_ANSWER, dapmotar_respond, dapmotar_respond_why};
use oracle::exchange::{self, Exchange};
use oracle::generate::Made;
use oracle::histogram::Histogram;

/// An export and the reference for it.
pub struct Responder {
    pub reference: Exchange,
    /// The bytes that an answer may have.
    room: usize,
    call: unsafe fn(*const u8, usize, *mut u8) -> usize,
}

pub const FITBENCH: Responder = Responder {
    reference: exchange::FITBENCH,
    room: ANSWER,
    call: |input, len, answer| unsafe { dapmotar_respond(input, len, answer.cast()) },
};

pub const WHY: Responder = Responder {
    reference: exchange::WHY,
    room: WHY_ANSWER,
    call: |input, len, answer| unsafe { dapmotar_respond_why(input, len, answer.cast()) },
};

/// Bytes past the room that no call may touch: more than a line of an answer, which a wilful fault writes there.
const GUARD: usize = 48;
const GUARD_BYTE: u8 = 0xa5;

impl Responder {
    /// The library's answer, or what is wrong with it.
    fn respond(&self, input: &[u8]) -> Result<Vec<u8>, String> {
        let mut answer = vec![GUARD_BYTE; self.room + GUARD];
        let len = unsafe { (self.call)(input.as_ptr(), input.len(), answer.as_mut_ptr()) };
        if len > self.room {
            return Err(format!("an answer of {len} bytes"));
        }
        if answer[len..].iter().any(|&b| b != GUARD_BYTE) {
            return Err("written behind the answer".into());
        }
        answer.truncate(len);
        Ok(answer)
    }

    /// What differs between the library's answer to an input and the reference's, and the histogram's lines.
    pub fn one(&self, made: &Made) -> (Option<String>, Vec<String>) {
        let (expected, labels) = (self.reference.answered)(&made.input);
        let difference = match self.respond(&made.input) {
            Ok(answer) if answer == expected => None,
            Ok(answer) => {
                let text = |b: &[u8]| String::from_utf8_lossy(b).into_owned();
                Some(format!(
                    "{:?} should be {:?}",
                    text(&answer),
                    text(&expected)
                ))
            }
            Err(wrong) => Some(wrong),
        };
        (difference, labels)
    }

    /// So many damaged inputs, and a tenth as many made ones: the answers, and how many differ.
    pub fn many(&self, seed: u64, count: u64, mut tell: impl FnMut(&str)) -> (Histogram, u64) {
        let mut histogram = Histogram::default();
        let mut differ = 0;
        let mut take = |made: Made, index: u64| {
            let (difference, labels) = self.one(&made);
            labels.iter().for_each(|label| histogram.count(label));
            if let Some(text) = difference {
                differ += 1;
                if differ <= 5 {
                    tell(&format!("{} {index}: {text}", made.kind));
                }
            }
        };
        for index in 0..count {
            take((self.reference.damaged)(seed, index), index);
            if index % 10 == 0 {
                take((self.reference.input)(seed, index / 10), index / 10);
            }
        }
        (histogram, differ)
    }
}
