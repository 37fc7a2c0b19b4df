//! The programs that answer bytes by bytes: how each does, and the inputs that it is tried on.

use crate::cause::Cause;
use crate::fit::Fit;
use crate::generate::{self, Made};
use crate::problem::Code;
use crate::refusal::Refusal;
use crate::{frames, why};

/// An answer, and the lines of the histogram that it counts for.
pub type Answered = (Vec<u8>, Vec<String>);

/// A program.
pub struct Exchange {
    pub answered: fn(&[u8]) -> Answered,
    /// An input by its seed and number.
    pub input: fn(u64, u64) -> Made,
    /// A damaged one.
    pub damaged: fn(u64, u64) -> Made,
}

pub const FITBENCH: Exchange = Exchange {
    answered: |input| {
        let (answer, said) = frames::answered(input);
        (answer, vec![fit_label(input, &said)])
    },
    input: generate::input,
    damaged: generate::damaged,
};

pub const WHY: Exchange = Exchange {
    answered: |input| {
        let (answer, said) = why::answered(input);
        (answer, why_labels(input, &said))
    },
    input: generate::why_input,
    damaged: generate::why_damaged,
};

/// The line for a fit's answer.
pub fn fit_label(input: &[u8], answer: &Result<(Code, Fit), Refusal>) -> String {
    match answer {
        Ok((code, fit)) => {
            let stop = fit.report.stop;
            label(&code.name(), format!("{:02x} {stop:?}", stop.code()))
        }
        Err(refusal) => refusal_label(input, *refusal),
    }
}

/// A line for each term, or one where there is none.
fn why_labels(input: &[u8], said: &why::Said) -> Vec<String> {
    match said {
        Ok((code, causes)) if causes.is_empty() => {
            vec![label(&code.name(), "no columns".into())]
        }
        Ok((code, causes)) => causes
            .iter()
            .map(|c| cause_label(*code, c.code()))
            .collect(),
        Err(refusal) => vec![refusal_label(input, *refusal)],
    }
}

/// The line of a cause, by its code.
pub fn cause_label(code: Code, cause: u64) -> String {
    let name = Cause::NAMES[cause as usize];
    label(&code.name(), format!("{cause:02x} {name}"))
}

fn refusal_label(input: &[u8], refusal: Refusal) -> String {
    let digits = |code: &Code| format!("{:02x}", code.number()).into_bytes();
    let code = Code::all().find(|code| input.starts_with(&digits(code)));
    let name = code.map_or("none".into(), Code::name);
    label(&name, format!("ff{:02x} {refusal:?}", refusal.number()))
}

/// A line: what the header's code says, and what was answered.
pub fn label(code: &str, answer: String) -> String {
    format!("{code:<20} {answer}")
}
