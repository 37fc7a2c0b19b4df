//! The program `why`, by order 6: the bench program's input, and a line for each term.

use crate::bits::shown;
use crate::cause::Cause;
use crate::fit::fit;
use crate::frames::{read_if, refusal_text};
use crate::problem::{Code, Setup};
use crate::refusal::Refusal;

/// The header's code and the cause of each term, or the refusal.
pub type Said = Result<(Code, Vec<Cause>), Refusal>;

/// The answer, and what it says.
pub fn answered(input: &[u8]) -> (Vec<u8>, Said) {
    match read_if(input, above_zero) {
        Ok(problem) => {
            let causes = fit(&problem).causes;
            let text: String = causes.iter().map(line).collect();
            (text.into_bytes(), Ok((problem.code(), causes)))
        }
        Err(refusal) => (refusal_text(refusal).into_bytes(), Err(refusal)),
    }
}

/// Other thresholds are refused, since a dropped term may return. A NaN is not above zero.
pub fn above_zero(setup: Setup) -> Result<(), Refusal> {
    if setup.threshold > 0.0 {
        Ok(())
    } else {
        Err(Refusal::Threshold)
    }
}

/// The line of a term: cause, refit number, coefficient.
fn line(cause: &Cause) -> String {
    let value = shown(cause.value());
    format!("{:02x}{:04x}{value:016x}\n", cause.code(), cause.refit())
}

#[cfg(test)]
mod tests {
    use super::*;
    use crate::examples;
    use crate::frames::write;
    use std::collections::BTreeSet;

    fn answer(input: &str) -> String {
        String::from_utf8(answered(input.as_bytes()).0).unwrap()
    }

    #[test]
    fn f1_is_answered_byte_for_byte() {
        let input = "01000202000a3fe00000000000000000000000000000\n\
            40080000000000003ff00000000000000000000000000000\n\
            3fd000000000000000000000000000003ff0000000000000\n";
        let causes = "0200000000000000000000\n0300013fd0000000000000\n";
        assert_eq!(answer(input), causes);
        let by_columns = "11000202000a3fe00000000000000000000000000000\n\
            40080000000000003fd0000000000000\n\
            3ff00000000000000000000000000000\n\
            00000000000000003ff0000000000000\n";
        assert_eq!(answer(by_columns), causes);
    }

    #[test]
    fn twelve_stands_between_the_limits_and_the_rows() {
        let header = |rows: &str, cols: &str, rounds: &str, threshold: f64, more: &str| {
            let threshold = threshold.to_bits();
            answer(&format!(
                "01{rows}{cols}{rounds}{threshold:016x}{:016x}\n{more}",
                0
            ))
        };
        assert_eq!(header("0000", "11", "0000", 0.0, ""), "ff01\n");
        assert_eq!(header("0081", "10", "0000", 0.0, ""), "ff02\n");
        assert_eq!(header("0080", "10", "03e9", 0.0, ""), "ff03\n");
        assert_eq!(header("0080", "10", "03e8", 0.0, "junk"), "ff0c\n");
        assert_eq!(header("0000", "02", "03e8", -0.0, ""), "ff0c\n");
        assert_eq!(header("0000", "02", "03e8", f64::NAN, ""), "ff0c\n");
        assert_eq!(header("0000", "02", "03e8", 1.0, "junk"), "ff0b\n");
        let none = "0000000000000000000000\n";
        assert_eq!(
            header("0000", "02", "03e8", f64::INFINITY, ""),
            none.repeat(2)
        );
        assert_eq!(header("0000", "00", "0000", f64::from_bits(1), ""), "");
    }

    #[test]
    fn the_examples_show_every_cause() {
        let inputs = examples::all()
            .into_iter()
            .map(|example| write(&example.problem));
        let said = inputs.filter_map(|input| answered(&input).1.ok());
        let codes: BTreeSet<u64> = said
            .flat_map(|(_, causes)| causes)
            .map(Cause::code)
            .collect();
        assert_eq!(codes, (0..7).collect());
    }
}
