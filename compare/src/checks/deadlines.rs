//! The verdict where the earliest deadline comes first.

use super::{Compared, Difference};
use crate::library;
use crate::model::{Outcome, Refusal};

pub fn edf(text: &[u8], outcome: &Outcome) -> Compared {
    let expected = outcome.edf().map_or_else(Refusal::code, u64::from);
    let given = library::edf(text);
    if given == expected {
        return Ok(1);
    }
    Err(Difference {
        asked: "verdict by deadlines".to_string(),
        model: in_words(expected),
        library: in_words(given),
    })
}

fn in_words(code: u64) -> String {
    match (code >> 32, code & 0xffff_ffff) {
        (0, 0) => "no".to_string(),
        (0, 1) => "yes".to_string(),
        (number, line) => format!("refusal {number}, line {line}"),
    }
}
