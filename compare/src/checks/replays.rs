//! Replays, tick by tick.

use super::{code_in_words, Compared, Difference, ENDS};
use crate::library;
use crate::model::{Outcome, Refusal};

/// The replays of every task and of positions past the end, and that each ends at the library's response
/// without costs.
pub fn replays(text: &[u8], outcome: &Outcome) -> Compared {
    let tasks = outcome.rows().len() as u64;
    let positions = (0..tasks + 3).chain(ENDS);
    positions
        .map(|position| replay(text, outcome, position))
        .sum()
}

pub fn replay(text: &[u8], outcome: &Outcome, position: u64) -> Compared {
    let replay = outcome.replay(position);
    let expected = match &replay {
        Ok(replay) => replay.end.unwrap_or(0),
        Err(refusal) => Refusal::code(*refusal),
    };
    let given = library::replay(text, position);
    let difference = |asked: String, model, library| {
        Err(Difference {
            asked,
            model: code_in_words(model),
            library: code_in_words(library),
        })
    };
    if given != expected {
        return difference(format!("replay at position {position}"), expected, given);
    }
    let response = library::answer(text, 0, position);
    if replay.is_ok() && response != expected {
        let asked = format!("replay, and answer of method 0, at position {position}");
        return difference(asked, expected, response);
    }
    Ok(2)
}
