//! Growths and scaled tables.

use super::{code_in_words, written, Compared, Difference, ENDS};
use crate::library;
use crate::model::{read, Growths, Outcome, Refusal, GROWTH_MOST, METHODS};

/// One of the comparisons below that take all growths of a text.
pub type GrowthCheck = fn(&[u8], &Growths) -> Compared;

/// Whether a text shows a difference.
pub fn differs(check: GrowthCheck, text: &[u8]) -> Option<Difference> {
    check(text, &Outcome::of(text, None).growths()).err()
}

/// Every method up to two past the last, and numbers at the ends of what their types hold.
pub(super) fn methods() -> impl Iterator<Item = u64> {
    (0..METHODS + 2).chain(ENDS)
}

/// The growths by all methods.
pub fn growths(text: &[u8], growths: &Growths) -> Compared {
    let compared = methods().map(|method| {
        let expected = growths.growth(method).unwrap_or_else(Refusal::code);
        same_growth(text, method, expected)
    });
    compared.sum()
}

/// That as many k pass as the library tells by each method. Where that is the greatest one too, no
/// smaller one fails.
pub fn counts(text: &[u8], growths: &Growths) -> Compared {
    let compared = (0..METHODS).map(|method| {
        let expected = growths.passing(method).unwrap_or_else(Refusal::code);
        same_growth(text, method, expected)
    });
    compared.sum()
}

fn same_growth(text: &[u8], method: u64, expected: u64) -> Compared {
    let given = library::growth(text, method);
    if given == expected {
        return Ok(1);
    }
    Err(Difference {
        asked: format!("growth by method {method}"),
        model: growth_in_words(expected),
        library: growth_in_words(given),
    })
}

/// Without looking at all k: that the one which the library tells passes and the next one fails, and
/// that the table which it writes is the one scaled so.
pub fn ends(text: &[u8], outcome: &Outcome) -> Compared {
    let growing = match (outcome.growing(), outcome.refusal()) {
        (Some(growing), _) => growing,
        (_, refusal) => {
            let expected = refusal.map_or(0, Refusal::code);
            let refused = (0..METHODS).map(|method| same_growth(text, method, expected));
            return refused.sum();
        }
    };
    let compared = (0..METHODS).map(|method| -> Compared {
        let k = library::growth(text, method);
        let passes = |k| growing.passes(method, k);
        let is_told = k == 0 || k <= GROWTH_MOST && passes(k);
        if !is_told || k < GROWTH_MOST && passes(k + 1) {
            let which = if is_told { k + 1 } else { k };
            let word = if is_told { "passes" } else { "fails" };
            return Err(Difference {
                asked: format!("growth by method {method}"),
                model: format!("{which} {word}"),
                library: growth_in_words(k),
            });
        }
        let scaled = match k {
            0 => text.to_vec(),
            _ => growing.text(k),
        };
        let call = |out: &mut [u8]| library::scaled(text, method, out);
        let what = format!("table scaled by method {method}");
        Ok(2 + written(&what, scaled.len(), Ok(&scaled), call)?)
    });
    compared.sum()
}

/// The scaled tables by all methods, with more room than they take, with just enough and with a byte
/// too little; and that what was written reads as the table with other execution times.
pub fn scaled(text: &[u8], growths: &Growths) -> Compared {
    let compared = methods().map(|method| -> Compared {
        let length = growths.scaled(method).map_or(20, |text| text.len());
        let rooms = [length + 20, length, length - 1].into_iter();
        let written: Compared = rooms.map(|room| in_room(text, growths, method, room)).sum();
        Ok(written? + reads_back(growths, method)?)
    });
    compared.sum()
}

/// The scaled tables of some methods, and refused ones, into buffers of every length up to three past
/// the text.
pub fn scaled_rooms(text: &[u8], growths: &Growths) -> Compared {
    let compared = [0, 5, 6].into_iter().map(|method| -> Compared {
        let length = growths.scaled(method).map_or(20, |text| text.len());
        let rooms = 0..=length + 3;
        rooms.map(|room| in_room(text, growths, method, room)).sum()
    });
    compared.sum()
}

fn in_room(text: &[u8], growths: &Growths, method: u64, room: usize) -> Compared {
    let expected = growths.scaled_in(method, room);
    let expected = expected.as_ref().map(Vec::as_slice);
    let call = |out: &mut [u8]| library::scaled(text, method, out);
    let what = format!("table scaled by method {method}");
    written(&what, room, expected.map_err(|refusal| *refusal), call)
}

/// The text that both wrote reads as the table scaled by the growth, or as the table itself where that
/// is 0.
fn reads_back(growths: &Growths, method: u64) -> Compared {
    let (growing, k, text) = match (growths.growing(), growths.scaled(method)) {
        (Some(growing), Ok(text)) => (growing, growths.growth(method).unwrap_or(0), text),
        _ => return Ok(0),
    };
    let k = if k == 0 { 1_000 } else { k };
    if read(&text).as_ref() == Ok(&growing.table(k)) {
        return Ok(1);
    }
    Err(Difference {
        asked: format!("what the table scaled by method {method} reads as"),
        model: format!("the table with each C times {k} / 1000"),
        library: format!("{}", text.escape_ascii()),
    })
}

fn growth_in_words(code: u64) -> String {
    match code >> 32 {
        0 => format!("{code}"),
        _ => code_in_words(code),
    }
}
