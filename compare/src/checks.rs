//! Asking the model and the library the same, and telling where they differ.

pub mod deadlines;
pub mod growths;
pub mod laws;
pub mod lists;
pub mod pool;
pub mod replays;
pub mod sets;
pub mod sums;

use crate::library;
use crate::model::value::{Value, NUMBERS};
use crate::model::{fitting, Error, Explanation, Explanations, Outcome, Refusal, Writing, METHODS};

/// Room for every report, every explanation, every table and every refusal line.
const ROOMY: usize = 16_500;

/// Bytes on either side of a buffer that have to stay as they are.
const GUARD: usize = 64;

pub struct Difference {
    pub asked: String,
    pub model: String,
    pub library: String,
}

/// Numbers at the ends of what their types hold.
const ENDS: [u64; 6] = [u64::MAX, 1 << 63, 1 << 32, 1 << 31, 1 << 16, 1 << 8];

/// How much was compared without a difference, or the first difference.
pub type Compared = Result<u64, Difference>;

/// The report of one text with more room than it takes, and its print with just enough.
pub fn whole(text: &[u8], outcome: &Outcome) -> Compared {
    let length = outcome.print(ROOMY).map_or(0, <[u8]>::len);
    report_in(text, outcome, length + 20)?;
    print_in(text, outcome, length)?;
    Ok(2)
}

/// Single answers to all questions.
pub fn answers(text: &[u8], outcome: &Outcome) -> Compared {
    let answered = |(method, position)| answer(text, outcome, method, position);
    questions(outcome).into_iter().map(answered).sum()
}

/// Methods and positions: every method up to two past the last with every position up to two past
/// the end, and numbers at the ends of what their types hold.
fn questions(outcome: &Outcome) -> Vec<(u64, u64)> {
    let tasks = outcome.rows().len() as u64;
    let positions: Vec<u64> = (0..tasks + 3).collect();
    let methods: Vec<u64> = (0..METHODS + 2).collect();
    let mut questions: Vec<(u64, u64)> = pairs(&methods, &positions).collect();
    questions.extend(pairs(&[0, 5, 6], &ENDS));
    questions.extend(pairs(&ENDS, &[0, tasks, u64::MAX]));
    questions
}

fn pairs<'a>(methods: &'a [u64], positions: &'a [u64]) -> impl Iterator<Item = (u64, u64)> + 'a {
    let with = move |method| positions.iter().map(move |position| (method, *position));
    methods.iter().copied().flat_map(with)
}

pub fn answer(text: &[u8], outcome: &Outcome, method: u64, position: u64) -> Compared {
    let expected = outcome.answer(method, position);
    let given = library::answer(text, method, position);
    if given == expected {
        return Ok(1);
    }
    Err(Difference {
        asked: format!("answer of method {method} at position {position}"),
        model: code_in_words(expected),
        library: code_in_words(given),
    })
}

/// The report into buffers of every length up to three past it.
pub fn report_rooms(text: &[u8], outcome: &Outcome) -> Compared {
    let most = outcome.report(ROOMY).map_or(20, <[u8]>::len) + 3;
    (0..=most).map(|room| report_in(text, outcome, room)).sum()
}

/// The print into buffers of every length up to three past it.
pub fn print_rooms(text: &[u8], outcome: &Outcome) -> Compared {
    let most = outcome.print(ROOMY).map_or(20, <[u8]>::len) + 3;
    (0..=most).map(|room| print_in(text, outcome, room)).sum()
}

/// Explanations in answer to all questions, with room to spare.
pub fn explanations(text: &[u8], outcome: &Outcome) -> Compared {
    let explanations = outcome.explanations();
    let explained = |(method, position)| {
        let asked = Asked::of(&explanations, method, position);
        asked.explained_in(text, asked.length() + 20)
    };
    questions(outcome).into_iter().map(explained).sum()
}

/// Explanations of the first and the last task, and refused ones, into buffers of every length up
/// to three past the text.
pub fn explanation_rooms(text: &[u8], outcome: &Outcome) -> Compared {
    let explanations = outcome.explanations();
    let tasks = outcome.rows().len() as u64;
    let last = tasks.saturating_sub(1);
    let explained = |(method, position)| -> Compared {
        let asked = Asked::of(&explanations, method, position);
        let rooms = 0..=asked.length() + 3;
        rooms.map(|room| asked.explained_in(text, room)).sum()
    };
    let questions = [(0, 0), (2, last), (5, last), (5, tasks), (6, last)];
    questions.into_iter().map(explained).sum()
}

/// An explanation that is asked for, and what the model has to say.
struct Asked {
    method: u64,
    position: u64,
    expected: Result<Vec<u8>, Refusal>,
}

impl Asked {
    fn of(explanations: &Explanations, method: u64, position: u64) -> Asked {
        let explained = explanations.explain(method, position);
        let bytes = |explanation: Explanation| explanation.text().into_bytes();
        Asked {
            method,
            position,
            expected: explained.map(bytes),
        }
    }

    fn length(&self) -> usize {
        self.expected.as_ref().map_or(20, Vec::len)
    }

    fn explained_in(&self, text: &[u8], room: usize) -> Compared {
        let (method, position) = (self.method, self.position);
        let what = format!("explanation of method {method} at position {position}");
        let expected = match &self.expected {
            Ok(bytes) => fitting(bytes, room),
            Err(refusal) => Err(*refusal),
        };
        let call = |out: &mut [u8]| library::explain(text, method, position, out);
        written(&what, room, expected, call)
    }
}

/// The table of one text written again, with more room than it takes and with just enough. The text
/// itself has to come back.
pub fn rewritten(text: &[u8], outcome: &Outcome) -> Compared {
    let writing = outcome.writing();
    let length = rewritten_length(&writing);
    let mut compared = rewritten_in(text, &writing, length + 20)?;
    compared += rewritten_in(text, &writing, length)?;
    if writing.is_ok() {
        let call = |out: &mut [u8]| library::rewrite(text, out);
        compared += written("the text itself", text.len(), Ok(text), call)?;
    }
    Ok(compared)
}

/// The table written again into buffers of every length up to three past it.
pub fn rewritten_rooms(text: &[u8], outcome: &Outcome) -> Compared {
    let writing = outcome.writing();
    let rooms = 0..=rewritten_length(&writing) + 3;
    rooms.map(|room| rewritten_in(text, &writing, room)).sum()
}

fn rewritten_length(writing: &Result<Writing, Refusal>) -> usize {
    writing.as_ref().map_or(20, Writing::length)
}

fn rewritten_in(text: &[u8], writing: &Result<Writing, Refusal>, room: usize) -> Compared {
    let expected = match writing {
        Ok(writing) => writing.text(room),
        Err(refusal) => Err(*refusal),
    };
    let call = |out: &mut [u8]| library::rewrite(text, out);
    written("table written again", room, expected, call)
}

/// One value written with more room than its text takes, with just enough and with none.
pub fn value(value: &Value, writing: &Writing) -> Compared {
    let length = length_within_roomy(writing);
    let rooms = [length + 20, length, 0].into_iter();
    let written = rooms.map(|room| value_in(&value.numbers, writing, room));
    written.sum()
}

/// The value written into buffers of every length up to three past its text.
pub fn value_rooms(value: &Value, writing: &Writing) -> Compared {
    let rooms = 0..=length_within_roomy(writing) + 3;
    let written = rooms.map(|room| value_in(&value.numbers, writing, room));
    written.sum()
}

/// Lists of every length up to three numbers past the value.
pub fn value_lists(value: &Value, writing: &Writing) -> Compared {
    let lists = (0..=NUMBERS + 3).map(|length| {
        let mut list = value.numbers.clone();
        list.resize(length, u64::MAX);
        value_in(&list, writing, length_within_roomy(writing))
    });
    lists.sum()
}

/// What a value spells that no text gives may be longer than any text.
fn length_within_roomy(writing: &Writing) -> usize {
    writing.length().min(ROOMY - 20)
}

fn value_in(list: &[u64], writing: &Writing, room: usize) -> Compared {
    let expected = match Value::at_start(list) {
        Some(_) => writing.text(room),
        None => Ok(&[][..]),
    };
    let call = |out: &mut [u8]| library::write_value(list, out);
    let what = format!("value of {} numbers", list.len());
    written(&what, room, expected, call)
}

fn report_in(text: &[u8], outcome: &Outcome, room: usize) -> Compared {
    let call = |out: &mut [u8]| library::report(text, out);
    written("report", room, outcome.report(room), call)
}

fn print_in(text: &[u8], outcome: &Outcome, room: usize) -> Compared {
    let call = |out: &mut [u8]| library::print(text, out);
    written("print", room, outcome.print(room), call)
}

fn written(
    what: &str,
    room: usize,
    expected: Result<&[u8], Refusal>,
    call: impl FnOnce(&mut [u8]) -> u64,
) -> Compared {
    let mut model = pattern(room);
    let model_code = match expected {
        Ok(bytes) => {
            model[GUARD..GUARD + bytes.len()].copy_from_slice(bytes);
            bytes.len() as u64
        }
        Err(refusal) => refusal.code(),
    };
    let mut library = pattern(room);
    let library_code = call(&mut library[GUARD..GUARD + room]);
    if model_code == library_code && model == library {
        return Ok(1);
    }
    Err(Difference {
        asked: format!("{what} into {room} bytes"),
        model: written_in_words(model_code, &model, room),
        library: written_in_words(library_code, &library, room),
    })
}

/// What a buffer and its guards hold before a call: bytes that no written text has, and no two
/// neighbours alike.
fn pattern(room: usize) -> Vec<u8> {
    PATTERN[..room + 2 * GUARD].to_vec()
}

static PATTERN: [u8; ROOMY + 2 * GUARD] = {
    let mut pattern = [0; ROOMY + 2 * GUARD];
    let mut at = 0;
    while at < pattern.len() {
        pattern[at] = 0x80 | (at * 29) as u8;
        at += 1;
    }
    pattern
};

fn code_in_words(code: u64) -> String {
    match (code >> 32, code & 0xffff_ffff) {
        (0, 0) => "unschedulable".to_string(),
        (0, response) => format!("{response} ticks"),
        (number, line) => format!("refusal {number}, line {line}"),
    }
}

fn written_in_words(code: u64, buffer: &[u8], room: usize) -> String {
    let clean = pattern(room);
    let touched = |at: &usize| buffer[*at] != clean[*at];
    let first = (0..buffer.len()).find(touched);
    let last = (0..buffer.len()).rfind(touched);
    let bytes = match (first, last) {
        (Some(first), Some(last)) => {
            let place = first as i64 - GUARD as i64;
            let bytes = buffer[first..=last].escape_ascii();
            format!("bytes from {place} on: {bytes}")
        }
        _ => "nothing written".to_string(),
    };
    match (code >> 32, code & 0xffff_ffff) {
        (0, length) => format!("length {length}, {bytes}"),
        (number, line) => format!("refusal {number}, line {line}, {bytes}"),
    }
}

/// One of the comparisons above, of a text or of a value.
pub type Check = fn(&[u8], &Outcome) -> Compared;
pub type ValueCheck = fn(&Value, &Writing) -> Compared;

/// Whether a text shows a difference: what the shrinking goes by.
pub fn differs(check: Check, text: &[u8], error: Option<Error>) -> Option<Difference> {
    check(text, &Outcome::of(text, error)).err()
}

/// The same for a value.
pub fn value_differs(check: ValueCheck, value: &Value, error: Option<Error>) -> Option<Difference> {
    check(value, &Writing::of(value, error)).err()
}

#[cfg(test)]
mod tests {
    use super::*;

    fn written_by(room: usize, call: impl FnOnce(&mut [u8]) -> u64) -> bool {
        written("report", room, Ok(b"ab"), call).is_ok()
    }

    #[test]
    fn a_byte_too_many_is_seen() {
        let good = |out: &mut [u8]| {
            out[..2].copy_from_slice(b"ab");
            2
        };
        assert!(written_by(3, good));
        let beyond = |out: &mut [u8]| {
            out[2] = b'c';
            good(out)
        };
        assert!(!written_by(3, beyond));
        assert!(!written_by(3, |out| good(out) + 1));
    }

    #[test]
    fn a_refusal_that_writes_is_seen() {
        let refused = |call: fn(&mut [u8]) -> u64| {
            let expected = Err(Refusal::new(14, 0));
            written("report", 1, expected, call).is_ok()
        };
        assert!(refused(|_| 14 << 32));
        assert!(!refused(|_| 14 << 32 | 1));
        assert!(!refused(|out| {
            out[0] = b'a';
            14 << 32
        }));
    }
}
