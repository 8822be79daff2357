//! Writing a table value.

use super::read::{read, read_of_any_length};
use super::value::{self, Value, ACCESS_USEFUL, EVICTING, NAME, USEFUL, WORDS};
use super::{fitting, Error, Refusal, ACCESSES_MOST, TASKS_MOST};

/// What the model has to say of one value that is to be written.
pub struct Writing {
    text: Vec<u8>,
    /// Whether an accepted text reads as the value.
    is_given: bool,
    error: Option<Error>,
}

impl Writing {
    pub fn of(value: &Value, error: Option<Error>) -> Writing {
        Writing {
            text: spelled(value, error),
            is_given: is_given(&overlooking(value, error), error),
            error,
        }
    }

    pub fn is_given(&self) -> bool {
        self.is_given
    }

    /// How long the text is, or would be.
    pub fn length(&self) -> usize {
        self.text.len()
    }

    /// The text if it fits into `room` bytes.
    pub fn text(&self, room: usize) -> Result<&[u8], Refusal> {
        let fits = fitting(&self.text, room);
        let given = if self.is_given {
            Ok(())
        } else {
            Err(Refusal::new(25, 0))
        };
        match self.error {
            Some(Error::LooksAtRoomFirst) => fits.and_then(|text| given.map(|()| text)),
            _ => given.and(fits),
        }
    }
}

/// An accepted text has just one spelling, so no other text than the one spelled here can read as
/// the value.
fn is_given(value: &Value, error: Option<Error>) -> bool {
    let text = spelled(value, None);
    let table = match error {
        Some(Error::OverlooksLength) => read_of_any_length(&text, None).ok(),
        _ => read(&text).ok(),
    };
    let read_back = table.map(|table| Value::of(&table));
    read_back.as_ref() == Some(value)
}

/// The text as well as a value can be spelled.
fn spelled(value: &Value, error: Option<Error>) -> Vec<u8> {
    let speller = Speller {
        sets: value.sets(),
        form: match error {
            Some(Error::ForgetsForm) if value.form() == 1 => 0,
            _ => value.form(),
        },
        error,
    };
    let tasks = value.places().take(value.taken());
    let mut lines: Vec<Vec<u8>> = tasks.map(|place| speller.task_line(place)).collect();
    if error == Some(Error::TurnsTasksRound) {
        lines.reverse();
    }
    lines.insert(0, speller.cache_line(value));
    lines.extend(
        value
            .accesses()
            .map(|place| speller.access_line(value, place)),
    );
    lines.concat()
}

struct Speller {
    sets: u64,
    /// 0 for hex, or the number of ways.
    form: u64,
    error: Option<Error>,
}

impl Speller {
    fn cache_line(&self, value: &Value) -> Vec<u8> {
        let (sets, reload_time) = (value.sets(), value.reload_time());
        let mut fields = vec![b"K".to_vec(), self.number(sets), self.number(reload_time)];
        if self.form != 0 {
            fields.push(self.number(self.form));
        }
        line(fields)
    }

    fn task_line(&self, place: &[u64]) -> Vec<u8> {
        let period = match self.error {
            Some(Error::WritesDeadlineForPeriod) => place[value::DEADLINE],
            _ => place[value::PERIOD],
        };
        line(vec![
            b"T".to_vec(),
            name(&place[NAME]),
            self.number(place[value::EXECUTION]),
            self.number(period),
            self.number(place[value::DEADLINE]),
            self.number(place[value::JITTER]),
            b"0".to_vec(),
            self.useful_sets(&place[USEFUL]),
            self.cache_sets(&place[EVICTING]),
        ])
    }

    /// A position past the last task has no name, and no text is good that lacks one.
    fn access_line(&self, value: &Value, place: &[u64]) -> Vec<u8> {
        let named = |field: usize| {
            let position = (0..value.taken()).find(|task| *task as u64 == place[field]);
            position.map_or(Vec::new(), |task| name(&value.place(task)[NAME]))
        };
        let mut names = [named(value::ACCESS_TASK), named(value::ACCESS_CEILING)];
        if self.error == Some(Error::WritesCeilingFirst) {
            names.reverse();
        }
        let [task, ceiling] = names;
        line(vec![
            b"A".to_vec(),
            task,
            ceiling,
            self.number(place[value::ACCESS_LENGTH]),
            self.useful_sets(&place[ACCESS_USEFUL]),
        ])
    }

    fn number(&self, number: u64) -> Vec<u8> {
        let spelled = match self.error {
            Some(Error::PadsNumbers) => format!("{number:02}"),
            _ => number.to_string(),
        };
        spelled.into_bytes()
    }

    /// In the table's form; in hex there is nothing above the lowest level.
    fn useful_sets(&self, useful: &[u64]) -> Vec<u8> {
        if self.form == 0 {
            return self.cache_sets(&useful[..WORDS]);
        }
        let sets = self.sets.min(256);
        let counts = (0..sets).map(|set| value::levels_with(useful, set));
        let mut digits: Vec<u8> = counts.map(|count| b"012345678"[count]).collect();
        if self.error != Some(Error::WritesCountsFromLowestSet) {
            digits.reverse();
        }
        digits
    }

    /// A digit for each four of the sets, from the highest on.
    fn cache_sets(&self, words: &[u64]) -> Vec<u8> {
        let count = (self.sets / 4).min(64);
        let digits = (0..count).map(|fours| self.digit(words, 4 * fours));
        let mut digits: Vec<u8> = digits.collect();
        if self.error != Some(Error::StartsFromLowestSets) {
            digits.reverse();
        }
        digits
    }

    /// The digit of the set `lowest` and the three above it.
    fn digit(&self, words: &[u64], lowest: u64) -> u8 {
        let ones = (0..4).filter(|bit| value::is_marked(words, lowest + bit));
        let value: usize = ones.map(|bit| 1 << bit).sum();
        match self.error {
            Some(Error::UsesLargeLetters) => b"0123456789ABCDEF"[value],
            _ => b"0123456789abcdef"[value],
        }
    }
}

fn line(fields: Vec<Vec<u8>>) -> Vec<u8> {
    [fields.join(&b'\t'), b"\n".to_vec()].concat()
}

/// Without the zeros at its end.
fn name(bytes: &[u64]) -> Vec<u8> {
    let last = bytes.iter().rposition(|byte| *byte != 0);
    let length = last.map_or(0, |last| last + 1);
    bytes[..length].iter().map(|byte| *byte as u8).collect()
}

// ---- errors that look reasonable

/// The value with all that the error overlooks put right.
fn overlooking(value: &Value, error: Option<Error>) -> Value {
    let mut value = value.clone();
    match error {
        Some(Error::OverlooksEqualNames) => make_names_differ(&mut value),
        Some(Error::OverlooksHighMarks) => clear_high_marks(&mut value),
        Some(Error::OverlooksPastEnd) => clear_past_end(&mut value),
        Some(Error::OverlooksLowCeiling) => raise_ceilings(&mut value),
        Some(Error::OverlooksPastLastAccess) => clear_past_last_access(&mut value),
        Some(Error::OverlooksHighCounts) => clear_high_levels(&mut value),
        _ => {}
    }
    value
}

fn make_names_differ(value: &mut Value) {
    for index in 0..value.taken() {
        let name = &value.place(index)[NAME];
        if (0..index).any(|above| value.place(above)[NAME] == *name) {
            let another = format!("another-na{index:02}");
            let bytes: Vec<u64> = another.bytes().map(u64::from).collect();
            value.place_mut(index)[NAME].copy_from_slice(&bytes);
        }
    }
}

fn clear_high_marks(value: &mut Value) {
    let sets = value.sets();
    let clear = |words: &mut [u64]| {
        for level in words.chunks_exact_mut(WORDS) {
            for set in sets.min(256)..256 {
                level[(set / 64) as usize] &= !(1 << (set % 64));
            }
        }
    };
    for index in 0..value.taken() {
        clear(&mut value.place_mut(index)[USEFUL]);
        clear(&mut value.place_mut(index)[EVICTING]);
    }
    for index in 0..value.accesses_taken() {
        clear(&mut value.access_mut(index)[ACCESS_USEFUL]);
    }
}

/// Of a value with a good number of ways.
fn clear_high_levels(value: &mut Value) {
    let levels = value.form().clamp(1, 8) as usize;
    for index in 0..value.taken() {
        value.place_mut(index)[USEFUL][levels * WORDS..].fill(0);
    }
    for index in 0..value.accesses_taken() {
        value.access_mut(index)[ACCESS_USEFUL][levels * WORDS..].fill(0);
    }
}

fn clear_past_end(value: &mut Value) {
    for index in value.taken()..TASKS_MOST {
        value.place_mut(index).fill(0);
    }
}

fn raise_ceilings(value: &mut Value) {
    let tasks = value.count();
    for index in 0..value.accesses_taken() {
        let place = value.access_mut(index);
        if place[value::ACCESS_CEILING] < tasks {
            let task = place[value::ACCESS_TASK];
            place[value::ACCESS_CEILING] = place[value::ACCESS_CEILING].min(task);
        }
    }
}

fn clear_past_last_access(value: &mut Value) {
    for index in value.accesses_taken()..ACCESSES_MOST {
        value.access_mut(index).fill(0);
    }
}

#[cfg(test)]
mod tests {
    use super::*;
    use crate::figures::{longest_table, longest_with_accesses, table_m, table_p};

    fn value_of(text: &[u8]) -> Value {
        Value::of(&read(text).expect("a valid table"))
    }

    /// What is written of table M, with room enough, after a change.
    fn after(error: Option<Error>, change: impl FnOnce(&mut Value)) -> Result<String, u64> {
        let mut value = value_of(&table_m());
        change(&mut value);
        let writing = Writing::of(&value, error);
        let text = writing.text(10_000).map(<[u8]>::to_vec);
        text.map(|text| String::from_utf8_lossy(&text).into_owned())
            .map_err(|refusal| refusal.code())
    }

    /// Gives the value two accesses of the last task, with the task above and itself as ceilings.
    fn add_accesses(value: &mut Value) {
        value.numbers[value::ACCESS_COUNT] = 2;
        value.access_mut(0)[..4].copy_from_slice(&[2, 1, 77, 0x81]);
        value.access_mut(1)[..4].copy_from_slice(&[2, 2, 5, 0]);
    }

    fn refused(change: impl FnOnce(&mut Value)) -> bool {
        after(None, change) == Err(25 << 32)
    }

    #[test]
    fn the_text_comes_back_if_there_is_room() {
        for text in [
            table_m(),
            table_p(),
            longest_table(),
            longest_with_accesses(),
        ] {
            let writing = Writing::of(&value_of(&text), None);
            assert_eq!(writing.text(text.len()), Ok(&text[..]));
            assert_eq!(writing.text(text.len() - 1), Err(Refusal::new(14, 0)));
        }
    }

    #[test]
    fn a_value_that_no_text_gives_is_refused_whatever_the_room() {
        let mut value = value_of(&table_m());
        value.numbers[value::COUNT] = 2;
        let writing = Writing::of(&value, None);
        assert_eq!(writing.text(0), Err(Refusal::new(25, 0)));
        assert_eq!(writing.text(10_000), Err(Refusal::new(25, 0)));
        let writing = Writing::of(&value, Some(Error::LooksAtRoomFirst));
        assert_eq!(writing.text(0), Err(Refusal::new(14, 0)));
        assert_eq!(writing.text(10_000), Err(Refusal::new(25, 0)));
    }

    #[test]
    fn what_cannot_be_spelled_is_refused() {
        for number in [0, 2, 4, 33, 1 << 32 | 3, u64::MAX] {
            assert!(refused(|value| value.numbers[value::COUNT] = number));
        }
        for number in [0, 4, 6, 260, 1 << 32 | 8, u64::MAX] {
            assert!(refused(|value| value.numbers[value::SETS] = number));
        }
        for (byte, number) in [(0, 0), (2, 65), (1, 9), (1, 10), (0, 256 + 97)] {
            assert!(refused(|value| value.place_mut(1)[byte] = number));
        }
        assert!(refused(|value| value.place_mut(1)[0] = u64::from(b'c')));
        assert!(refused(|value| value.place_mut(2)[USEFUL.start] = 1 << 8));
        assert!(refused(|value| value.place_mut(31)[value::JITTER] = 1));
    }

    #[test]
    fn accesses_that_cannot_be_spelled_are_refused() {
        let refused_with = |index: usize, number: u64| {
            refused(|value| {
                add_accesses(value);
                value.numbers[index] = number;
            })
        };
        assert!(!refused_with(value::ACCESS_COUNT, 2));
        for number in [1, 33, 1 << 32 | 2, u64::MAX] {
            assert!(refused_with(value::ACCESS_COUNT, number));
        }
        for (field, number) in [(0, 0), (0, 3), (1, 3), (1, 32), (0, 1 << 32 | 2)] {
            assert!(refused_with(value::access_at(0, field), number));
        }
        for (field, number) in [(2, 0), (2, 250_000_001), (3, 1 << 8), (6, 1)] {
            assert!(refused_with(value::access_at(0, field), number));
        }
        assert!(refused_with(value::access_at(2, 6), 1));
    }

    #[test]
    fn accesses_are_written_with_the_names_of_their_tasks() {
        let text = after(None, add_accesses).expect("written");
        assert!(text.ends_with("A\tc\tb\t77\t81\nA\tc\tc\t5\t00\n"));
        let text = after(Some(Error::WritesCeilingFirst), add_accesses).expect("written");
        assert!(text.contains("A\tb\tc\t77\t81\n"));
    }

    #[test]
    fn a_change_that_a_text_may_have_is_written() {
        let higher = after(None, |value| value.numbers[value::SETS] = 12);
        assert!(higher.expect("written").starts_with("K\t12\t1\n"));
        let longer = after(None, |value| value.place_mut(1)[1] = u64::from(b'-'));
        assert!(longer.expect("written").contains("\nT\tb-\t2\t40\t40\t"));
    }

    #[test]
    fn the_errors_do_what_they_say() {
        let with = |error| after(Some(error), |_| {}).expect("written");
        assert!(with(Error::PadsNumbers).starts_with("K\t08\t01\n"));
        assert!(with(Error::UsesLargeLetters).ends_with("\t3C\t3C\n"));
        assert!(with(Error::StartsFromLowestSets).ends_with("\tc3\tc3\n"));
        assert!(with(Error::TurnsTasksRound).starts_with("K\t8\t1\nT\tc\t"));
        let shorter = |value: &mut Value| value.place_mut(0)[value::DEADLINE] = 9;
        let deadline = after(Some(Error::WritesDeadlineForPeriod), shorter);
        assert!(deadline.expect("written").contains("T\ta\t1\t9\t9\t"));
    }

    #[test]
    fn the_errors_write_what_they_overlook_and_nothing_else() {
        type Change = fn(&mut Value);
        let changes: [(Error, Change); 6] = [
            (Error::OverlooksHighCounts, |value| {
                value.place_mut(1)[USEFUL.start + WORDS] = 1;
            }),
            (Error::OverlooksEqualNames, |value| {
                value.place_mut(1)[0] = u64::from(b'c');
            }),
            (Error::OverlooksHighMarks, |value| {
                value.place_mut(2)[EVICTING.start + 3] = 1;
            }),
            (Error::OverlooksPastEnd, |value| {
                value.place_mut(3)[0] = u64::from(b'd');
            }),
            (Error::OverlooksLowCeiling, |value| {
                add_accesses(value);
                value.access_mut(0)[value::ACCESS_TASK] = 0;
            }),
            (Error::OverlooksPastLastAccess, |value| {
                value.access_mut(0)[value::ACCESS_LENGTH] = 1;
            }),
        ];
        for (error, _) in changes {
            for (other, change) in changes {
                assert_eq!(after(Some(error), change).is_ok(), error == other);
            }
        }
    }
}
