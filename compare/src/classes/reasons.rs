//! Why no text gives a table value.

use super::{access_reasons, Names};
use crate::model::value::{
    field_name, is_marked, Value, ACCESS_CEILING, ACCESS_LENGTH, ACCESS_TASK, DEADLINE, EVICTING,
    EXECUTION, JITTER, NAME, PERIOD, PLACE, USEFUL, WORDS,
};
use crate::model::TASKS_MOST;
use std::ops::RangeInclusive;

const TIME_MOST: u64 = 250_000_000;

/// Each with its least.
const TIMES: [(usize, u64); 4] = [(EXECUTION, 1), (PERIOD, 1), (DEADLINE, 1), (JITTER, 0)];

/// The first is not above the second.
const ORDER: [(usize, usize); 2] = [(JITTER, DEADLINE), (DEADLINE, PERIOD)];

/// Bytes that no name has: those beside the ones it may have, and some further ones.
const BAD_BYTES: &[u8] = b"\t\n ,./:`{AZ_\x80\xff";

const TOO_FEW_SETS: &str = "1 to 3 sets";
const NO_MULTIPLE: &str = "sets that are no multiple of 4";

const NONE: &str = "being 0";
const ONE_TOO_MANY: &str = "being one too many";
const GOOD_LOW_HALF: &str = "being good in the low 32 bits alone";
const FAR_TOO_MANY: &str = "being far too many";

const NO_NAME: &str = "a name of no byte";
const ZERO_AT_START: &str = "a zero at a name's start";
const ZERO_INSIDE: &str = "a zero inside a name";
const BYTE_PAST_ZEROS: &str = "a byte past the zeros after a name";
const ANOTHER_BAD_BYTE: &str = "another bad byte in a name";

const ONE_BYTE_TOO_LONG: &str = "a text that is a byte too long";
const FAR_TOO_LONG: &str = "a text that is far too long";
const TEXT_MOST: usize = 16_384;

/// The form is 0 for hex, or the number of ways.
const FORMS: RangeInclusive<u64> = 0..=8;

const EQUAL_NEIGHBOURS: &str = "equal names of neighbours";
const EQUAL_APART: &str = "equal names further apart";

const JUST_PAST: &str = "just past it";
const FURTHER_ON: &str = "further on";
const LAST: &str = "in the last place";
const PAST: [&str; 3] = [JUST_PAST, FURTHER_ON, LAST];

/// All reasons there are.
pub fn all() -> Names {
    let mut reasons = Names::new();
    let once = [
        TOO_FEW_SETS,
        NO_MULTIPLE,
        NO_NAME,
        ZERO_AT_START,
        ZERO_INSIDE,
        BYTE_PAST_ZEROS,
        ANOTHER_BAD_BYTE,
        ONE_BYTE_TOO_LONG,
        FAR_TOO_LONG,
        EQUAL_NEIGHBOURS,
        EQUAL_APART,
    ];
    reasons.extend(once.map(str::to_string));
    for (name, least) in [("sets", 4), ("BRT", 0), ("form", 0), ("tasks", 1)] {
        reasons.extend(all_of_range(name, least));
    }
    for (field, least) in TIMES {
        reasons.extend(all_of_range(&field_name(field), least));
    }
    for (lower, higher) in ORDER {
        reasons.extend(["one", "far"].map(|how| above(how, lower, higher)));
    }
    reasons.extend(BAD_BYTES.iter().map(|byte| bad_byte(*byte)));
    for which in ["UCB", "ECB"] {
        for word in 0..4 {
            reasons.extend(["first", "further"].map(|how| mark_past(how, which, word)));
        }
    }
    reasons.extend(all_of_levels("UCB"));
    reasons.extend((0..PLACE).flat_map(|field| all_past_end(&field_name(field))));
    reasons.extend(access_reasons::all());
    reasons
}

pub fn all_of_range(name: &str, least: u64) -> Names {
    let above = [ONE_TOO_MANY, GOOD_LOW_HALF, FAR_TOO_MANY];
    let below = Some(NONE).filter(|_| least > 0);
    let hows = above.into_iter().chain(below);
    hows.map(|how| format!("{name} {how}")).collect()
}

/// Everything that is wrong with a value. A number that is out of its range has nothing else held
/// against it.
pub fn reasons(value: &Value) -> Names {
    let mut reasons = Names::new();
    reasons.extend(of_sets(value.sets()));
    reasons.extend(of_range("BRT", value.reload_time(), 0, 100_000));
    let (least, most) = FORMS.into_inner();
    reasons.extend(of_range("form", value.form(), least, most));
    match of_range("tasks", value.count(), 1, TASKS_MOST as u64) {
        Some(reason) => {
            reasons.insert(reason);
        }
        None => {
            let taken = value.taken();
            let tasks = value.places().take(taken);
            reasons.extend(tasks.flat_map(|task| of_task(task, value)));
            reasons.extend(of_equal_names(value));
            reasons.extend(of_places_past_end(value.places(), taken, field_name));
            reasons.extend(access_reasons::reasons(value));
        }
    }
    if reasons.is_empty() {
        reasons.extend(of_length(value));
    }
    reasons
}

/// Of a value with which nothing else is wrong.
fn of_length(value: &Value) -> Option<String> {
    let reason = match length_of(value).saturating_sub(TEXT_MOST) {
        0 => return None,
        1 => ONE_BYTE_TOO_LONG,
        _ => FAR_TOO_LONG,
    };
    Some(reason.to_string())
}

/// How many bytes its text has, each field counted with the tab or LF after it.
fn length_of(value: &Value) -> usize {
    let number = |number: &u64| number.to_string().len() + 1;
    let name = |task: &[u64]| task[NAME].iter().filter(|byte| **byte != 0).count() + 1;
    let sets = value.sets() as usize;
    let (useful, first_line) = match value.form() {
        0 => (sets / 4 + 1, vec![value.sets(), value.reload_time()]),
        ways => (sets + 1, vec![value.sets(), value.reload_time(), ways]),
    };
    let tasks = value.places().take(value.taken()).map(|task| {
        let times: usize = task[EXECUTION..=JITTER].iter().map(number).sum();
        2 + name(task) + times + number(&0) + useful + sets / 4 + 1
    });
    let accesses = value.accesses().map(|access| {
        let named = |field: usize| name(value.place(access[field] as usize));
        let names = named(ACCESS_TASK) + named(ACCESS_CEILING);
        2 + names + number(&access[ACCESS_LENGTH]) + useful
    });
    let first_line: usize = first_line.iter().map(number).sum();
    2 + first_line + tasks.chain(accesses).sum::<usize>()
}

pub fn of_sets(sets: u64) -> Option<String> {
    match sets {
        1..=3 => Some(TOO_FEW_SETS.to_string()),
        4..=256 if sets % 4 != 0 => Some(NO_MULTIPLE.to_string()),
        _ => of_range("sets", sets, 4, 256),
    }
}

pub fn of_range(name: &str, number: u64, least: u64, most: u64) -> Option<String> {
    let range = least..=most;
    let how = match number {
        _ if range.contains(&number) => return None,
        0 => NONE,
        _ if number == most + 1 => ONE_TOO_MANY,
        _ if range.contains(&(number % (1 << 32))) => GOOD_LOW_HALF,
        _ => FAR_TOO_MANY,
    };
    Some(format!("{name} {how}"))
}

fn of_task(task: &[u64], value: &Value) -> Names {
    let mut reasons = of_name(&task[NAME]);
    reasons.extend(of_times(task));
    reasons.extend(of_levels("UCB", &task[USEFUL], value));
    if of_sets(value.sets()).is_none() {
        reasons.extend(of_marks("ECB", &task[EVICTING], value.sets()));
    }
    reasons
}

pub fn all_of_levels(which: &str) -> [String; 3] {
    [not_in_hex(which), past_ways(which), not_below(which)]
}

/// What is wrong with the levels of a UCB.
pub fn of_levels(which: &str, useful: &[u64], value: &Value) -> Names {
    let mut reasons = Names::new();
    let levels: Vec<&[u64]> = useful.chunks_exact(WORDS).collect();
    let is_filled = |level: &&[u64]| level.iter().any(|word| *word != 0);
    if of_sets(value.sets()).is_none() {
        let each = levels.iter();
        reasons.extend(each.flat_map(|level| of_marks(which, level, value.sets())));
    }
    let is_outside = |pair: &[&[u64]]| {
        let mut words = pair[0].iter().zip(pair[1]);
        words.any(|(below, above)| above & !below != 0)
    };
    if levels.windows(2).any(is_outside) {
        reasons.insert(not_below(which));
    }
    if FORMS.contains(&value.form()) {
        let ways = value.form().max(1) as usize;
        if levels[ways..].iter().any(is_filled) {
            reasons.insert(match value.form() {
                0 => not_in_hex(which),
                _ => past_ways(which),
            });
        }
    }
    reasons
}

fn not_in_hex(which: &str) -> String {
    format!("a count above 1 in {which} in hex")
}

fn past_ways(which: &str) -> String {
    format!("a count above the ways in {which}")
}

fn not_below(which: &str) -> String {
    format!("a set in a level of {which} and not in the one below")
}

fn of_times(task: &[u64]) -> Names {
    let mut reasons = Names::new();
    for (field, least) in TIMES {
        reasons.extend(of_range(&field_name(field), task[field], least, TIME_MOST));
    }
    if reasons.is_empty() {
        for (lower, higher) in ORDER {
            let surplus = task[lower].saturating_sub(task[higher]);
            reasons.extend(match surplus {
                0 => None,
                1 => Some(above("one", lower, higher)),
                _ => Some(above("far", lower, higher)),
            });
        }
    }
    reasons
}

fn above(how: &str, lower: usize, higher: usize) -> String {
    format!("{} {how} above {}", field_name(lower), field_name(higher))
}

fn of_name(name: &[u64]) -> Names {
    let mut reasons = Names::new();
    let zero = name
        .iter()
        .position(|byte| *byte == 0)
        .unwrap_or(name.len());
    let filled_up = name[zero..].iter().all(|byte| *byte == 0);
    let of_zeros = match zero {
        0 if filled_up => Some(NO_NAME),
        _ if filled_up => None,
        0 => Some(ZERO_AT_START),
        _ if name[zero + 1] != 0 => Some(ZERO_INSIDE),
        _ => Some(BYTE_PAST_ZEROS),
    };
    reasons.extend(of_zeros.map(str::to_string));
    let bytes = name.iter().map(|byte| *byte as u8);
    let bad = bytes.filter(|byte| !matches!(byte, 0 | b'-' | b'0'..=b'9' | b'a'..=b'z'));
    reasons.extend(bad.map(bad_byte));
    reasons
}

fn bad_byte(byte: u8) -> String {
    if BAD_BYTES.contains(&byte) {
        format!("byte {byte:#04x} in a name")
    } else {
        ANOTHER_BAD_BYTE.to_string()
    }
}

pub fn of_marks(which: &str, words: &[u64], sets: u64) -> Names {
    let too_high = (sets..256).filter(|set| is_marked(words, *set));
    let reason = |set| {
        let how = if set == sets { "first" } else { "further" };
        mark_past(how, which, set / 64)
    };
    too_high.map(reason).collect()
}

pub fn mark_past(how: &str, which: &str, word: u64) -> String {
    format!("a {how} set past the cache in {which} word {word}")
}

fn of_equal_names(value: &Value) -> Names {
    let tasks = value.places().take(value.taken());
    let names: Vec<&[u64]> = tasks.map(|task| &task[NAME]).collect();
    let mut reasons = Names::new();
    for (index, name) in names.iter().enumerate() {
        let above = names[..index].iter().rposition(|earlier| earlier == name);
        reasons.extend(above.map(|above| match index - above {
            1 => EQUAL_NEIGHBOURS.to_string(),
            _ => EQUAL_APART.to_string(),
        }));
    }
    reasons
}

/// Of places of which the first `end` are taken, and the others have to be empty.
pub fn of_places_past_end<'a>(
    places: impl Iterator<Item = &'a [u64]>,
    end: usize,
    name: fn(usize) -> String,
) -> Names {
    let mut reasons = Names::new();
    for (index, place) in places.enumerate().skip(end) {
        let which = match index {
            _ if index == end => JUST_PAST,
            _ if index == TASKS_MOST - 1 => LAST,
            _ => FURTHER_ON,
        };
        let fields = (0..place.len()).filter(|field| place[*field] != 0);
        reasons.extend(fields.map(|field| past_end(&name(field), which)));
    }
    reasons
}

pub fn all_past_end(name: &str) -> [String; 3] {
    PAST.map(|which| past_end(name, which))
}

fn past_end(name: &str, which: &str) -> String {
    format!("{name} past the end, {which}")
}

#[cfg(test)]
mod tests {
    use super::*;
    use crate::generate;
    use crate::model::{read, Writing};
    use crate::random::Random;
    use crate::values;

    #[test]
    fn a_value_has_a_reason_just_where_no_text_gives_it() {
        let mut random = Random::new(19);
        let known = all();
        for turn in 0..500 {
            let family = random.pick(&generate::BASES);
            let text = family(&mut random).text();
            let value = Value::of(&read(&text).expect("a valid table"));
            for changed in values::changed(&mut random, &value, turn) {
                let reasons = reasons(&changed);
                let is_given = Writing::of(&changed, None).is_given();
                assert_eq!(reasons.is_empty(), is_given, "{:?}", changed.lines());
                assert!(reasons.is_subset(&known), "{reasons:?}");
            }
        }
    }
}
