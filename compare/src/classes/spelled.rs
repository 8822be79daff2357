//! What the tables that are written have to reach: fields of every length.

use super::Names;
use crate::model::value::{Value, ACCESS_LENGTH, EXECUTION, JITTER, NAME};
use crate::model::Writing;
use std::collections::BTreeSet;

/// The longest table's in hex, without accesses and with them, and that of any table.
const LENGTHS_MOST: [usize; 3] = [5_997, 9_293, 16_384];

pub fn all() -> Names {
    let mut names = Names::new();
    names.extend(
        (4..=256)
            .step_by(4)
            .flat_map(|sets| [0, 1].map(|form| of_sets(sets, form))),
    );
    names.extend((1..=12).map(of_name));
    names.extend((1..=9).map(of_number));
    names.extend(LENGTHS_MOST.map(of_text));
    names
}

/// By a value that is written.
pub fn reached(value: &Value, writing: &Writing) -> Names {
    let mut lengths = BTreeSet::new();
    let mut digits = BTreeSet::from([digits_of(value.reload_time())]);
    for task in value.places().take(value.taken()) {
        let name = task[NAME].iter().take_while(|byte| **byte != 0);
        lengths.insert(name.count());
        let times = &task[EXECUTION..=JITTER];
        digits.extend(times.iter().map(|time| digits_of(*time)));
    }
    let lengths_of_accesses = value.accesses().map(|access| access[ACCESS_LENGTH]);
    digits.extend(lengths_of_accesses.map(digits_of));
    let mut names = Names::from([of_sets(value.sets(), value.form())]);
    names.extend(lengths.into_iter().map(of_name));
    names.extend(digits.into_iter().map(of_number));
    let longest = LENGTHS_MOST.into_iter();
    let longest = longest.filter(|length| writing.length() == *length);
    names.extend(longest.map(of_text));
    names
}

fn digits_of(number: u64) -> u32 {
    let fits = |digits: &u32| number < 10u64.pow(*digits);
    (1..20).find(fits).unwrap_or(20)
}

fn of_sets(sets: u64, form: u64) -> String {
    match form {
        0 => format!("{sets} sets in hex"),
        _ => format!("{sets} sets with counts"),
    }
}

fn of_name(length: usize) -> String {
    format!("a name of {length} bytes")
}

fn of_number(digits: u32) -> String {
    format!("a number of {digits} digits")
}

fn of_text(length: usize) -> String {
    format!("a text of {length} bytes")
}
