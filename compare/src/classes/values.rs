//! What the made-up table values have to reach.

use super::{reasons, spelled, Names};
use crate::model::value::{
    access_field_name, field_name, is_marked, kind_of, levels_with, Kind, Value, ACCESS_COUNT,
    ACCESS_PLACE, ACCESS_USEFUL, COUNT, EVICTING, FORM, NAME, PLACE, RELOAD_TIME, SETS, USEFUL,
};
use crate::model::{Writing, ACCESSES_MOST, TASKS_MOST};

/// Of the value that a text gives, and what was made of it.
type OfChange = (&'static str, fn(&Value, &Value) -> bool);

const WRITTEN: [OfChange; 22] = [
    ("unchanged", |before, value| value == before),
    ("two tasks exchanged", are_two_exchanged),
    ("a task fewer", |before, value| {
        value.count() == before.count() - 1
    }),
    ("a task more", |before, value| {
        value.count() == before.count() + 1
    }),
    ("filled up", |before, value| {
        value.taken() == TASKS_MOST && before.taken() < TASKS_MOST
    }),
    ("an access fewer", has_access_fewer),
    ("an access more", has_access_more),
    ("no access any more", |before, value| {
        value.access_count() == 0 && before.access_count() > 0
    }),
    ("filled up with accesses", |before, value| {
        value.accesses_taken() == ACCESSES_MOST && before.accesses_taken() < ACCESSES_MOST
    }),
    ("two accesses exchanged", |before, value| {
        let differs = |place: &usize| before.access(*place) != value.access(*place);
        let places: Vec<usize> = (0..ACCESSES_MOST).filter(differs).collect();
        let moved = |from: usize, to: usize| before.access(from) == value.access(to);
        matches!(places[..], [one, other] if moved(one, other) && moved(other, one))
    }),
    ("two accesses equal", |_, value| {
        let accesses: Vec<&[u64]> = value.accesses().collect();
        let is_again = |index: usize| accesses[..index].contains(&accesses[index]);
        (0..accesses.len()).any(is_again)
    }),
    ("an access that marks the last set", |_, value| {
        let last = value.sets() - 1;
        let mut accesses = value.accesses();
        accesses.any(|access| is_marked(&access[ACCESS_USEFUL], last))
    }),
    ("more sets", |before, value| value.sets() > before.sets()),
    ("fewer sets", |before, value| value.sets() < before.sets()),
    ("counts in the place of hex", |before, value| {
        before.form() == 0 && value.form() > 0
    }),
    ("hex in the place of counts", |before, value| {
        before.form() > 0 && value.form() == 0
    }),
    ("more ways", |before, value| {
        before.form() > 0 && value.form() > before.form()
    }),
    ("fewer ways", |before, value| {
        value.form() > 0 && value.form() < before.form()
    }),
    ("a count of 8 in the last of 256 sets", |_, value| {
        value.sets() == 256 && tasks(value).any(|task| levels_with(&task[USEFUL], 255) == 8)
    }),
    ("the last set marked", |_, value| {
        let last = value.sets() - 1;
        tasks(value).any(|task| is_marked(&task[USEFUL], last) && is_marked(&task[EVICTING], last))
    }),
    ("a name that starts as another", |_, value| {
        have_two_names(value, |one, other| {
            let length = length_of(one);
            length < length_of(other) && one[..length] == other[..length]
        })
    }),
    ("names that differ in their last byte", |_, value| {
        have_two_names(value, |one, other| {
            let last = length_of(one) - 1;
            length_of(other) == last + 1 && one[..last] == other[..last]
        })
    }),
];

const REFUSED: [OfChange; 8] = [
    ("a task fewer", |before, value| {
        value.count() == before.count() - 1
    }),
    ("a task more", |before, value| {
        value.count() == before.count() + 1
    }),
    ("no task, every place empty", |_, value| {
        value.count() == 0 && value.places().all(is_empty)
    }),
    ("no task, but the places as they were", |before, value| {
        value.count() == 0 && value.places().eq(before.places())
    }),
    ("an empty place between tasks", |_, value| {
        let mut from_empty = tasks(value).skip_while(|place| !is_empty(place));
        from_empty.any(|place| !is_empty(place))
    }),
    ("an access fewer", has_access_fewer),
    ("an access more", has_access_more),
    ("an empty place between accesses", |_, value| {
        let mut from_empty = value.accesses().skip_while(|place| !is_empty(place));
        from_empty.any(|place| !is_empty(place))
    }),
];

fn has_access_fewer(before: &Value, value: &Value) -> bool {
    value.access_count() + 1 == before.access_count()
}

fn has_access_more(before: &Value, value: &Value) -> bool {
    value.access_count() == before.access_count() + 1
}

pub fn all() -> Names {
    let mut names = Names::new();
    names.extend(spelled::all().iter().map(|class| written(class)));
    names.extend(WRITTEN.iter().map(|class| written(class.0)));
    names.extend(REFUSED.iter().map(|class| refused(class.0)));
    for index in [SETS, RELOAD_TIME, FORM, COUNT, ACCESS_COUNT] {
        names.insert(refused(&in_one_number(of_table(index))));
    }
    for index in [SETS, RELOAD_TIME, FORM] {
        names.insert(written(&in_one_number(of_table(index))));
    }
    let of_access = (0..ACCESS_PLACE).map(access_field_name);
    for field in (0..PLACE).map(field_name).chain(of_access) {
        names.insert(written(&in_one_number(&field)));
        names.insert(refused(&in_one_number(&field)));
        names.insert(refused(&in_one_number(&past_end(&field))));
    }
    names.extend(reasons::all().iter().map(|reason| only_for(reason)));
    names
}

/// What a value reaches that was made from one that a text gives.
pub fn reached(before: &Value, value: &Value, writing: &Writing, reasons: &Names) -> Names {
    let (classes, full): (&[OfChange], fn(&str) -> String) = if writing.is_given() {
        (&WRITTEN, written)
    } else {
        (&REFUSED, refused)
    };
    let classes = classes.iter().filter(|class| class.1(before, value));
    let mut names: Names = classes.map(|class| full(class.0)).collect();
    let number = only_changed_number(before, value);
    names.extend(number.map(|name| full(&in_one_number(&name))));
    if writing.is_given() {
        let spelled = spelled::reached(value, writing);
        names.extend(spelled.iter().map(|class| written(class)));
    } else if reasons.len() == 1 {
        names.extend(reasons.iter().map(|reason| only_for(reason)));
    }
    names
}

fn written(name: &str) -> String {
    format!("value written: {name}")
}

fn refused(name: &str) -> String {
    format!("value refused: {name}")
}

fn only_for(reason: &str) -> String {
    refused(&format!("only for {reason}"))
}

fn in_one_number(name: &str) -> String {
    format!("changed in one number, {name}")
}

/// The name of the number in which alone two values differ.
fn only_changed_number(before: &Value, value: &Value) -> Option<String> {
    let differs = |index: &usize| before.numbers[*index] != value.numbers[*index];
    let mut changed = (0..value.numbers.len()).filter(differs);
    let index = changed.next()?;
    if changed.next().is_some() {
        return None;
    }
    let (name, is_taken) = match kind_of(index) {
        Kind::OfTable => (of_table(index).to_string(), true),
        Kind::OfTask(place, field) => (field_name(field), place < before.taken()),
        Kind::OfAccess(place, field) => {
            let is_taken = place < before.accesses_taken();
            (access_field_name(field), is_taken)
        }
    };
    Some(if is_taken { name } else { past_end(&name) })
}

fn of_table(index: usize) -> &'static str {
    match index {
        SETS => "sets",
        RELOAD_TIME => "BRT",
        FORM => "form",
        COUNT => "tasks",
        _ => "accesses",
    }
}

fn past_end(field: &str) -> String {
    format!("{field} past the end")
}

fn are_two_exchanged(before: &Value, value: &Value) -> bool {
    let differs = |place: &usize| before.place(*place) != value.place(*place);
    let places: Vec<usize> = (0..TASKS_MOST).filter(differs).collect();
    let moved = |from: usize, to: usize| before.place(from) == value.place(to);
    matches!(places[..], [one, other] if moved(one, other) && moved(other, one))
}

fn tasks(value: &Value) -> impl Iterator<Item = &[u64]> {
    value.places().take(value.taken())
}

fn names(value: &Value) -> impl Iterator<Item = &[u64]> {
    tasks(value).map(|task| &task[NAME])
}

fn have_two_names(value: &Value, holds: impl Fn(&[u64], &[u64]) -> bool) -> bool {
    let with_another = |(index, one): (usize, &[u64])| {
        let mut others = names(value).enumerate().filter(|other| other.0 != index);
        others.any(|(_, other)| holds(one, other))
    };
    names(value).enumerate().any(with_another)
}

fn length_of(name: &[u64]) -> usize {
    name.iter().take_while(|byte| **byte != 0).count()
}

fn is_empty(place: &[u64]) -> bool {
    place.iter().all(|number| *number == 0)
}
