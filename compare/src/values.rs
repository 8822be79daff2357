//! Made-up table values: those that texts give, with something changed. Most of them no text gives.

mod accesses;

mod counts;

use crate::model::value::{
    access_at, at, is_marked, kind_of, level_of, Kind, Value, ACCESS_COUNT, ACCESS_LENGTH,
    ACCESS_PLACE, ACCESS_USEFUL, COUNT, DEADLINE, EVICTING, EXECUTION, FORM, JITTER, LEVELS, NAME,
    PERIOD, PLACE, RELOAD_TIME, SETS, USEFUL, WORDS,
};
use crate::model::{ACCESSES_MOST, TASKS_MOST};
use crate::random::Random;

/// The kinds of numbers: the five of the whole table, those of a task, of a place past the last task,
/// of an access, and of a place past the last access.
const KINDS: usize = OF_TABLE.len() + 2 * PLACE + 2 * ACCESS_PLACE;
const OF_TABLE: [usize; 5] = [SETS, RELOAD_TIME, FORM, COUNT, ACCESS_COUNT];

/// How many values of each sort are made from one.
const WITH_ONE_NUMBER: usize = 8;
const IN_SOME_MANNER: usize = 6;
const WITH_SEVERAL_NUMBERS: usize = 1;
const WITH_A_DIGIT_MORE: usize = 1;

/// Values with something changed; `turn` decides what, so that each kind and each manner has its turn.
pub fn changed(random: &mut Random, value: &Value, turn: usize) -> Vec<Value> {
    let mut values = Vec::new();
    for step in 0..WITH_ONE_NUMBER {
        let kind = (turn * WITH_ONE_NUMBER + step) % KINDS;
        let mut changed = value.clone();
        change_number(random, &mut changed, kind);
        values.push(changed);
    }
    for step in 0..IN_SOME_MANNER {
        let manners = MANNERS.iter().chain(&accesses::MANNERS);
        let manners: Vec<&Manner> = manners.chain(&counts::MANNERS).collect();
        let manner = manners[(turn * IN_SOME_MANNER + step) % manners.len()];
        let mut changed = value.clone();
        manner(random, &mut changed);
        values.push(changed);
    }
    for _ in 0..WITH_A_DIGIT_MORE {
        let mut changed = value.clone();
        add_digit(random, &mut changed);
        values.push(changed);
    }
    for _ in 0..WITH_SEVERAL_NUMBERS {
        let mut changed = value.clone();
        for _ in 0..random.between(2, 3) {
            let kind = random.below(KINDS);
            change_number(random, &mut changed, kind);
        }
        values.push(changed);
    }
    values
}

// ---- one number

fn change_number(random: &mut Random, value: &mut Value, kind: usize) {
    let index = index_of(random, value, kind);
    let old = value.numbers[index];
    let mut new = old;
    let other_marks = |random: &mut Random, word: usize| {
        let end = value.sets().wrapping_sub(word as u64 * 64);
        other_word(random, old, end)
    };
    let other_level = |random: &mut Random, word: usize| {
        // mostly a set that is in the level below and not in the one above
        let below = |of: usize| value.numbers[index - of];
        let inside = if level_of(word) == 0 {
            u64::MAX
        } else {
            below(WORDS)
        };
        let is_highest = level_of(word) + 1 == LEVELS;
        let above = if is_highest {
            0
        } else {
            value.numbers[index + WORDS]
        };
        let bits = (0..64).filter(|bit| inside >> bit & 1 == 1 && above >> bit & 1 == 0);
        let bits: Vec<u32> = bits.collect();
        if bits.is_empty() || random.chance(30) {
            other_marks(random, word % WORDS)
        } else {
            old ^ 1 << *random.pick(&bits)
        }
    };
    while new == old {
        new = match kind_of(index) {
            Kind::OfTask(_, field) if NAME.contains(&field) => other_byte(random, old),
            Kind::OfTask(_, field) if EVICTING.contains(&field) => {
                other_marks(random, field - EVICTING.start)
            }
            Kind::OfTask(_, field) if USEFUL.contains(&field) => {
                other_level(random, field - USEFUL.start)
            }
            Kind::OfAccess(_, field) if field >= ACCESS_USEFUL.start => {
                other_level(random, field - ACCESS_USEFUL.start)
            }
            Kind::OfTable if index == FORM && random.chance(60) => random.between(0, 9),
            Kind::OfAccess(_, field) if field < ACCESS_LENGTH && random.chance(60) => {
                random.between(0, value.count().min(32))
            }
            _ => other_number(random, old),
        };
    }
    value.numbers[index] = new;
}

/// A number of the kind. Where no place is past the last task, it is one of a task, and so with
/// accesses; where there is no access, it is of a place past the last.
fn index_of(random: &mut Random, value: &Value, kind: usize) -> usize {
    if let Some(index) = OF_TABLE.get(kind) {
        return *index;
    }
    let kind = kind - OF_TABLE.len();
    if kind < 2 * PLACE {
        let (taken, places) = (value.taken(), TASKS_MOST);
        at(any_place(random, taken, places, kind < PLACE), kind % PLACE)
    } else {
        let kind = kind - 2 * PLACE;
        let (taken, places) = (value.accesses_taken(), ACCESSES_MOST);
        let place = any_place(random, taken, places, kind < ACCESS_PLACE);
        access_at(place, kind % ACCESS_PLACE)
    }
}

/// One of the places that are taken, or one past them: the first, the last or any.
fn any_place(random: &mut Random, taken: usize, places: usize, is_taken: bool) -> usize {
    let (first, end) = match is_taken {
        _ if taken == 0 => (0, places),
        _ if taken == places => (0, places),
        true => (0, taken),
        false => (taken, places),
    };
    let any = first + random.below(end - first);
    *random.pick(&[first, end - 1, any])
}

fn other_byte(random: &mut Random, old: u64) -> u64 {
    const BYTES: &[u8] = b"\0\0\0\t\n\r ,./:@[`{AZ_\x7f\x80\xff-09amz";
    match random.below(5) {
        0 => (old + 1) % 256,
        1 => (old + 255) % 256,
        2 => old ^ 1 << random.below(8),
        _ => u64::from(*random.pick(BYTES)),
    }
}

/// `end` is where the cache's sets end, counted from the word's first.
fn other_word(random: &mut Random, old: u64, end: u64) -> u64 {
    let bits = [
        end,
        end.wrapping_sub(1),
        end.wrapping_add(1),
        0,
        63,
        random.between(0, 63),
    ];
    match random.below(8) {
        0 => 0,
        1 => u64::MAX,
        2 => random.number(),
        _ => old ^ 1 << (*random.pick(&bits) % 64),
    }
}

fn other_number(random: &mut Random, old: u64) -> u64 {
    const ENDS: [u64; 24] = [
        0,
        1,
        2,
        3,
        4,
        5,
        32,
        33,
        64,
        252,
        256,
        257,
        260,
        99_999,
        100_000,
        100_001,
        249_999_999,
        250_000_000,
        250_000_001,
        999_999_999,
        1_000_000_000,
        1 << 32,
        1 << 63,
        u64::MAX,
    ];
    match random.below(8) {
        0 => old.wrapping_add(1),
        1 => old.wrapping_sub(1),
        2 => old ^ 1 << random.below(64),
        3 => old.wrapping_add(1 << 32),
        _ => *random.pick(&ENDS),
    }
}

// ---- manners

type Manner = fn(&mut Random, &mut Value);

const MANNERS: [Manner; 26] = [
    exchange_tasks,
    turn_tasks_round,
    copy_name,
    name_nearly_as_another,
    take_name_away,
    put_zero_inside_name,
    put_byte_past_name,
    lengthen_name,
    shorten_name,
    put_bad_byte,
    raise_jitter,
    raise_deadline,
    take_ends_of_ranges,
    pass_ends_of_ranges,
    move_number_of_sets,
    take_as_few_sets_as_marked,
    take_too_few_sets,
    mark_too_high,
    mark_too_high,
    add_task,
    fill_up,
    count_too_many,
    count_otherwise,
    take_last_task_out,
    leave_task_past_end,
    leave_gap,
];

fn any_task(random: &mut Random, value: &Value) -> usize {
    random.below(value.taken())
}

/// Two tasks, neighbours or the ends among them; none of a table of one task.
fn two_tasks(random: &mut Random, value: &Value) -> Option<(usize, usize)> {
    let last = value.taken() - 1;
    if last == 0 {
        return None;
    }
    let one = random.below(last);
    let other = one + 1 + random.below(last - one);
    Some(*random.pick(&[(one, other), (one, one + 1), (0, last)]))
}

fn exchange_tasks(random: &mut Random, value: &mut Value) {
    if let Some((one, other)) = two_tasks(random, value) {
        let kept = value.place(one).to_vec();
        let moved = value.place(other).to_vec();
        value.place_mut(one).copy_from_slice(&moved);
        value.place_mut(other).copy_from_slice(&kept);
    }
}

fn turn_tasks_round(_: &mut Random, value: &mut Value) {
    let taken = value.taken();
    let turned: Vec<u64> = (0..taken)
        .rev()
        .flat_map(|place| value.place(place).to_vec())
        .collect();
    value.numbers[at(0, 0)..at(taken, 0)].copy_from_slice(&turned);
}

fn copy_name(random: &mut Random, value: &mut Value) {
    if let Some((one, other)) = two_tasks(random, value) {
        let name = value.place(one)[NAME].to_vec();
        value.place_mut(other)[NAME].copy_from_slice(&name);
    }
}

/// The other name with its last byte changed, or with one byte more or less.
fn name_nearly_as_another(random: &mut Random, value: &mut Value) {
    if let Some((one, other)) = two_tasks(random, value) {
        let mut name = name_of(value, one);
        match random.below(3) {
            0 if name.len() < NAME.len() => name.push(b'-'),
            1 if name.len() > 1 => {
                name.pop();
            }
            _ => *name.last_mut().expect("no name is empty") = b'x',
        }
        set_name(value, other, &name);
    }
}

fn take_name_away(random: &mut Random, value: &mut Value) {
    let task = any_task(random, value);
    set_name(value, task, b"");
}

/// At the name's start or further on, with bytes after it.
fn put_zero_inside_name(random: &mut Random, value: &mut Value) {
    let task = any_task(random, value);
    let mut name = name_of(value, task);
    name.resize(name.len().max(3), b'a');
    let place = random.below(name.len() - 1);
    name[place] = 0;
    set_name(value, task, &name);
}

/// After the name come zeros, and then a byte.
fn put_byte_past_name(random: &mut Random, value: &mut Value) {
    let task = any_task(random, value);
    let mut name = name_of(value, task);
    name.truncate(NAME.len() - 3);
    let filling = random.between(1, (NAME.len() - name.len() - 1) as u64) as usize;
    name.extend(vec![0; filling]);
    name.push(*random.pick(b"a\x01"));
    set_name(value, task, &name);
}

fn lengthen_name(random: &mut Random, value: &mut Value) {
    let task = any_task(random, value);
    let mut name = name_of(value, task);
    if name.len() < NAME.len() {
        name.push(*random.pick(b"a0-z9"));
        set_name(value, task, &name);
    }
}

fn shorten_name(random: &mut Random, value: &mut Value) {
    let task = any_task(random, value);
    let mut name = name_of(value, task);
    name.pop();
    set_name(value, task, &name);
}

fn put_bad_byte(random: &mut Random, value: &mut Value) {
    let task = any_task(random, value);
    let mut name = name_of(value, task);
    let place = random.below(name.len());
    name[place] = *random.pick(b"\t\n ,./:`{AZ_\x7f\x80\xff");
    set_name(value, task, &name);
}

fn raise_jitter(random: &mut Random, value: &mut Value) {
    let task = any_task(random, value);
    let place = value.place_mut(task);
    place[JITTER] = place[DEADLINE] + random.magnitude(0, 9);
}

fn raise_deadline(random: &mut Random, value: &mut Value) {
    let task = any_task(random, value);
    let place = value.place_mut(task);
    place[DEADLINE] = place[PERIOD] + random.magnitude(0, 9);
}

fn take_ends_of_ranges(random: &mut Random, value: &mut Value) {
    value.numbers[RELOAD_TIME] = *random.pick(&[0, 100_000]);
    let task = any_task(random, value);
    let place = value.place_mut(task);
    let most = 250_000_000;
    place[EXECUTION] = *random.pick(&[1, most]);
    place[PERIOD] = *random.pick(&[1, most]);
    place[DEADLINE] = *random.pick(&[1, place[PERIOD]]);
    place[JITTER] = *random.pick(&[0, place[DEADLINE]]);
}

fn pass_ends_of_ranges(random: &mut Random, value: &mut Value) {
    let task = any_task(random, value);
    let place = value.place_mut(task);
    let past = 250_000_001;
    if random.chance(20) {
        value.numbers[RELOAD_TIME] = 100_001;
    } else if random.chance(40) {
        place[EXECUTION] = past;
    } else {
        place[PERIOD] = past;
        place[DEADLINE] = *random.pick(&[place[DEADLINE], 250_000_000, past]);
        place[JITTER] = *random.pick(&[place[JITTER], place[DEADLINE]]);
    }
}

/// Gives an execution time a digit more, as long as it stays in its range.
fn add_digit(random: &mut Random, value: &mut Value) {
    let has_room = |task: &usize| value.place(*task)[EXECUTION] <= 25_000_000;
    let tasks: Vec<usize> = (0..value.taken()).filter(has_room).collect();
    if !tasks.is_empty() {
        let task = *random.pick(&tasks);
        value.place_mut(task)[EXECUTION] *= 10;
    }
}

fn move_number_of_sets(random: &mut Random, value: &mut Value) {
    value.numbers[SETS] = 4 * random.between(1, 64);
}

/// The least number of sets, rounded up, that has all marks.
fn least_sets(value: &Value) -> u64 {
    let marked = |set: &u64| {
        let in_place =
            |place: &[u64]| is_marked(&place[USEFUL], *set) || is_marked(&place[EVICTING], *set);
        let mut accesses = value.access_places();
        value.places().any(in_place) || accesses.any(|place| is_marked(&place[ACCESS_USEFUL], *set))
    };
    let highest = (0..256).rev().find(marked).unwrap_or(0);
    4 * (highest / 4 + 1)
}

fn take_as_few_sets_as_marked(_: &mut Random, value: &mut Value) {
    value.numbers[SETS] = least_sets(value);
}

fn take_too_few_sets(_: &mut Random, value: &mut Value) {
    value.numbers[SETS] = least_sets(value) - 4;
}

/// A mark at the number of sets, or anywhere above it.
fn mark_too_high(random: &mut Random, value: &mut Value) {
    let sets = value.sets();
    if sets < 256 {
        let any = random.between(sets, 255);
        let set = *random.pick(&[sets, any, 255]);
        let task = any_task(random, value);
        let levels = USEFUL.start + WORDS * random.below(LEVELS)..USEFUL.end;
        let words = random
            .pick(&[USEFUL, USEFUL, levels, EVICTING, EVICTING])
            .clone();
        value.place_mut(task)[words][(set / 64) as usize] |= 1 << (set % 64);
    }
}

/// A task like another one, with a name of its own.
fn add_task(random: &mut Random, value: &mut Value) {
    let taken = value.taken();
    if taken < TASKS_MOST {
        let copied = any_task(random, value);
        let copied = value.place(copied).to_vec();
        value.place_mut(taken).copy_from_slice(&copied);
        set_name(value, taken, format!("one-more-{taken:03}").as_bytes());
        value.numbers[COUNT] += 1;
    }
}

fn fill_up(random: &mut Random, value: &mut Value) {
    while value.taken() < TASKS_MOST {
        add_task(random, value);
    }
}

fn count_too_many(random: &mut Random, value: &mut Value) {
    fill_up(random, value);
    value.numbers[COUNT] += random.magnitude(1, 9);
}

fn count_otherwise(random: &mut Random, value: &mut Value) {
    let count = value.count();
    let others = [
        count - 1,
        count + 1,
        0,
        32,
        33,
        256 + count,
        1 << 32 | count,
    ];
    value.numbers[COUNT] = *random.pick(&others);
}

fn take_last_task_out(_: &mut Random, value: &mut Value) {
    let last = value.taken() - 1;
    value.place_mut(last).fill(0);
    value.numbers[COUNT] -= 1;
}

/// The last task, or a copy of one.
fn leave_task_past_end(random: &mut Random, value: &mut Value) {
    if random.chance(50) {
        add_task(random, value);
    }
    value.numbers[COUNT] -= 1;
}

/// Empties the place of a task, or puts the last task one place further on.
fn leave_gap(random: &mut Random, value: &mut Value) {
    let last = value.taken() - 1;
    if random.chance(50) || last + 1 == TASKS_MOST {
        let task = any_task(random, value);
        value.place_mut(task).fill(0);
    } else {
        let moved = value.place(last).to_vec();
        value.place_mut(last).fill(0);
        value.place_mut(last + 1).copy_from_slice(&moved);
        value.numbers[COUNT] += random.between(0, 1);
    }
}

fn name_of(value: &Value, task: usize) -> Vec<u8> {
    let bytes = value.place(task)[NAME].iter();
    let bytes = bytes.take_while(|byte| **byte != 0);
    bytes.map(|byte| *byte as u8).collect()
}

fn set_name(value: &mut Value, task: usize, name: &[u8]) {
    let mut bytes: Vec<u64> = name.iter().map(|byte| u64::from(*byte)).collect();
    bytes.resize(NAME.len(), 0);
    value.place_mut(task)[NAME].copy_from_slice(&bytes);
}

#[cfg(test)]
mod tests {
    use super::*;
    use crate::figures::{longest_table, longest_with_accesses, table_p};
    use crate::model::{read, Writing};

    #[test]
    fn what_is_made_is_a_list_of_full_length_with_bytes_for_names() {
        let mut random = Random::new(17);
        for text in [table_p(), longest_table(), longest_with_accesses()] {
            let value = Value::of(&read(&text).expect("a valid table"));
            for turn in 0..500 {
                for changed in changed(&mut random, &value, turn) {
                    assert_eq!(changed.numbers.len(), value.numbers.len());
                    let mut bytes = changed.places().flat_map(|place| &place[NAME]);
                    assert!(bytes.all(|byte| *byte < 256));
                }
            }
        }
    }

    #[test]
    fn most_of_what_is_made_is_refused_and_some_is_not() {
        let mut random = Random::new(18);
        let value = Value::of(&read(&table_p()).expect("a valid table"));
        let values = (0..200).flat_map(|turn| changed(&mut random, &value, turn));
        let values: Vec<Value> = values.collect();
        let given = |value: &&Value| Writing::of(value, None).is_given();
        let given = values.iter().filter(given).count();
        assert!(given > values.len() / 10 && given < values.len() / 2);
    }
}
