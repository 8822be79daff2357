//! Table values as lists of numbers, whether or not a text gives them.
//!
//! The list starts with the number of cache sets, the block reload time, the form and the number of
//! tasks. The form is 0 where line 1 has three fields, and otherwise the number of ways. Then come the
//! 32 places, each of which has the 12 bytes of a name, filled up with zeros, the times C, T, D and J,
//! 32 words of UCB and four words of ECB. The tasks have the first places, and the others are all zeros.
//! Then come the number of accesses and 32 places for them, each of which has the positions of the task
//! and of the ceiling, the length, and 32 words of UCB. The accesses have the first of these, and the
//! others are all zeros.
//!
//! Four words are some of the cache sets: set s is bit s % 64 of word s / 64. A UCB has eight levels of
//! four words, the lowest first. Level l, counted from 0, has the sets with more than l useful blocks, so
//! that a set of three is in the levels 0, 1 and 2. In hex, with one way, there is level 0 alone.

use super::{Access, Form, Table, Task, ACCESSES_MOST, TASKS_MOST, WAYS_MOST};
use std::ops::Range;

/// Where the numbers of the whole table stand in the list.
pub const SETS: usize = 0;
pub const RELOAD_TIME: usize = 1;
pub const FORM: usize = 2;
pub const COUNT: usize = 3;
const FIRST_PLACE: usize = 4;

/// Four words say of each cache set whether it is meant.
pub const WORDS: usize = 4;

/// A UCB has four words for each level.
pub const LEVELS: usize = WAYS_MOST as usize;

/// Where the numbers of a task stand in its place.
pub const NAME: Range<usize> = 0..12;
pub const EXECUTION: usize = 12;
pub const PERIOD: usize = 13;
pub const DEADLINE: usize = 14;
pub const JITTER: usize = 15;
pub const USEFUL: Range<usize> = 16..16 + LEVELS * WORDS;
pub const EVICTING: Range<usize> = USEFUL.end..USEFUL.end + WORDS;

/// How many numbers a place has.
pub const PLACE: usize = EVICTING.end;

/// Where the number of accesses stands in the list.
pub const ACCESS_COUNT: usize = FIRST_PLACE + TASKS_MOST * PLACE;
const FIRST_ACCESS: usize = ACCESS_COUNT + 1;

/// Where the numbers of an access stand in its place.
pub const ACCESS_TASK: usize = 0;
pub const ACCESS_CEILING: usize = 1;
pub const ACCESS_LENGTH: usize = 2;
pub const ACCESS_USEFUL: Range<usize> = 3..3 + LEVELS * WORDS;

/// How many numbers the place of an access has.
pub const ACCESS_PLACE: usize = ACCESS_USEFUL.end;

/// How many numbers a value has.
pub const NUMBERS: usize = FIRST_ACCESS + ACCESSES_MOST * ACCESS_PLACE;

#[derive(Clone, Debug, PartialEq, Eq)]
pub struct Value {
    pub numbers: Vec<u64>,
}

impl Value {
    pub fn of(table: &Table) -> Value {
        let count = table.tasks.len() as u64;
        let form = match table.form {
            Form::Hex => 0,
            Form::Counted(ways) => ways,
        };
        let mut numbers = vec![table.sets as u64, table.reload_time, form, count];
        for task in &table.tasks {
            numbers.extend(place_of(task));
        }
        numbers.resize(ACCESS_COUNT, 0);
        numbers.push(table.accesses.len() as u64);
        for access in &table.accesses {
            numbers.extend(access_place_of(access));
        }
        numbers.resize(NUMBERS, 0);
        Value { numbers }
    }

    /// The value at the start of a list, if the list is long enough for one.
    pub fn at_start(list: &[u64]) -> Option<Value> {
        let numbers = list.get(..NUMBERS)?.to_vec();
        Some(Value { numbers })
    }

    pub fn sets(&self) -> u64 {
        self.numbers[SETS]
    }

    pub fn reload_time(&self) -> u64 {
        self.numbers[RELOAD_TIME]
    }

    /// 0 for hex, or the number of ways.
    pub fn form(&self) -> u64 {
        self.numbers[FORM]
    }

    pub fn count(&self) -> u64 {
        self.numbers[COUNT]
    }

    /// How many of the places the number of tasks takes in.
    pub fn taken(&self) -> usize {
        self.count().min(TASKS_MOST as u64) as usize
    }

    pub fn places(&self) -> impl Iterator<Item = &[u64]> {
        self.numbers[FIRST_PLACE..ACCESS_COUNT].chunks_exact(PLACE)
    }

    pub fn place(&self, place: usize) -> &[u64] {
        &self.numbers[at(place, 0)..][..PLACE]
    }

    pub fn place_mut(&mut self, place: usize) -> &mut [u64] {
        &mut self.numbers[at(place, 0)..][..PLACE]
    }

    pub fn access_count(&self) -> u64 {
        self.numbers[ACCESS_COUNT]
    }

    /// How many of the accesses' places the number of accesses takes in.
    pub fn accesses_taken(&self) -> usize {
        self.access_count().min(ACCESSES_MOST as u64) as usize
    }

    pub fn access_places(&self) -> impl Iterator<Item = &[u64]> {
        self.numbers[FIRST_ACCESS..].chunks_exact(ACCESS_PLACE)
    }

    /// The accesses that the number of accesses takes in.
    pub fn accesses(&self) -> impl Iterator<Item = &[u64]> {
        self.access_places().take(self.accesses_taken())
    }

    pub fn access(&self, place: usize) -> &[u64] {
        &self.numbers[access_at(place, 0)..][..ACCESS_PLACE]
    }

    pub fn access_mut(&mut self, place: usize) -> &mut [u64] {
        &mut self.numbers[access_at(place, 0)..][..ACCESS_PLACE]
    }

    /// The value in words, a line for each place that is not empty.
    pub fn lines(&self) -> Vec<String> {
        let (sets, reload_time, form) = (self.sets(), self.reload_time(), self.form());
        let (count, accesses) = (self.count(), self.access_count());
        let of_table = format!("sets {sets}, BRT {reload_time}, form {form}");
        let mut lines = vec![format!("{of_table}, tasks {count}, accesses {accesses}")];
        let is_filled = |place: &[u64]| place.iter().any(|number| *number != 0);
        for (index, place) in self.places().enumerate() {
            if is_filled(place) {
                lines.push(format!("place {index}: {}", in_words(place)));
            }
        }
        for (index, place) in self.access_places().enumerate() {
            if is_filled(place) {
                lines.push(format!("access {index}: {}", access_in_words(place)));
            }
        }
        lines
    }
}

/// Where a number of a place stands in the list.
pub fn at(place: usize, field: usize) -> usize {
    FIRST_PLACE + place * PLACE + field
}

/// Where a number of an access stands in the list.
pub fn access_at(place: usize, field: usize) -> usize {
    FIRST_ACCESS + place * ACCESS_PLACE + field
}

/// What a number of the list belongs to.
#[derive(Clone, Copy, Debug, PartialEq, Eq)]
pub enum Kind {
    OfTable,
    /// The place of a task, and where the number stands there.
    OfTask(usize, usize),
    /// The place of an access, and where the number stands there.
    OfAccess(usize, usize),
}

pub fn kind_of(index: usize) -> Kind {
    match index {
        ACCESS_COUNT | 0..=COUNT => Kind::OfTable,
        FIRST_PLACE..=LAST_OF_TASKS => {
            let from_first = index - FIRST_PLACE;
            Kind::OfTask(from_first / PLACE, from_first % PLACE)
        }
        _ => {
            let from_first = index - FIRST_ACCESS;
            Kind::OfAccess(from_first / ACCESS_PLACE, from_first % ACCESS_PLACE)
        }
    }
}

const LAST_OF_TASKS: usize = ACCESS_COUNT - 1;

/// What a number of the place of an access is called.
pub fn access_field_name(field: usize) -> String {
    match field {
        ACCESS_TASK => "an access's task".to_string(),
        ACCESS_CEILING => "an access's ceiling".to_string(),
        ACCESS_LENGTH => "an access's length".to_string(),
        _ => format!(
            "an access's UCB level {}",
            level_of(field - ACCESS_USEFUL.start)
        ),
    }
}

/// What a number of a place is called.
pub fn field_name(field: usize) -> String {
    match field {
        EXECUTION => "C".to_string(),
        PERIOD => "T".to_string(),
        DEADLINE => "D".to_string(),
        JITTER => "J".to_string(),
        _ if NAME.contains(&field) => format!("name byte {field}"),
        _ if USEFUL.contains(&field) => format!("UCB level {}", level_of(field - USEFUL.start)),
        _ => format!("ECB word {}", field - EVICTING.start),
    }
}

/// The level of one of the words of a UCB.
pub fn level_of(word: usize) -> usize {
    word / WORDS
}

/// Whether a cache set is marked in the first four words.
pub fn is_marked(words: &[u64], set: u64) -> bool {
    words[(set / 64) as usize] >> (set % 64) & 1 == 1
}

/// In how many levels of a UCB a cache set is marked, whether or not these are the lowest.
pub fn levels_with(useful: &[u64], set: u64) -> usize {
    let levels = useful.chunks_exact(WORDS);
    levels.filter(|level| is_marked(level, set)).count()
}

fn place_of(task: &Task) -> Vec<u64> {
    let mut place = vec![0; PLACE];
    for (number, byte) in place.iter_mut().zip(task.name.bytes()) {
        *number = u64::from(byte);
    }
    place[EXECUTION] = task.execution;
    place[PERIOD] = task.period;
    place[DEADLINE] = task.deadline;
    place[JITTER] = task.jitter;
    count_up(&mut place[USEFUL], &task.useful);
    mark(&mut place[EVICTING], &task.evicting);
    place
}

fn access_place_of(access: &Access) -> Vec<u64> {
    let mut place = vec![0; ACCESS_PLACE];
    place[ACCESS_TASK] = access.task as u64;
    place[ACCESS_CEILING] = access.ceiling as u64;
    place[ACCESS_LENGTH] = access.length;
    count_up(&mut place[ACCESS_USEFUL], &access.useful);
    place
}

/// Marks each cache set in as many levels as it has useful blocks.
fn count_up(words: &mut [u64], counts: &[usize]) {
    for (level, words) in words.chunks_exact_mut(WORDS).enumerate() {
        let sets = (0..counts.len()).filter(|set| counts[*set] > level);
        mark(words, &sets.collect::<Vec<usize>>());
    }
}

fn mark(words: &mut [u64], sets: &[usize]) {
    for set in sets {
        words[set / 64] |= 1 << (set % 64);
    }
}

/// The levels of a UCB that are not empty, their words in hex.
fn levels_in_words(words: &[u64]) -> String {
    let levels = words.chunks_exact(WORDS).enumerate();
    let filled = levels.filter(|(_, level)| level.iter().any(|word| *word != 0));
    let filled = filled.map(|(level, words)| format!("level {level} {words:x?}"));
    let filled: Vec<String> = filled.collect();
    filled.join(" ")
}

/// The words of cache sets in hex, the lowest first.
fn in_words(place: &[u64]) -> String {
    let name: Vec<u8> = place[NAME].iter().map(|byte| *byte as u8).collect();
    let times = (EXECUTION..=JITTER).map(|field| format!("{} {}", field_name(field), place[field]));
    let times: Vec<String> = times.collect();
    format!(
        "name {}, {}, UCB {}, ECB {:x?}",
        name.escape_ascii(),
        times.join(", "),
        levels_in_words(&place[USEFUL]),
        &place[EVICTING]
    )
}

fn access_in_words(place: &[u64]) -> String {
    format!(
        "task {}, ceiling {}, length {}, UCB {}",
        place[ACCESS_TASK],
        place[ACCESS_CEILING],
        place[ACCESS_LENGTH],
        levels_in_words(&place[ACCESS_USEFUL])
    )
}

#[cfg(test)]
mod tests {
    use super::*;
    use crate::figures::table_m;
    use crate::model::read;

    #[test]
    fn each_number_stands_in_its_place() {
        let value = Value::of(&read(&table_m()).expect("a valid table"));
        assert_eq!(value.numbers.len(), 2_789);
        assert_eq!(value.numbers[..4], [8, 1, 0, 3]);
        let mut last = [0; 52];
        last[0] = u64::from(b'c');
        last[12..16].copy_from_slice(&[2, 60, 60, 0]);
        (last[16], last[48]) = (0x3c, 0x3c);
        assert_eq!(value.place(2), last);
        assert!(value.places().skip(3).flatten().all(|number| *number == 0));
        assert!(value.numbers[1_668..].iter().all(|number| *number == 0));
        assert_eq!(kind_of(at(31, 51)), Kind::OfTask(31, 51));
        assert_eq!(at(31, 51), 1_667);
    }

    #[test]
    fn the_accesses_stand_after_the_tasks() {
        let accesses = b"A\tc\tb\t77\t81\nA\tb\tb\t5\t00\n";
        let text = [table_m(), accesses.to_vec()].concat();
        let value = Value::of(&read(&text).expect("a valid table"));
        assert_eq!(value.numbers[1_668], 2);
        assert_eq!(value.numbers[1_669..1_676], [2, 1, 77, 0x81, 0, 0, 0]);
        assert_eq!(value.numbers[1_704..1_711], [1, 1, 5, 0, 0, 0, 0]);
        assert!(value.numbers[1_711..].iter().all(|number| *number == 0));
        assert_eq!(kind_of(1_668), Kind::OfTable);
        assert_eq!(kind_of(1_669), Kind::OfAccess(0, 0));
        assert_eq!(kind_of(access_at(31, 34)), Kind::OfAccess(31, 34));
        assert_eq!(access_at(31, 34), 2_788);
    }

    #[test]
    fn a_count_is_as_many_levels() {
        let text = b"K\t4\t1\t8\nT\ta\t1\t9\t9\t0\t0\t8012\tf\n";
        let value = Value::of(&read(text).expect("a valid table"));
        assert_eq!(value.numbers[..4], [4, 1, 8, 1]);
        let useful = &value.place(0)[USEFUL];
        let lowest: Vec<u64> = useful.iter().copied().step_by(WORDS).collect();
        assert_eq!(lowest, [0b1011, 0b1001, 8, 8, 8, 8, 8, 8]);
        let counts = (0..4).map(|set| levels_with(useful, set));
        assert_eq!(counts.collect::<Vec<usize>>(), [2, 1, 0, 8]);
    }

    #[test]
    fn a_list_that_is_too_short_has_no_value() {
        let list: Vec<u64> = (0..2_900).collect();
        assert_eq!(Value::at_start(&list[..2_788]), None);
        let value = Value::at_start(&list).expect("long enough");
        assert_eq!(value.numbers, list[..2_789]);
    }

    #[test]
    fn the_highest_set_is_the_highest_bit() {
        let mut words = [0; 4];
        mark(&mut words, &[0, 64, 255]);
        assert_eq!(words, [1, 1, 0, 1 << 63]);
        assert!(is_marked(&words, 255) && !is_marked(&words, 254));
    }
}
