//! The plain version's writing of tables.

use super::reading::{
    are_too_high, in_order, in_range, is_cache, is_length, is_name, read, TEXT_MOST, WAYS_MOST,
};
use super::{code, give, Access, Counts, Table, Task, Words, ACCESSES_MOST, TASKS_MOST};
use std::fmt::{Result, Write};

/// How many numbers of a value belong to the whole table, how many to each place of a task and how
/// many to each place of an access. Before the accesses stands their number.
const OF_TABLE: usize = 4;
const OF_PLACE: usize = 12 + 4 + OF_USEFUL + 4;
const OF_ACCESS: usize = 3 + OF_USEFUL;
const OF_TASKS: usize = OF_TABLE + TASKS_MOST * OF_PLACE;
/// How many numbers a UCB has: four words for each of eight levels.
const OF_USEFUL: usize = 32;
const NUMBERS: usize = OF_TASKS + 1 + ACCESSES_MOST * OF_ACCESS;

pub fn rewrite(text: &[u8], out: &mut [u8]) -> u64 {
    match read(text) {
        Err(refused) => code(refused),
        Ok(table) => write(&table, out),
    }
}

/// The table value that a list of numbers says.
pub fn write_value(numbers: &[u64], out: &mut [u8]) -> u64 {
    match numbers.get(..NUMBERS) {
        None => 0,
        Some(numbers) => match table_of(numbers).map(|table| text_of(&table)) {
            Some(text) if text.len() <= TEXT_MOST => give(text.as_bytes(), out),
            _ => code((25, 0)),
        },
    }
}

pub fn write(table: &Table, out: &mut [u8]) -> u64 {
    give(text_of(table).as_bytes(), out)
}

fn text_of(table: &Table) -> String {
    let mut text = String::with_capacity(TEXT_MOST);
    spell(table, &mut text).expect("memory takes every byte");
    text
}

/// Adds the table's text to what is there.
pub fn spell(table: &Table, to: &mut String) -> Result {
    write!(to, "K\t{}\t{}", table.sets, table.reload_time)?;
    match table.ways {
        0 => to.push('\n'),
        ways => writeln!(to, "\t{ways}")?,
    }
    for (place, task) in table.tasks.iter().enumerate() {
        let name = name_of(task);
        write!(
            to,
            "T\t{name}\t{}\t{}\t{}\t{}\t0",
            task.execution, task.period, task.deadline, task.jitter
        )?;
        match table.counts.get(place) {
            None => spell_sets(table.sets, task.useful, to)?,
            Some(counts) => spell_counts(table.sets, counts, to),
        }
        spell_sets(table.sets, task.evicting, to)?;
        to.push('\n');
    }
    for access in &table.accesses {
        let (task, ceiling) = (&table.tasks[access.task], &table.tasks[access.ceiling]);
        let (task, ceiling) = (name_of(task), name_of(ceiling));
        write!(to, "A\t{task}\t{ceiling}\t{}", access.length)?;
        match table.counts.get(access.counts) {
            None => spell_sets(table.sets, access.useful, to)?,
            Some(counts) => spell_counts(table.sets, counts, to),
        }
        to.push('\n');
    }
    Ok(())
}

fn name_of(task: &Task) -> &str {
    std::str::from_utf8(task.name()).expect("a name is ASCII")
}

/// A tab and a digit for each four sets.
fn spell_sets(sets: usize, words: Words, to: &mut String) -> Result {
    let [lowest, low, high, highest] = words.map(u128::from);
    let (lower, higher) = (low << 64 | lowest, highest << 64 | high);
    let digits = sets / 4;
    match digits.checked_sub(32) {
        None | Some(0) => write!(to, "\t{lower:0digits$x}"),
        Some(digits) => write!(to, "\t{higher:0digits$x}{lower:032x}"),
    }
}

/// A tab and a digit for each set.
fn spell_counts(sets: usize, counts: &Counts, to: &mut String) {
    to.push('\t');
    let counts = counts[..sets].iter().rev();
    to.extend(counts.map(|count| char::from(b'0' + count)));
}

// ---- values

/// The table of a value, if a text gives it.
fn table_of(numbers: &[u64]) -> Option<Table> {
    let (of_tasks, of_accesses) = numbers.split_at(OF_TASKS);
    let (of_table, places) = of_tasks.split_at(OF_TABLE);
    let [sets, reload_time, form, count] = [of_table[0], of_table[1], of_table[2], of_table[3]];
    if !is_cache(sets, reload_time) || form > WAYS_MOST || count == 0 {
        return None;
    }
    let mut table = Table {
        sets: sets as usize,
        reload_time,
        ways: form as u8,
        tasks: Vec::with_capacity(TASKS_MOST),
        accesses: Vec::new(),
        counts: Vec::new(),
    };
    for place in taken(places, count, OF_PLACE)? {
        let (useful, counts) = useful_of(&place[16..48], &table)?;
        let task = task_of(place, useful, table.sets)?;
        table.counts.extend(counts);
        if table.position(task.name()).is_some() {
            return None;
        }
        table.tasks.push(task);
    }
    for place in taken(&of_accesses[1..], of_accesses[0], OF_ACCESS)? {
        let (useful, counts) = useful_of(&place[3..], &table)?;
        table.accesses.push(access_of(place, useful, &table)?);
        table.counts.extend(counts);
    }
    Some(table)
}

/// The first `count` places, if there are so many and the others are empty.
fn taken(places: &[u64], count: u64, of_place: usize) -> Option<std::slice::ChunksExact<'_, u64>> {
    let end = usize::try_from(count).ok()?.checked_mul(of_place)?;
    let free = places.get(end..)?;
    let empty = free.iter().all(|number| *number == 0);
    empty.then(|| places[..end].chunks_exact(of_place))
}

/// The marks or the counts of a UCB, if its levels fit the table and each lies in the one below.
fn useful_of(levels: &[u64], table: &Table) -> Option<(Words, Option<Counts>)> {
    let mut below = [u64::MAX; 4];
    let mut counts = [0; 256];
    for level in levels.chunks_exact(4) {
        let words: Words = level.try_into().ok()?;
        let inside = words
            .iter()
            .zip(&below)
            .all(|(word, below)| word & !below == 0);
        if !inside || !fits(words, table.sets) {
            return None;
        }
        for (set, count) in counts.iter_mut().enumerate() {
            *count += (words[set / 64] >> (set % 64) & 1) as u8;
        }
        below = words;
    }
    let lowest = levels[..4].try_into().ok()?;
    match table.ways {
        0 => (levels[4..].iter().all(|word| *word == 0)).then_some((lowest, None)),
        ways => (!are_too_high(&Some(counts), ways)).then_some(([0; 4], Some(counts))),
    }
}

fn access_of(place: &[u64], useful: Words, table: &Table) -> Option<Access> {
    let [task, ceiling, length] = [place[0], place[1], place[2]];
    let good = task < table.tasks.len() as u64 && ceiling <= task && is_length(length);
    good.then_some(Access {
        task: task as usize,
        ceiling: ceiling as usize,
        length,
        useful,
        counts: table.counts.len(),
    })
}

fn task_of(place: &[u64], useful: Words, sets: usize) -> Option<Task> {
    let mut name = [0; 12];
    for (byte, number) in name.iter_mut().zip(place) {
        *byte = u8::try_from(*number).ok()?;
    }
    let end = name.iter().position(|byte| *byte == 0).unwrap_or(12);
    let (name, filling) = name.split_at(end);
    let times = place[12..16].try_into().ok()?;
    let evicting = place[48..52].try_into().ok()?;
    let good = is_name(name)
        && filling.iter().all(|byte| *byte == 0)
        && in_range(times)
        && in_order(times)
        && fits(evicting, sets);
    good.then(|| Task::new(name, times, useful, evicting))
}

/// Whether only sets that the cache has are marked.
fn fits(words: Words, sets: usize) -> bool {
    words.iter().zip((0..).step_by(64)).all(|(word, first)| {
        let own = sets.saturating_sub(first);
        own >= 64 || word >> own == 0
    })
}

#[cfg(test)]
mod tests {
    use super::*;

    #[test]
    fn marks_are_held_against_the_number_of_sets() {
        for set in 0..256 {
            let mut words = [0; 4];
            words[set / 64] = 1 << (set % 64);
            for sets in (4..=256).step_by(4) {
                assert_eq!(fits(words, sets), set < sets, "set {set} of {sets}");
            }
        }
    }

    #[test]
    fn each_four_sets_have_a_digit() {
        for sets in (4..=256).step_by(4) {
            let mut words = [0; 4];
            words[(sets - 1) / 64] = 1 << ((sets - 1) % 64);
            words[0] |= 2;
            let mut field = String::new();
            spell_sets(sets, words, &mut field).expect("memory takes every byte");
            let zeros = "0".repeat((sets / 4).saturating_sub(2));
            let expected = match sets {
                4 => "\ta".to_string(),
                _ => format!("\t8{zeros}2"),
            };
            assert_eq!(field, expected);
        }
    }
}
