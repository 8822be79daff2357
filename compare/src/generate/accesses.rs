//! Accesses of made-up tables.

use super::{any_block, count, scattered, Access, Table, TIME_MOST};
use crate::model::Form;
use crate::random::Random;

pub const ACCESSES_MOST: u64 = 32;

/// Gives about half of the tables accesses, mostly few.
pub fn perhaps_share(random: &mut Random, table: &mut Table) {
    if random.chance(50) {
        let some = random.between(1, 8);
        let many = random.between(9, ACCESSES_MOST);
        let counts = [1, 1, 2, 2, 3, 4, some, some, some, many, ACCESSES_MOST];
        let count = *random.pick(&counts);
        share(random, table, count);
    }
}

/// The same with very few.
pub fn perhaps_share_little(random: &mut Random, table: &mut Table) {
    if random.chance(50) {
        let count = random.between(1, 3);
        share(random, table, count);
    }
}

/// Gives the table `count` accesses, or as many as there is room for.
pub fn share(random: &mut Random, table: &mut Table, count: u64) {
    // all of one task, with the same ceiling, or most as they come
    let alike = random.chance(15);
    for index in 0..count as usize {
        if !table.has_room_for(table.tasks.len(), index + 1) {
            break;
        }
        let access = match table.accesses.last() {
            Some(last) if alike => exchanged(random, table, last),
            Some(last) if random.chance(40) => like(random, table, last),
            _ => any(random, table),
        };
        table.accesses.push(access);
    }
}

/// An access of any task, with any ceiling.
pub fn any(random: &mut Random, table: &Table) -> Access {
    let last = table.tasks.len() - 1;
    let any = random.below(last + 1);
    let task = *random.pick(&[last, any]);
    let ceiling = any_ceiling(random, task);
    Access {
        task,
        ceiling,
        length: any_length(random, table, ceiling),
        useful: any_useful(random, table, task),
    }
}

/// The task itself, the one just above, the highest, or any between.
fn any_ceiling(random: &mut Random, task: usize) -> usize {
    let any = random.below(task + 1);
    *random.pick(&[any, any, any, task, task.saturating_sub(1), 0])
}

/// Small and large, mostly so that a task at the ceiling may still be in time.
fn any_length(random: &mut Random, table: &Table, ceiling: usize) -> u64 {
    let task = &table.tasks[ceiling];
    let limit = (task.deadline - task.jitter).max(1);
    match random.below(40) {
        0 => random.between(TIME_MOST - 2, TIME_MOST),
        1 => random.magnitude(1, TIME_MOST),
        2..=9 => random.between(1, 3),
        10..=15 => random.between(1, limit),
        _ => random.between(1, limit / 6 + 1),
    }
}

/// None or all sets, some of the task's or all of them, only such as are useful to no task, or any; or as
/// many blocks as the tasks leave room for, or one more.
fn any_useful(random: &mut Random, table: &Table, task: usize) -> Vec<usize> {
    let sets = table.sets;
    let of_task = &table.tasks[task].useful;
    let marks = match random.below(9) {
        0 => vec![false; sets],
        1 => vec![true; sets],
        2 => return of_task.clone(),
        3 => of_task
            .iter()
            .map(|count| *count > 0 && random.chance(60))
            .collect(),
        4 => {
            let to_any = |set: usize| table.tasks.iter().any(|task| task.useful[set] > 0);
            (0..sets).map(|set| !to_any(set)).collect()
        }
        5 => any_block(random, sets),
        6 if table.form != Form::Hex => {
            let (ways, more) = (table.ways(), random.below(2));
            let of_all = |set: usize| table.tasks.iter().map(|task| task.useful[set]).sum();
            let left = |taken: usize| (ways.saturating_sub(taken) + more).min(ways);
            return (0..sets).map(|set| left(of_all(set))).collect();
        }
        _ => {
            let percent = *random.pick(&[10, 40, 80]);
            scattered(random, sets, percent)
        }
    };
    count(random, table.form, marks)
}

/// An access like another one: that of another task, with another ceiling, or with other marks.
fn like(random: &mut Random, table: &Table, other: &Access) -> Access {
    let mut access = other.clone();
    match random.below(5) {
        0 | 1 => {
            let last = table.tasks.len() as u64 - 1;
            access.task = random.between(access.ceiling as u64, last) as usize;
        }
        2 => access.ceiling = any_ceiling(random, access.task),
        _ => return exchanged(random, table, other),
    }
    access
}

/// The same again, one with as many blocks elsewhere, or one that has more to reload and is shorter by
/// as much as one or two pre-emptions make of that.
fn exchanged(random: &mut Random, table: &Table, other: &Access) -> Access {
    let mut access = other.clone();
    match random.below(4) {
        0 => {}
        1 => {
            access.useful.rotate_left(random.below(table.sets));
        }
        _ => {
            access.useful = any_useful(random, table, access.task);
            let more = blocks(&access.useful).saturating_sub(blocks(&other.useful)) as u64;
            let reloads = random.between(1, 2) * more * table.reload_time;
            access.length = access.length.saturating_sub(reloads).max(1);
        }
    }
    access
}

fn blocks(counts: &[usize]) -> usize {
    counts.iter().sum()
}

/// The lengths of all accesses at or beside an end of their range.
pub fn take_end_lengths(random: &mut Random, table: &mut Table) {
    for access in &mut table.accesses {
        access.length = *random.pick(&[1, 1, 1, 2, TIME_MOST - 1, TIME_MOST]);
    }
}
