//! Tables whose execution times may grow by about a k that is known beforehand.

use super::accesses::perhaps_share_little;
use super::families::{loaded, shared, small, unions};
use super::{block, count, periods, scattered, with_load};
use super::{Access, Table, Task, TASKS_MOST, TIME_MOST};
use crate::model::{self, Form, Row, TEXT_MOST, WAYS_MOST};
use crate::random::Random;
use std::cmp::Ordering;

/// A table in which some tasks are just in time with a k: mostly one with room for that k.
pub fn just_in_time(random: &mut Random) -> Table {
    let k = any_k(random);
    let table = match random.below(10) {
        0 => unions(random),
        1 => shared(random),
        2 | 3 => small(random),
        _ => light(random, k, (12, 300)),
    };
    bounded(random, table, k)
}

/// The same with execution times so long that each k makes another table of them.
pub fn finely_in_time(random: &mut Random) -> Table {
    let k = any_k(random);
    let table = match random.below(12) {
        0 => loaded(random),
        _ => light(random, k, (60_000, 20_000_000)),
    };
    bounded(random, table, k)
}

fn any_k(random: &mut Random) -> u64 {
    let any = random.between(1, 4_000);
    let ends = [1, 2, 999, 1_000, 1_001, 3_999, 4_000, 4_000];
    *random.pick(&[&ends[..], &[any; 5]].concat())
}

/// Few tasks that still fit on the processor after a growth by k.
fn light(random: &mut Random, k: u64, (shortest, longest): (u64, u64)) -> Table {
    let count = random.between(1, 4);
    let periods = periods(random, count, shortest, longest);
    let sets = *random.pick(&[4, 8]);
    let reload_time = random.magnitude(0, shortest / 4);
    let load = random.between(20, (900_000 / k).min(1_200));
    let mut table = with_load(random, sets, reload_time, &periods, load);
    perhaps_share_little(random, &mut table);
    table
}

/// A first task so long that a table with a larger k is refused, alone or with others below it that
/// leave it the time.
pub fn nearly_refused(random: &mut Random) -> Table {
    let count = *random.pick(&[1, 1, 2, 3]);
    let mut table = with_load(random, 4, 0, &vec![TIME_MOST; count], 1);
    for task in &mut table.tasks {
        (task.execution, task.deadline) = (1, TIME_MOST);
        task.jitter = 0;
    }
    let any = random.between(1_000, 4_000);
    let k = *random.pick(&[1_000, 1_001, any, any, 3_999, 4_000]);
    let execution = TIME_MOST * 1_000 / k;
    table.tasks[0].execution = execution - random.between(0, 1).min(execution - 1);
    table
}

/// A table whose text has as many bytes as a text may have, or some fewer, so that few execution times or
/// none may have a digit more.
pub fn nearly_too_long(random: &mut Random) -> Table {
    let spare = *random.pick(&[0, 1, 1, 2, 2, 3, 4, 6, 50]);
    as_long_as(random, TEXT_MOST - spare)
}

/// A table with counts whose text has as many bytes as a text may have.
pub fn longest_counted(random: &mut Random) -> Table {
    as_long_as(random, TEXT_MOST)
}

/// A table with counts whose text has so many bytes: tasks that have all the time there is, as many
/// accesses as there is room for, and then jitters and lengths of as many digits as are missing.
fn as_long_as(random: &mut Random, length: usize) -> Table {
    const ACCESS_LINE: usize = 275;
    let sets = 256;
    let mut table = Table {
        sets,
        reload_time: random.between(0, 1),
        form: Form::Counted(random.between(1, WAYS_MOST)),
        tasks: Vec::new(),
        accesses: Vec::new(),
    };
    let useful = |random: &mut Random, form: Form| {
        let percent = *random.pick(&[0, 0, 5, 100]);
        let marks = scattered(random, sets, percent);
        count(random, form, marks)
    };
    for index in 0..random.between(23, TASKS_MOST) {
        table.tasks.push(Task {
            name: format!("t{index}"),
            execution: *random.pick(&[1, 1, 2, 3, 9, 10]),
            period: TIME_MOST,
            deadline: TIME_MOST,
            jitter: 0,
            useful: useful(random, table.form),
            evicting: block(sets, 0, random.below(3)),
        });
    }
    while table.text().len() + ACCESS_LINE < length {
        let task = random.below(table.tasks.len());
        table.accesses.push(Access {
            task,
            ceiling: random.below(task + 1),
            length: 1,
            useful: useful(random, table.form),
        });
    }
    let missing = |table: &Table| length - table.text().len();
    let digits_more = |table: &Table| match missing(table).min(8) {
        0 => None,
        more => Some(10u64.pow(more as u32)),
    };
    for position in 0..table.tasks.len() {
        table.tasks[position].jitter = digits_more(&table).unwrap_or(0);
    }
    for place in 0..table.accesses.len() {
        table.accesses[place].length = digits_more(&table).unwrap_or(1);
    }
    assert_eq!(missing(&table), 0, "it has as many bytes as it should have");
    table
}

/// A table in which all tasks are just in time with a k by the combined method, one of them by
/// UCB-Union alone and another by ECB-Union alone.
pub fn by_either_union(random: &mut Random) -> Table {
    let any = random.between(1, 1_500);
    let k = *random.pick(&[1, any, any]);
    loop {
        let mut table = unions(random);
        allow_most(&mut table);
        let rows = rows_at(&table, k);
        let has = |order: Ordering| {
            let is_so = |row: &Row| match (row.answers[3], row.answers[4]) {
                (Some(useful), Some(evicting)) => useful.cmp(&evicting) == order,
                _ => false,
            };
            rows.iter().any(is_so)
        };
        let in_time = rows.iter().all(|row| row.answers[5].is_some());
        if in_time && has(Ordering::Less) && has(Ordering::Greater) {
            let each = table.tasks.iter_mut().zip(&rows);
            each.for_each(|(task, row)| bound(task, row, 5));
            return table;
        }
    }
}

/// Gives one task, or all of them, the deadline that they just meet with a k, and the others the
/// latest one; some that may grow by 4,000 are left room for more.
fn bounded(random: &mut Random, mut table: Table, k: u64) -> Table {
    allow_most(&mut table);
    if k == 4_000 && random.chance(50) {
        return table;
    }
    let rows = rows_at(&table, k);
    let method = random.below(6);
    let one = random.below(rows.len());
    let all = random.chance(30);
    for (position, (task, row)) in table.tasks.iter_mut().zip(&rows).enumerate() {
        if all || position == one {
            bound(task, row, method);
        }
    }
    table
}

/// Gives every task the latest deadline.
fn allow_most(table: &mut Table) {
    for task in &mut table.tasks {
        task.deadline = task.period;
    }
}

/// The answers with execution times that have grown by k.
fn rows_at(table: &Table, k: u64) -> Vec<Row> {
    let mut scaled = table.clone();
    for task in &mut scaled.tasks {
        let execution = (task.execution * k + 999) / 1_000;
        task.execution = execution.min(TIME_MOST);
    }
    let read = model::read(&scaled.text()).expect("a valid table");
    model::analyse(&read, None).rows
}

/// Gives a task the deadline that it just meets, if it meets any.
fn bound(task: &mut Task, row: &Row, method: usize) {
    if let Some(response) = row.answers[method] {
        task.deadline = response + task.jitter;
    }
}
