//! What tables with counts have to reach.

use super::Names;
use crate::model::{Form, Table};

/// Of a set that a task evicts: what the tasks that it may affect have there together, what an access
/// that it may pre-empt has, and the ways.
type OfSum = (&'static str, fn(Sum) -> bool);

#[derive(Clone, Copy)]
struct Sum {
    of_tasks: usize,
    /// How many tasks have something.
    tasks: usize,
    of_access: usize,
    ways: usize,
}

const OF_SUM: [OfSum; 7] = [
    ("several below the cap", |sum| {
        sum.tasks > 1 && sum.of_tasks < sum.ways
    }),
    ("several at the cap", |sum| {
        sum.tasks > 1 && sum.of_tasks == sum.ways
    }),
    ("several one above the cap", |sum| {
        sum.tasks > 1 && sum.of_tasks == sum.ways + 1
    }),
    ("several far above the cap", |sum| {
        sum.of_tasks > 2 * sum.ways
    }),
    ("an access up to the cap", |sum| {
        sum.of_access > 0 && sum.of_tasks > 0 && sum.of_access + sum.of_tasks == sum.ways
    }),
    ("an access from below the cap past it", |sum| {
        sum.of_tasks > 0 && sum.of_tasks < sum.ways && sum.of_tasks + sum.of_access > sum.ways
    }),
    ("an access from the cap on", |sum| {
        sum.of_access > 0 && sum.of_tasks == sum.ways
    }),
];

/// Two that have something have at least as many as two ways.
const IMPOSSIBLE: [(&str, usize); 5] = [
    ("several below the cap", 1),
    ("several below the cap", 2),
    ("several at the cap", 1),
    ("an access up to the cap", 1),
    ("an access from below the cap past it", 1),
];

/// Beside these the counts from 0 to 8 of tasks and of accesses, and the numbers of ways.
const FURTHER: [&str; 3] = ["4 sets", "256 sets", "hex"];

pub fn all() -> Names {
    let mut names: Names = FURTHER.into_iter().map(full).collect();
    names.extend((1..=8).map(of_ways));
    names.extend(
        (0..=8).flat_map(|count| [of_count("a task", count), of_count("an access", count)]),
    );
    let sums = OF_SUM
        .iter()
        .flat_map(|class| [1, 2, 8].map(|ways| (class.0, ways)));
    let possible = sums.filter(|sum| !IMPOSSIBLE.contains(sum));
    names.extend(possible.map(|(name, ways)| of_sum(name, ways)));
    names
}

pub fn reached_by_table(table: &Table) -> Names {
    let ways = match table.form {
        Form::Hex => return Names::from([full("hex")]),
        Form::Counted(ways) => ways,
    };
    let mut names = Names::from([of_ways(ways), full(&format!("{} sets", table.sets))]);
    let of_tasks = table.tasks.iter().flat_map(|task| &task.useful);
    names.extend(of_tasks.map(|count| of_count("a task", *count)));
    let of_accesses = table.accesses.iter().flat_map(|access| &access.useful);
    names.extend(of_accesses.map(|count| of_count("an access", *count)));
    names.extend(sums_of(table));
    names
}

/// With the last task, or with the first access of one below the middle.
fn sums_of(table: &Table) -> Names {
    let last = table.tasks.len() - 1;
    let i = last / 2 + 1;
    let may_block = |access: &&crate::model::Access| access.ceiling <= i && i < access.task;
    let access = table.accesses.iter().find(may_block);
    let mut names = Names::new();
    for j in 0..last {
        let with_access = access.filter(|access| j < access.ceiling && j < i);
        let end = if with_access.is_some() { i } else { last };
        for set in &table.tasks[j].evicting {
            let counts = table.tasks[j + 1..=end]
                .iter()
                .map(|task| task.useful[*set]);
            let sum = Sum {
                of_tasks: counts.clone().sum(),
                tasks: counts.filter(|count| *count > 0).count(),
                of_access: with_access.map_or(0, |access| access.useful[*set]),
                ways: table.form.ways(),
            };
            let classes = OF_SUM.iter().filter(|class| class.1(sum));
            names.extend(classes.map(|class| of_sum(class.0, sum.ways)));
        }
    }
    names
}

fn of_ways(ways: u64) -> String {
    full(&format!("ways {ways}"))
}

fn of_count(whose: &str, count: usize) -> String {
    full(&format!("{whose} with a count of {count}"))
}

fn of_sum(name: &str, ways: usize) -> String {
    full(&format!("{name}, of {ways}"))
}

fn full(name: &str) -> String {
    format!("counts: {name}")
}
