//! Tables for the benchmark: those of the published evaluation, and those that are hard to answer.

use super::{block, names, ones, Access, Table, Task, TASKS_MOST, TIME_MOST};
use crate::model::Form;
use crate::random::Random;

/// The base configuration of the published evaluation, with `tasks` tasks and ticks of a
/// microsecond divided by `fineness`: periods of 5 to 500 ms, a reload time of 8 microseconds, a
/// cache utilisation of 10 and a reuse factor of 0.3; deadline-monotonic order.
pub fn published(random: &mut Random, tasks: usize, fineness: f64, utilisation: f64) -> Table {
    let sets = 256;
    let shares = uunifast(random, tasks, utilisation);
    let cache_shares = uunifast(random, tasks, 10.0);
    let names = names(random, tasks as u64);
    let parts = names.into_iter().zip(shares.into_iter().zip(cache_shares));
    let tasks = parts.map(|(name, (share, cache_share))| {
        let period = (5_000.0 * fineness * 100f64.powf(random.unit())) as u64;
        let period = period.clamp(1, TIME_MOST);
        let used = ((cache_share * sets as f64) as usize).min(sets);
        let start = random.below(sets);
        let reused = random.below(used * 3 / 10 + 1);
        Task {
            name,
            execution: ((share * period as f64) as u64).clamp(1, TIME_MOST),
            period,
            deadline: period,
            jitter: 0,
            useful: ones(block(sets, start, reused)),
            evicting: block(sets, start, used),
        }
    });
    let mut tasks: Vec<Task> = tasks.collect();
    tasks.sort_by_key(|task| task.deadline);
    Table {
        sets,
        reload_time: (8.0 * fineness) as u64,
        form: Form::Hex,
        tasks,
        accesses: Vec::new(),
    }
}

/// Gives a table of the published evaluation `count` accesses, spread over its tasks, each with any
/// ceiling at or above its task, no longer than the execution of the task at the ceiling, and with as
/// many useful sets as that has.
pub fn share_as_published(random: &mut Random, table: &mut Table, count: usize) {
    let tasks = table.tasks.len();
    for index in 0..count {
        let task = (index * tasks / count + tasks - 1) % tasks;
        let ceiling = random.below(task + 1);
        let shared = &table.tasks[ceiling];
        let length = random.between(1, shared.execution);
        let useful = shared.useful.iter().filter(|count| **count > 0).count();
        let access = Access {
            task,
            ceiling,
            length,
            useful: ones(block(table.sets, random.below(table.sets), useful)),
        };
        table.accesses.push(access);
    }
}

/// Gives a table so many ways, and each of its useful sets a block or more.
pub fn count_as_published(random: &mut Random, table: &mut Table, ways: u64) {
    table.form = Form::Counted(ways);
    let of_tasks = table.tasks.iter_mut().map(|task| &mut task.useful);
    let of_accesses = table.accesses.iter_mut().map(|access| &mut access.useful);
    for count in of_tasks.chain(of_accesses).flatten() {
        if *count > 0 {
            *count = random.between(1, ways) as usize;
        }
    }
}

/// Random shares that add up to `total`, all equally likely.
fn uunifast(random: &mut Random, count: usize, total: f64) -> Vec<f64> {
    let mut shares = Vec::new();
    let mut rest = total;
    for left in (1..count).rev() {
        let next = rest * random.unit().powf(1.0 / left as f64);
        shares.push(rest - next);
        rest = next;
    }
    shares.push(rest);
    shares
}

/// `above` tasks that each take the whole processor, and others with `longest` ticks of time.
pub fn no_tick_left(above: usize, longest: u64) -> Table {
    let mut periods = vec![1; above];
    periods.resize(TASKS_MOST as usize, longest);
    of_ones(&periods)
}

/// Tasks that together leave one tick in 3,263,442, above `below` others with `longest` ticks of
/// time.
pub fn hardly_a_tick_left(below: usize, longest: u64) -> Table {
    let mut periods = vec![2, 3, 7, 43, 1_807];
    periods.resize(5 + below, longest);
    of_ones(&periods)
}

/// The same above a task with a C of 1 that accesses of these lengths may block.
pub fn hardly_a_tick_left_if_blocked(lengths: &[u64], longest: u64) -> Table {
    let mut table = hardly_a_tick_left(2, longest);
    let accesses = lengths.iter().map(|length| Access {
        task: 6,
        ceiling: 5,
        length: *length,
        useful: vec![0; table.sets],
    });
    table.accesses = accesses.collect();
    table
}

fn of_ones(periods: &[u64]) -> Table {
    let one = |(index, period): (usize, &u64)| Task {
        name: format!("t{index}"),
        execution: 1,
        period: *period,
        deadline: *period,
        jitter: 0,
        useful: vec![0; 256],
        evicting: vec![false; 256],
    };
    Table {
        sets: 256,
        reload_time: 8,
        form: Form::Hex,
        tasks: periods.iter().enumerate().map(one).collect(),
        accesses: Vec::new(),
    }
}
