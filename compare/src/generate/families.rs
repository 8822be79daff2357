//! The families of made-up tables.

use super::accesses::{perhaps_share, perhaps_share_little, share, take_end_lengths};
use super::{any_sets, block, ones, periods, rename, with_load};
use super::{Access, Table, Task, ACCESSES_MOST, TASKS_MOST, TIME_MOST};
use crate::model;
use crate::random::Random;

pub type Family = fn(&mut Random) -> Table;

/// The families that other texts start from.
pub const BASES: [Family; 4] = [small, loaded, unions, shared];

/// Few tasks, small numbers, all loads: every limit is small.
pub fn small(random: &mut Random) -> Table {
    let count = random.between(1, 5);
    let periods = periods(random, count, 1, 60);
    let (sets, reload_time) = (*random.pick(&[4, 8, 12]), random.between(0, 3));
    let load = random.between(100, 1_500);
    let mut table = with_load(random, sets, reload_time, &periods, load);
    perhaps_share(random, &mut table);
    table
}

/// Tables as they might be met, from light to overloaded.
pub fn loaded(random: &mut Random) -> Table {
    let count = random.between(1, 12);
    let periods = periods(random, count, 50, 200_000);
    let (sets, reload_time) = (any_sets(random), random.magnitude(0, 60));
    let load = random.between(100, 1_200);
    let mut table = with_load(random, sets, reload_time, &periods, load);
    perhaps_share(random, &mut table);
    table
}

/// As many tasks and cache sets as there may be, and long periods.
pub fn largest(random: &mut Random) -> Table {
    let periods = periods(random, TASKS_MOST, 1_000_000, TIME_MOST);
    let (reload_time, load) = (random.magnitude(0, 3_000), random.between(100, 950));
    let mut table = with_load(random, 256, reload_time, &periods, load);
    let count = *random.pick(&[0, 0, 8, ACCESSES_MOST, ACCESSES_MOST]);
    if count > 0 {
        share(random, &mut table, count);
    }
    table
}

/// Cache sets that make the two unions differ.
pub fn unions(random: &mut Random) -> Table {
    let count = random.between(3, 8);
    let periods = periods(random, count, 150, 4_000);
    let (sets, reload_time) = (any_sets(random).min(64), random.between(1, 5));
    let load = random.between(100, 600);
    let mut table = with_load(random, sets, reload_time, &periods, load);
    perhaps_share(random, &mut table);
    table
}

/// Tasks and accesses of which each makes a difference: small loads, costly reloads, and accesses in
/// every table.
pub fn shared(random: &mut Random) -> Table {
    let count = random.between(3, 7);
    let periods = periods(random, count, 100, 3_000);
    let any = any_sets(random);
    let (sets, reload_time) = (*random.pick(&[any, any.min(32)]), random.between(1, 6));
    let load = random.between(50, 500);
    let mut table = with_load(random, sets, reload_time, &periods, load);
    rename(random, &mut table);
    let count = random.between(1, 6);
    share(random, &mut table, count);
    table
}

/// Tables in which one access has the larger response by UCB-Union and another one by ECB-Union, or
/// nearly so. The highest task evicts the upper half of the cache and the next one the lower half, of
/// which the third task has some blocks. The first access has `half` other ones of these and the
/// second has `more` in the upper half, so that in blocks the first costs 2 `half` and `half`, by
/// UCB-Union and by ECB-Union, and the second `half` + `more` and twice `more`, where each of these sets
/// has one useful block.
pub fn crossed(random: &mut Random) -> Table {
    let half = random.between(1, 4) as usize;
    let (sets, reload_time) = (8 * half.max(2), random.between(1, 4));
    let periods = [400, 700, 900, 1_300].map(|period| period * random.between(1, 3));
    let mut table = with_load(random, sets, reload_time, &periods, 150);
    for task in &mut table.tasks {
        (task.deadline, task.jitter) = (task.period, 0);
        task.useful = vec![0; sets];
    }
    table.tasks[0].evicting = block(sets, sets / 2, sets / 2);
    table.tasks[1].evicting = block(sets, 0, sets / 2);
    let each = random.between(1, table.ways() as u64);
    let blocks = |start, length| {
        let ones = ones(block(sets, start, length)).into_iter();
        ones.map(|one| one * each as usize).collect()
    };
    table.tasks[2].useful = blocks(0, half);
    let more = random.between(half as u64, (sets / 2) as u64);
    let (least, most) = (more - half as u64, 2 * more - half as u64);
    let any = random.between(least, most);
    let longer = reload_time * each * *random.pick(&[least, any, any, any, most]);
    let length = random.between(1, 30);
    let of_last = |length, useful| Access {
        task: 3,
        ceiling: 2,
        length,
        useful,
    };
    table.accesses = vec![
        of_last(length + longer, blocks(half, half)),
        of_last(length, blocks(sets / 2, more as usize)),
    ];
    if random.chance(50) {
        table.accesses.reverse();
    }
    table
}

/// Every number at or beside an end of its range. Where `longest` says that no long search is
/// wanted, short periods do not stand above long deadlines.
pub fn edges(random: &mut Random, longest: u64) -> Table {
    let few = [1, 1, 2, 2, 3, 4, random.between(5, 32)];
    let count = *random.pick(&few);
    let reload_time = *random.pick(&[0, 1, 99_999, 100_000]);
    let sets = *random.pick(&[4, 8, 252, 256]);
    let mut periods: Vec<u64> = (0..count)
        .map(|_| *random.pick(&[1, 2, 10, 100_000_000, TIME_MOST - 1, TIME_MOST]))
        .collect();
    if longest < TIME_MOST {
        periods.sort_unstable_by(|one, other| other.cmp(one));
    }
    let mut table = with_load(random, sets, reload_time, &periods, 1);
    for task in &mut table.tasks {
        let period = task.period;
        let beside = [1, 2, period / 2 + 1, period - period.min(2) / 2, period];
        task.deadline = *random.pick(&beside).min(&period);
        let beside = [0, 0, 1, task.deadline - 1, task.deadline];
        task.jitter = *random.pick(&beside);
        let beside = [1, 1, 2, period, TIME_MOST - 1, TIME_MOST];
        task.execution = *random.pick(&beside);
    }
    perhaps_share(random, &mut table);
    take_end_lengths(random, &mut table);
    table
}

/// Short periods that leave little or nothing of the processor, above deadlines up to `longest`.
pub fn full(random: &mut Random, longest: u64) -> Table {
    const FAMILIES: [&[u64]; 6] = [
        &[1, 1, 1, 1, 1, 1],
        &[2, 3, 7, 43],
        &[2, 4, 8, 16, 32, 64, 128],
        &[3, 4, 6, 12, 24],
        &[5, 10, 20, 40, 100],
        &[6, 10, 15, 30, 30, 60],
    ];
    let mut periods = random.pick(&FAMILIES).to_vec();
    periods.truncate(random.between(1, periods.len() as u64) as usize);
    let above = periods.len();
    for _ in 0..random.between(1, 3) {
        periods.push(random.magnitude(longest / 2, longest));
    }
    let reload_time = *random.pick(&[0, 0, 0, 1]);
    let mut table = with_load(random, 4, reload_time, &periods, 1);
    let mut free: f64 = 1.0;
    for task in &mut table.tasks[..above] {
        let most = (free * task.period as f64).max(1.0) as u64;
        let execution = if random.chance(30) { most } else { 1 };
        task.execution = execution;
        task.jitter = if random.chance(80) { 0 } else { task.jitter };
        free -= execution as f64 / task.period as f64;
    }
    for task in &mut table.tasks[above..] {
        task.execution = random.magnitude(1, longest / 50);
        task.jitter = task.jitter.min(9);
    }
    perhaps_share_little(random, &mut table);
    table
}

/// Another family's table with one deadline moved to where a response just is or is not in time.
pub fn near_limit(random: &mut Random) -> Table {
    let base = random.pick(&BASES);
    let mut table = base(random);
    let read = model::read(&table.text()).expect("a valid table");
    let rows = model::analyse(&read, None).rows;
    for _ in 0..5 {
        let position = random.below(rows.len());
        let answers = rows[position].answers;
        if let Some(response) = *random.pick(&answers) {
            let task = &mut table.tasks[position];
            let jitter = random.between(0, 3) * random.between(0, 5);
            let limit = (response + random.between(0, 4)).saturating_sub(1);
            task.jitter = jitter;
            task.deadline = (limit + jitter).clamp(1, TIME_MOST);
            task.jitter = task.jitter.min(task.deadline);
            task.period = task.period.max(task.deadline);
            break;
        }
    }
    table
}

/// Another family's table with a task that needs, reloads aside, about as much as a figure is looked
/// for, up to two ticks more or less.
pub fn near_end(random: &mut Random) -> Table {
    let base = random.pick(&BASES);
    let mut table = base(random);
    if random.chance(60) {
        table.reload_time = 0;
    }
    let mut position = random.below(table.tasks.len());
    if position > 0 && random.chance(10) {
        // activated more than 100,000,000 times
        let first = &mut table.tasks[0];
        (first.execution, first.period, first.deadline) = (1, 2, 2);
        first.jitter = 0;
        position = 1;
    }
    let needed = random.between(TIME_MOST - 2, TIME_MOST + 2);
    let taken =
        |task: &Task| (needed + task.jitter + task.period - 1) / task.period * task.execution;
    let taken: u64 = table.tasks[..position].iter().map(taken).sum();
    if taken < needed {
        let own = needed - taken;
        let is_blocking =
            |access: &&mut Access| access.ceiling <= position && position < access.task;
        let access = table.accesses.iter_mut().find(is_blocking);
        // without an access that could take the rest the task has all of it
        let least = own.saturating_sub(TIME_MOST).max(1);
        let execution = match access {
            None => own.min(TIME_MOST),
            Some(_) => random.between(least, own.min(TIME_MOST)),
        };
        if let Some(access) = access {
            access.length = (own - execution).max(1);
        }
        table.tasks[position].execution = execution;
    }
    table
}
