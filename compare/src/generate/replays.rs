//! Tables that are replayed tick by tick: without jitter and accesses.

use super::{periods, with_load, Table};
use crate::model;
use crate::random::Random;

/// Short periods, and often a deadline that is just met or missed.
pub fn replayed(random: &mut Random) -> Table {
    let few = random.between(2, 5);
    let count = *random.pick(&[1, few, few, few, 8]);
    let periods = periods(random, count, 1, 60);
    let reload_time = random.between(0, 2);
    let load = random.between(300, 1_300);
    let mut table = with_load(random, 4, reload_time, &periods, load);
    finish(random, &mut table);
    table
}

/// The same with long deadlines, up to the longest and past it.
pub fn long_replayed(random: &mut Random) -> Table {
    let count = random.between(1, 6);
    let mut periods = periods(random, count, 500, 300_000);
    if random.chance(70) {
        let last = periods.len() - 1;
        periods[last] = random.between(100_002, 400_000);
    }
    let load = random.between(300, 1_050);
    let mut table = with_load(random, 4, 1, &periods, load);
    finish(random, &mut table);
    for task in &mut table.tasks {
        if task.period > 100_001 {
            let any = random.between(1, task.period);
            task.deadline = *random.pick(&[99_999, 100_000, 100_000, 100_001, any]);
        }
    }
    if random.chance(15) {
        // a job that takes all of the time, or a tick more
        let task = &mut table.tasks[0];
        (task.period, task.deadline) = (250_000_000, 100_000);
        task.execution = random.between(99_999, 100_001);
    }
    table
}

/// A long job at the top, so that the next task still has work left when it is released again, and tasks below
/// that are in time nevertheless.
pub fn keeping_work(random: &mut Random) -> Table {
    let short = random.between(3, 12);
    let execution = random.between(1, short / 2);
    let above = random.between(short + 1 - execution, 2 * short);
    let periods = [
        above * random.between(2, 5),
        short,
        short * random.between(5, 20),
        short * random.between(10, 30),
    ];
    let count = random.between(3, 4) as usize;
    let mut table = with_load(random, 4, 0, &periods[..count], 10);
    table.accesses.clear();
    for task in &mut table.tasks {
        (task.jitter, task.deadline) = (0, task.period);
    }
    table.tasks[0].execution = above;
    table.tasks[1].execution = execution;
    table.tasks[2].execution = random.between(1, 3);
    table
}

fn finish(random: &mut Random, table: &mut Table) {
    table.accesses.clear();
    for task in &mut table.tasks {
        task.jitter = 0;
        if random.chance(40) {
            task.deadline = task.period;
        }
    }
    if random.chance(60) {
        let read = model::read(&table.text()).expect("a valid table");
        let rows = model::analyse(&read, None).rows;
        let at = random.below(rows.len());
        if let Some(response) = rows[at].answers[0] {
            let deadline = response - random.between(0, 1);
            table.tasks[at].deadline = deadline.max(1);
        }
    }
}
