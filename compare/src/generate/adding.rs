//! Tables with a task line more.

use super::accesses::perhaps_share;
use super::{any_block, any_name, any_sets, count, periods, scattered, with_load};
use super::{Table, Task, TASKS_MOST, TIME_MOST};
use crate::model::{Refusal, TEXT_MOST};
use crate::random::Random;

/// A table with a line more at a position: of a fresh name, or rarely of one that is there. And the refusal
/// that it meets then, if any.
pub fn with_line(random: &mut Random, table: &Table, place: usize) -> (Table, Option<Refusal>) {
    let mut line = any_line(random, table);
    let has_room = (table.tasks.len() as u64) < TASKS_MOST;
    let twice = if has_room && random.chance(1) {
        Some(random.below(table.tasks.len()))
    } else {
        None
    };
    if let Some(position) = twice {
        line.name = table.tasks[position].name.clone();
    }
    let mut longer = table.clone();
    longer.tasks.insert(place, line);
    for access in &mut longer.accesses {
        for position in [&mut access.task, &mut access.ceiling] {
            *position += usize::from(*position >= place);
        }
    }
    let line_of = |position: usize| position as u64 + 2;
    let refusal = if longer.text().len() > TEXT_MOST {
        Some(Refusal::new(1, 0))
    } else if !has_room {
        Some(Refusal::new(10, TASKS_MOST + 2))
    } else {
        // of the two lines the lower one is told
        twice.map(|position| Refusal::new(9, line_of((position + 1).max(place))))
    };
    (longer, refusal)
}

/// A line with a name that no task has: light or heavy, with a period like those of the others or any that
/// makes no search of theirs long, and with cache sets of its own or another task's.
pub fn any_line(random: &mut Random, table: &Table) -> Task {
    let like = random.pick(&table.tasks).clone();
    let deadlines = table.tasks.iter().map(|task| task.deadline);
    let least = (deadlines.max().unwrap_or(1) / 2_000).max(1);
    let period = match random.below(4) {
        0 => like.period,
        1 => random.magnitude(least, TIME_MOST),
        _ => random.between((like.period / 2).max(1), 2 * like.period),
    };
    let period = period.clamp(least, TIME_MOST);
    let deadline = match random.chance(60) {
        true => period,
        false => random.between((period / 2).max(1), period),
    };
    let jitter = match random.below(10) {
        0..=6 => 0,
        7 | 8 => random.between(0, deadline / 3),
        _ => random.between(0, deadline),
    };
    let thousandths = *random.pick(&[1, 5, 20, 60, 200, 900]);
    let execution = period * random.between(0, thousandths) / 1_000;
    let sets = table.sets;
    let marks = |random: &mut Random| match random.chance(40) {
        true => any_block(random, sets),
        false => {
            let percent = *random.pick(&[0, 10, 40, 80, 100]);
            scattered(random, sets, percent)
        }
    };
    let useful = marks(random);
    Task {
        name: fresh_name(random, table),
        execution: execution.max(1),
        period,
        deadline,
        jitter,
        useful: match random.chance(20) {
            true => like.useful,
            false => count(random, table.form, useful),
        },
        evicting: match random.chance(20) {
            true => like.evicting,
            false => marks(random),
        },
    }
}

pub fn fresh_name(random: &mut Random, table: &Table) -> String {
    loop {
        let length = random.between(1, 12);
        let name = any_name(random, length);
        if table.tasks.iter().all(|task| task.name != name) {
            return name;
        }
    }
}

/// As many tasks as there may be, or one fewer, and mostly few cache sets.
pub fn nearly_full(random: &mut Random) -> Table {
    let count = TASKS_MOST - random.between(0, 1);
    let periods = periods(random, count, 1_000, 100_000);
    let sets = any_sets(random).min(32);
    let (reload_time, load) = (random.between(0, 5), random.between(50, 500));
    let mut table = with_load(random, sets, reload_time, &periods, load);
    perhaps_share(random, &mut table);
    table
}

#[cfg(test)]
mod tests {
    use super::*;
    use crate::generate::{nearly_too_long, Family, BASES};
    use crate::model::read;

    #[test]
    fn a_line_more_is_refused_only_as_it_is_meant() {
        let mut random = Random::new(61);
        let families = [&BASES[..], &[nearly_full as Family, nearly_too_long]].concat();
        for round in 0..600 {
            let table = families[round % families.len()](&mut random);
            let place = random.below(table.tasks.len() + 1);
            let (longer, meant) = with_line(&mut random, &table, place);
            assert_eq!(read(&longer.text()).err(), meant);
            let mut lines = longer.lines();
            lines.remove(place + 1);
            assert_eq!(lines, table.lines());
        }
    }
}
