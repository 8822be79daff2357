//! The plain version's verdict where the earliest deadline comes first.

use super::reading::{read, TIME_MOST};
use super::{code, Blocks, Counted, Marked, Refused, Table};

pub fn edf(text: &[u8]) -> u64 {
    match read(text).and_then(|table| in_time(&table)) {
        Err(refused) => code(refused),
        Ok(in_time) => u64::from(in_time),
    }
}

/// The line of the first task with jitter, or of the first access: a replay and the verdict have no place
/// for either.
pub fn without_jitter_and_accesses(table: &Table) -> Result<(), Refused> {
    if let Some(task) = table.tasks.iter().position(|task| task.jitter > 0) {
        return Err((21, task as u64 + 2));
    }
    if !table.accesses.is_empty() {
        return Err((22, table.tasks.len() as u64 + 2));
    }
    Ok(())
}

fn in_time(table: &Table) -> Result<bool, Refused> {
    without_jitter_and_accesses(table)?;
    let mut end = 1;
    for task in &table.tasks {
        end = end / divisor(end, task.period) * task.period;
        if end > TIME_MOST {
            return Err((23, 0));
        }
    }
    let charged: Vec<u128> = match table.ways {
        0 => charged(table, &Marked(table)),
        ways => charged(table, &Counted::new(table, ways)),
    };
    let tasks = || table.tasks.iter().zip(&charged);
    let taken: u128 = tasks()
        .map(|(task, charged)| u128::from(end / task.period) * charged)
        .sum();
    Ok(taken <= u128::from(end) && meets_all(tasks(), end))
}

/// The deadlines in their order, with what is taken up to each.
fn meets_all<'a>(tasks: impl Iterator<Item = (&'a super::Task, &'a u128)>, end: u64) -> bool {
    let mut next: Vec<(u64, u64, u128)> = tasks
        .map(|(task, charged)| (task.deadline, task.period, *charged))
        .collect();
    let mut taken = 0;
    loop {
        let deadline = next.iter().map(|next| next.0).min().unwrap_or(end);
        if deadline >= end {
            // at the end it is what all jobs take
            return true;
        }
        for (at, period, charged) in &mut next {
            if *at == deadline {
                taken += *charged;
                *at += *period;
            }
        }
        if taken > u128::from(deadline) {
            return false;
        }
    }
}

fn divisor(one: u64, other: u64) -> u64 {
    match other {
        0 => one,
        _ => divisor(other, one % other),
    }
}

fn charged(table: &Table, blocks: &impl Blocks) -> Vec<u128> {
    let of_task = |t: usize| {
        let task = &table.tasks[t];
        let others = table.tasks.iter().enumerate();
        let charges = others.filter(|(_, other)| other.deadline < task.deadline);
        let charges = charges.map(|(other, shorter)| {
            let lost = blocks.lost(blocks.useful(t), blocks.evicting(other));
            let ticks = task.deadline - shorter.deadline;
            let times = (ticks + shorter.period - 1) / shorter.period;
            u128::from(table.reload_time * u64::from(lost)) * u128::from(times)
        });
        u128::from(task.execution) + charges.sum::<u128>()
    };
    (0..table.tasks.len()).map(of_task).collect()
}
