//! Tables for a processor that runs the earliest deadline first: without jitter and accesses.

use super::families::{loaded, small, unions};
use super::{with_load, Table, TIME_MOST};
use crate::model::{self, Outcome};
use crate::random::Random;

/// Periods that come together again soon, and times at or beside what is just in time.
pub fn by_deadline(random: &mut Random) -> Table {
    const MULTIPLES: [u64; 10] = [6, 12, 24, 30, 36, 60, 72, 90, 120, 180];
    let multiple = *random.pick(&MULTIPLES);
    let divisors: Vec<u64> = (2..=multiple).filter(|by| multiple % by == 0).collect();
    let few = random.between(2, 4);
    let count = *random.pick(&[1, 2, few, few, few, 5, 7]);
    let periods: Vec<u64> = (0..count).map(|_| *random.pick(&divisors)).collect();
    let (sets, reload_time) = (*random.pick(&[4, 8, 12]), random.between(0, 3));
    let load = random.between(400, 1_100);
    let mut table = with_load(random, sets, reload_time, &periods, load);
    without_jitter(&mut table);
    set_deadlines(random, &mut table);
    match random.chance(75) {
        true => just(random, table),
        false => table,
    }
}

/// The same with longer times: periods of which each divides a long one.
pub fn by_long_deadline(random: &mut Random) -> Table {
    let most = *random.pick(&[1, 2, 4, 5, 8, 10, 25, 50, 1_000]);
    let multiple = TIME_MOST / most;
    let parts = [
        1, 2, 4, 5, 8, 10, 20, 25, 40, 50, 100, 125, 200, 250, 500, 1_000,
    ];
    let count = random.between(1, 6);
    let mut periods: Vec<u64> = (0..count)
        .map(|_| multiple / *random.pick(&parts))
        .collect();
    if random.chance(30) {
        periods[0] = multiple;
    }
    let (sets, reload_time) = (*random.pick(&[4, 16, 64]), random.magnitude(0, 100_000));
    let load = random.between(500, 1_050);
    let mut table = with_load(random, sets, reload_time, &periods, load);
    without_jitter(&mut table);
    set_deadlines(random, &mut table);
    table
}

/// Periods of which the least common multiple is about the greatest one, a little more, or far more.
pub fn about_last_multiple(random: &mut Random) -> Table {
    const PERIODS: [&[u64]; 12] = [
        &[250_000_000],
        &[125_000_000, 250_000_000, 50_000_000],
        &[1_953_125, 128_000],
        &[15_625, 16_000, 128_000, 1_953_125],
        &[15_810, 15_811],
        &[15_811, 15_812],
        &[15_811, 15_812, 3],
        &[62_500_001, 4],
        &[250_000_000, 3],
        &[249_999_999, 250_000_000],
        &[65_536, 65_537, 65_539],
        &[2_097_152, 19_531_250, 3, 7],
    ];
    let mut periods = random.pick(&PERIODS).to_vec();
    if random.chance(30) {
        let more = random.between(4, 32) as usize;
        while periods.len() < more {
            periods.push(random.between(TIME_MOST / 2, TIME_MOST));
        }
    }
    random.shuffle(&mut periods);
    let reload_time = random.between(0, 5);
    let mut table = with_load(random, 4, reload_time, &periods, 300);
    without_jitter(&mut table);
    for task in &mut table.tasks {
        if random.chance(70) {
            task.execution = (task.execution / 2).max(1);
        }
    }
    table
}

/// Another family's table, with what is refused or without.
pub fn of_any_family(random: &mut Random) -> Table {
    let family = *random.pick(&[small, small, loaded, unions]);
    let mut table = family(random);
    match random.below(4) {
        0 => {}
        1 => table.accesses.clear(),
        2 => {
            for task in &mut table.tasks {
                task.jitter = 0;
            }
        }
        _ => without_jitter(&mut table),
    }
    table
}

fn without_jitter(table: &mut Table) {
    table.accesses.clear();
    for task in &mut table.tasks {
        task.jitter = 0;
    }
}

/// In some tables some deadlines, or all of them, are equal; in some each is the period.
fn set_deadlines(random: &mut Random, table: &mut Table) {
    let periods = table.tasks.iter().map(|task| task.period);
    let least = periods.min().unwrap_or(1);
    match random.below(6) {
        0 => {
            let deadline = random.between((least + 1) / 2, least);
            for task in &mut table.tasks {
                task.deadline = deadline;
            }
        }
        1 => {
            for task in &mut table.tasks {
                task.deadline = task.period;
            }
        }
        2 if table.tasks.len() > 1 => {
            let (one, other) = (table.tasks[0].deadline, &mut table.tasks[1]);
            other.deadline = one.min(other.period);
        }
        _ => {}
    }
}

/// Lowers execution times until the verdict is `yes` and raises them until it is not; the last table that has
/// it, or the first that has not.
fn just(random: &mut Random, mut table: Table) -> Table {
    for _ in 0..300 {
        if has_verdict(&table) {
            break;
        }
        let at = random.below(table.tasks.len());
        let execution = &mut table.tasks[at].execution;
        if *execution == 1 {
            table.reload_time = table.reload_time.saturating_sub(1);
        } else {
            *execution -= 1;
        }
    }
    for _ in 0..300 {
        let mut more = table.clone();
        let at = random.below(table.tasks.len());
        more.tasks[at].execution += 1;
        if !has_verdict(&more) {
            return if random.chance(50) { table } else { more };
        }
        table = more;
    }
    table
}

fn has_verdict(table: &Table) -> bool {
    let read = model::read(&table.text()).expect("a valid table");
    let product = model::Product::of(&read, None);
    product.map_or(false, |product| product.verdict())
}

/// Whether a verdict is found soon: the demand bound grows at few times.
pub fn is_soon_told(outcome: &Outcome) -> bool {
    const DEADLINES_MOST: u64 = 500_000;
    let product = outcome.product();
    product.map_or(true, |product| product.deadlines() <= DEADLINES_MOST)
}
