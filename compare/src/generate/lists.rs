//! Lists of bounds that a partner might send for a table.

use super::{with_load, Access, Lines, TIME_MOST};
use crate::model::{Checks, Outcome, Row, Table, METHODS};
use crate::random::Random;

/// A good list for an accepted text: a line for each task, with bounds at and beside what decides about
/// them by one of the methods.
pub fn list(random: &mut Random, outcome: &Outcome) -> Lines {
    let table = outcome.table().expect("an accepted text");
    let checks = outcome.checks();
    let method = random.between(0, METHODS - 1) as usize;
    // in some lists every bound is the response, or none
    let all_alike = random.below(12);
    let lines = outcome.rows().iter().enumerate().map(|(i, row)| {
        let bound = match all_alike {
            0 => row.answers[method],
            1 => None,
            _ => bound(random, table, &checks, (i, row), method),
        };
        let bound = bound.map_or("-".to_string(), |number| number.to_string());
        vec![
            b"R".to_vec(),
            row.name.clone().into_bytes(),
            bound.into_bytes(),
        ]
    });
    lines.collect()
}

fn bound(
    random: &mut Random,
    table: &Table,
    checks: &Checks,
    (i, row): (usize, &Row),
    method: usize,
) -> Option<u64> {
    let (own, limit) = (row.answers[method], row.limit);
    let task = &table.tasks[i];
    let about = own.unwrap_or(task.execution.min(limit));
    Some(match random.below(18) {
        0 => return None,
        1..=3 => about,
        4 | 5 => about.saturating_sub(1),
        6 => about + random.between(1, 3),
        7 => random.between(about, limit.max(about)),
        8 => row.answers[random.below(6)].unwrap_or(limit),
        9 | 10 => beside_release(random, table, i, about, limit),
        11 | 12 => {
            let method = *random.pick(&[method, 0, 3, 4]) as u64;
            let holding = least_holding(checks, method.min(4), i, about, limit);
            holding - random.between(0, 1).min(holding)
        }
        13 => limit,
        14 => limit + 1,
        15 => task.deadline + random.between(0, 1),
        16 => random.between(0, limit),
        _ => *random.pick(&[0, 1, TIME_MOST - 1, TIME_MOST, TIME_MOST + 1, 999_999_999]),
    })
}

/// The last number before another activation of a task above, or the first with it.
fn beside_release(random: &mut Random, table: &Table, i: usize, about: u64, limit: u64) -> u64 {
    if i == 0 {
        return about;
    }
    let above = &table.tasks[random.below(i)];
    let number = random.between(about, limit.max(about));
    let releases = (number + above.jitter) / above.period;
    let last = (releases * above.period).saturating_sub(above.jitter);
    last.max(1) + random.between(0, 1)
}

/// A number from `start` on that is no smaller than each of its demands, or one past the limit.
fn least_holding(checks: &Checks, method: u64, i: usize, start: u64, limit: u64) -> u64 {
    let mut number = start;
    for _ in 0..100 {
        if number > limit {
            break;
        }
        match checks.demands(method, i, number).into_iter().max() {
            Some(demand) if demand > number => number = demand,
            _ => break,
        }
    }
    number.min(limit + 1)
}

/// Tables in which two accesses may block the second task: the shorter one has blocks to reload and is the first to
/// leave room, and is too long again where the longer one leaves room, after another activation of the first task.
pub fn crossing(random: &mut Random) -> super::Table {
    let period = random.between(10, 30);
    let mut table = with_load(random, 4, 1, &[period, 200, 300], 1);
    for (task, name) in table.tasks.iter_mut().zip(["first", "second", "third"]) {
        task.name = name.to_string();
        (task.execution, task.deadline, task.jitter) = (1, task.period, 0);
        (task.useful, task.evicting) = (vec![0; 4], vec![false; 4]);
    }
    table.tasks[0].evicting = vec![true; 4];
    let longer = random.between(period - 1, period);
    let shorter = random.between(longer - 7, period - 6);
    let of_third = |length, count| Access {
        task: 2,
        ceiling: 1,
        length,
        useful: vec![count; 4],
    };
    table.accesses = vec![of_third(shorter, 1), of_third(longer, 0)];
    if random.chance(50) {
        table.accesses.reverse();
    }
    table
}

#[cfg(test)]
mod tests {
    use super::*;
    use crate::model::Word;

    #[test]
    fn the_response_with_two_accesses_may_be_open() {
        let mut random = Random::new(72);
        for _ in 0..100 {
            let outcome = Outcome::of(&crossing(&mut random).text(), None);
            let own = outcome.rows()[1].answers[3];
            let words = outcome.checks().of_unions(1, own);
            assert_eq!(words, Some([Word::Open; 2]));
        }
    }
}
