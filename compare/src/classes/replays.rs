//! What replays have to reach.

use super::Names;
use crate::model::{Outcome, Replay, Table, REPLAYED_MOST};

/// A replay of the first job of a task.
struct Seen<'a> {
    table: &'a Table,
    position: usize,
    replay: Replay,
}

impl Seen<'_> {
    fn has_ended(&self) -> bool {
        self.replay.end.is_some()
    }

    fn deadline(&self) -> u64 {
        self.table.tasks[self.position].deadline
    }

    fn is_lowest(&self) -> bool {
        self.position + 1 == self.table.tasks.len()
    }
}

type OfSeen = (&'static str, fn(&Seen) -> bool);

const OF_SEEN: [OfSeen; 18] = [
    ("ended", |seen| seen.has_ended()),
    ("unfinished at its deadline", |seen| !seen.has_ended()),
    ("ended with the first tick", |seen| {
        seen.replay.end == Some(1)
    }),
    ("ended at its deadline", |seen| {
        seen.replay.end == Some(seen.deadline())
    }),
    ("ended a tick before its deadline", |seen| {
        seen.replay
            .end
            .map_or(false, |end| end + 1 == seen.deadline())
    }),
    ("unfinished by a tick", |seen| seen.replay.left == 1),
    ("unfinished and not begun", |seen| {
        seen.replay.left == seen.table.tasks[seen.position].execution
    }),
    ("the highest of several tasks", |seen| {
        seen.position == 0 && !seen.is_lowest()
    }),
    ("the lowest of several tasks", |seen| {
        seen.position > 0 && seen.is_lowest()
    }),
    ("one between", |seen| seen.position > 0 && !seen.is_lowest()),
    ("ended, pre-empted once", |seen| {
        seen.has_ended() && seen.replay.preempted == 1
    }),
    ("ended, pre-empted several times", |seen| {
        seen.has_ended() && seen.replay.preempted > 1
    }),
    ("ended, and had to wait without being pre-empted", |seen| {
        seen.has_ended() && seen.replay.preempted == 0 && seen.replay.jobs_above > 0
    }),
    ("ended, with work kept over a period above", |seen| {
        seen.has_ended() && seen.replay.keeps_work
    }),
    ("unfinished, with work kept over a period above", |seen| {
        !seen.has_ended() && seen.replay.keeps_work
    }),
    ("ended, after more than 20 jobs above", |seen| {
        seen.has_ended() && seen.replay.jobs_above > 20
    }),
    ("a deadline of 100,000", |seen| {
        seen.deadline() == REPLAYED_MOST
    }),
    ("another deadline above 100,000", |seen| {
        let mut tasks = seen.table.tasks.iter();
        tasks.any(|task| task.deadline > REPLAYED_MOST)
    }),
];

const LONGER: &str = "24 for a deadline of 100,001";
const LATE: &str = "ended at 100,000";
const BESIDE_REFUSED: &str = "a refusal of the text before 21, 22, 13 and 24";

pub fn all() -> Names {
    let mut names: Names = OF_SEEN.iter().map(|class| full(class.0)).collect();
    names.extend([LONGER, LATE, BESIDE_REFUSED].map(full));
    names
}

/// By a text that was asked for the replays of all its tasks.
pub fn reached(outcome: &Outcome) -> Names {
    let table = match outcome.table() {
        Some(table) => table,
        None => return Names::from([full(BESIDE_REFUSED)]),
    };
    let mut names = Names::new();
    for position in 0..=table.tasks.len() {
        match outcome.replay(position as u64) {
            Ok(replay) => {
                if replay.end == Some(REPLAYED_MOST) {
                    names.insert(full(LATE));
                }
                let seen = Seen {
                    table,
                    position,
                    replay,
                };
                let reached = OF_SEEN.iter().filter(|class| class.1(&seen));
                names.extend(reached.map(|class| full(class.0)));
            }
            Err(refusal) => {
                names.insert(super::refusal_name(refusal.number));
                let is_longer =
                    refusal.number == 24 && table.tasks[position].deadline == REPLAYED_MOST + 1;
                if is_longer {
                    names.insert(full(LONGER));
                }
            }
        }
    }
    names
}

fn full(name: &str) -> String {
    format!("replay: {name}")
}
