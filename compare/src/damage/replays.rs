//! Replays that are refused for a known reason.

use super::Spoiled;
use crate::generate::replayed;
use crate::model::Refusal;
use crate::random::Random;

/// What a table or a question has that is refused: a jitter, an access, no task at the position, or a long
/// deadline of the task there.
#[derive(Clone, Copy)]
pub struct ReplayPlan {
    jitter: bool,
    access: bool,
    last: Last,
}

#[derive(Clone, Copy, PartialEq, Eq)]
enum Last {
    Nothing,
    NoTask,
    LongDeadline,
}

pub fn replay_plans() -> Vec<ReplayPlan> {
    let mut plans = Vec::new();
    for last in [Last::Nothing, Last::NoTask, Last::LongDeadline] {
        for (jitter, access) in [(false, false), (true, false), (false, true), (true, true)] {
            if jitter || access || last != Last::Nothing {
                plans.push(ReplayPlan {
                    jitter,
                    access,
                    last,
                });
            }
        }
    }
    plans
}

impl ReplayPlan {
    pub fn name(self) -> String {
        let numbers = [
            (self.jitter, "21"),
            (self.access, "22"),
            (self.last == Last::NoTask, "13"),
            (self.last == Last::LongDeadline, "24"),
        ];
        let numbers = numbers.into_iter().filter(|row| row.0).map(|row| row.1);
        let numbers: Vec<&str> = numbers.collect();
        match numbers.len() {
            1 => format!("replay: {} alone", numbers[0]),
            _ => format!("replay: {}", numbers.join(" and ")),
        }
    }

    /// A table, and the position that is asked for.
    pub fn spoil(self, random: &mut Random) -> (Spoiled, u64) {
        let mut table = replayed(random);
        let tasks = table.tasks.len();
        let mut position = random.below(tasks);
        let mut told = Refusal::new(0, 0);
        match self.last {
            Last::Nothing => {}
            Last::NoTask => {
                position = tasks + random.below(3);
                told = Refusal::new(13, 0);
            }
            Last::LongDeadline => {
                let task = &mut table.tasks[position];
                task.deadline = *random.pick(&[100_001, 100_002, 250_000_000]);
                task.period = task.period.max(task.deadline);
                told = Refusal::new(24, 0);
            }
        }
        if self.access {
            super::add_accesses(random, &mut table);
            told = Refusal::new(22, tasks as u64 + 2);
        }
        if self.jitter {
            let jittery = random.below(tasks);
            table.tasks[jittery].jitter = random.between(1, table.tasks[jittery].deadline);
            told = Refusal::new(21, jittery as u64 + 2);
        }
        let spoiled = Spoiled {
            text: table.text(),
            plan: self.name(),
            refusal: told,
        };
        (spoiled, position as u64)
    }
}
