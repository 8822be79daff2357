//! Tables that are refused where the earliest deadline comes first.

use super::Spoiled;
use crate::generate::by_deadline;
use crate::model::Refusal;
use crate::random::Random;

/// What a table has that is refused: a jitter, an access, or periods that come together too late.
#[derive(Clone, Copy)]
pub struct DeadlinePlan {
    jitter: bool,
    access: bool,
    periods: bool,
}

pub fn deadline_plans() -> Vec<DeadlinePlan> {
    let plans = (1..8).map(|which| DeadlinePlan {
        jitter: which & 1 > 0,
        access: which & 2 > 0,
        periods: which & 4 > 0,
    });
    plans.collect()
}

impl DeadlinePlan {
    pub fn name(self) -> String {
        let numbers = [
            (self.jitter, "21"),
            (self.access, "22"),
            (self.periods, "23"),
        ];
        let numbers = numbers.into_iter().filter(|row| row.0).map(|row| row.1);
        let numbers: Vec<&str> = numbers.collect();
        match numbers.len() {
            1 => format!("by deadlines: {} alone", numbers[0]),
            _ => format!("by deadlines: {}", numbers.join(" and ")),
        }
    }

    pub fn spoil(self, random: &mut Random) -> Spoiled {
        let mut table = loop {
            let table = by_deadline(random);
            if table.tasks.len() >= 2 {
                break table;
            }
        };
        let tasks = table.tasks.len();
        let mut told = Refusal::new(0, 0);
        if self.periods {
            let one = random.below(tasks);
            let other = (one + 1) % tasks;
            table.tasks[one].period = 15_811;
            table.tasks[other].period = *random.pick(&[15_812, 249_999_999, 250_000_000]);
            told = Refusal::new(23, 0);
        }
        if self.access {
            super::add_accesses(random, &mut table);
            told = Refusal::new(22, tasks as u64 + 2);
        }
        if self.jitter {
            let first = random.below(tasks);
            for task in first..tasks {
                let most = table.tasks[task].deadline;
                if task == first || random.chance(50) {
                    table.tasks[task].jitter = random.between(1, most);
                }
            }
            told = Refusal::new(21, first as u64 + 2);
        }
        Spoiled {
            text: table.text(),
            plan: self.name(),
            refusal: told,
        }
    }
}
