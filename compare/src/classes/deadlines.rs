//! What verdicts have to reach where the earliest deadline comes first.

use super::Names;
use crate::model::{Outcome, Product, Table, Task, MULTIPLE_MOST};

/// A table with a verdict.
struct Told<'a> {
    table: &'a Table,
    product: &'a Product<'a>,
    verdict: bool,
    /// The first time that the demand bound is larger than.
    late: Option<u64>,
}

impl Told<'_> {
    fn tasks(&self) -> &[Task] {
        &self.table.tasks
    }

    fn is_full(&self) -> bool {
        self.product.taken() == u128::from(self.product.multiple)
    }

    /// Whether the demand bound is as large as a deadline of the first multiple.
    fn is_just(&self) -> bool {
        let is_just = |time: u64| self.product.demand(time) == u128::from(time);
        let mut tasks = self.tasks().iter();
        tasks.any(|task| {
            let mut deadlines =
                (task.deadline..self.product.multiple).step_by(task.period as usize);
            deadlines.any(is_just)
        })
    }

    fn late_by_one(&self) -> bool {
        let is_by_one = |late: u64| self.product.demand(late) == u128::from(late) + 1;
        self.late.map_or(false, is_by_one)
    }

    fn is_charged(&self) -> bool {
        let mut each = self.tasks().iter().zip(&self.product.charged);
        each.any(|(task, charged)| *charged > task.execution)
    }

    fn without_costs(&self) -> bool {
        let mut table = self.table.clone();
        table.reload_time = 0;
        let product = Product::of(&table, None);
        product.map_or(false, |product| product.verdict())
    }

    /// Whether a task is charged for another one with these deadlines and that period, and for blocks.
    fn any_charge(&self, holds: impl Fn(u64, u64, u64) -> bool) -> bool {
        self.any_pair(|task, other| {
            self.has_blocks(task, other) && holds(task.deadline, other.deadline, other.period)
        })
    }

    fn any_pair(&self, holds: impl Fn(&Task, &Task) -> bool) -> bool {
        let mut tasks = self.tasks().iter();
        tasks.any(|task| {
            let mut others = self.tasks().iter().filter(|other| other.name != task.name);
            others.any(|other| holds(task, other))
        })
    }

    fn has_blocks(&self, task: &Task, other: &Task) -> bool {
        let is_lost = |set: &usize| task.useful[*set] > 0;
        self.table.reload_time > 0 && other.evicting.iter().any(is_lost)
    }
}

type OfTold = (&'static str, fn(&Told) -> bool);

const OF_TOLD: [OfTold; 29] = [
    ("yes", |told| told.verdict),
    ("no", |told| !told.verdict),
    ("1 task", |told| told.tasks().len() == 1),
    ("5 tasks or more", |told| told.tasks().len() >= 5),
    ("yes, and as much as there is time", |told| {
        told.verdict && told.is_just()
    }),
    ("yes, with all of the time taken", |told| {
        told.verdict && told.is_full()
    }),
    ("no, with all of the time taken", |told| {
        !told.verdict && told.is_full()
    }),
    ("no, with time left", |told| {
        !told.verdict && told.product.taken() < u128::from(told.product.multiple)
    }),
    ("no, a tick more than there is time", |told| {
        told.late_by_one()
    }),
    ("no, as it does not fit, and no time before", |told| {
        told.late == Some(told.product.multiple) && !told.product.fits()
    }),
    ("no, a tick more than fits", |told| {
        told.product.taken() == u128::from(told.product.multiple) + 1
    }),
    ("no, at the first deadline", |told| {
        let first = told.tasks().iter().map(|task| task.deadline).min();
        told.late.is_some() && told.late == first
    }),
    ("no, after a second job", |told| {
        let is_second = |late: u64| {
            let mut tasks = told.tasks().iter();
            tasks.any(|task| task.deadline + task.period <= late)
        };
        told.late.map_or(false, is_second)
    }),
    ("no, and not at a first deadline", |told| {
        let is_late = |task: &Task| told.product.demand(task.deadline) > task.deadline.into();
        told.late.is_some() && !told.tasks().iter().any(is_late)
    }),
    ("no, for its charges", |told| {
        !told.verdict && told.without_costs()
    }),
    ("yes, with charges", |told| {
        told.verdict && told.is_charged()
    }),
    ("equal deadlines, one evicts the other", |told| {
        told.any_pair(|task, other| task.deadline == other.deadline && told.has_blocks(task, other))
    }),
    ("all deadlines equal", |told| {
        let first = told.tasks()[0].deadline;
        let mut others = told.tasks()[1..].iter();
        told.tasks().len() > 1 && others.all(|task| task.deadline == first)
    }),
    ("charged for one that stands below", |told| {
        let tasks = told.tasks();
        (1..tasks.len()).any(|below| {
            let mut above = tasks[..below].iter();
            above.any(|task| {
                task.deadline > tasks[below].deadline && told.has_blocks(task, &tasks[below])
            })
        })
    }),
    ("charged once", |told| {
        told.any_charge(|own, its, period| own > its && own - its < period)
    }),
    ("charged once, a whole period before", |told| {
        told.any_charge(|own, its, period| own > its && own - its == period)
    }),
    ("charged several times", |told| {
        told.any_charge(|own, its, period| own > its && own - its > period)
    }),
    ("charged for whole periods, several", |told| {
        told.any_charge(|own, its, period| own >= its + 2 * period && (own - its) % period == 0)
    }),
    ("charged for sets with several blocks", |told| {
        told.any_pair(|task, other| {
            let has_several = |set: &usize| task.useful[*set] > 1;
            task.deadline > other.deadline && other.evicting.iter().any(has_several)
        })
    }),
    ("periods together at 250,000,000", |told| {
        told.product.multiple == MULTIPLE_MOST
    }),
    ("periods together at the largest one", |told| {
        told.tasks().len() > 1 && told.product.multiple == longest(told.table)
    }),
    ("periods together later than the largest one", |told| {
        told.product.multiple > longest(told.table)
    }),
    ("a product of periods above 250,000,000", |told| {
        let periods = told.tasks().iter().map(|task| u128::from(task.period));
        periods.fold(1, u128::saturating_mul) > u128::from(MULTIPLE_MOST)
    }),
    ("periods together later than the first two", |told| {
        let tasks = told.tasks().len().min(2);
        told.product.multiple as u128 > multiple_of(&told.tasks()[..tasks])
    }),
];

/// Of periods that come together too late.
type OfPeriods = (&'static str, fn(&[Task]) -> bool);

const OF_PERIODS: [OfPeriods; 4] = [
    ("23, a little above 250,000,000", |tasks| {
        (250_000_001..=250_010_000).contains(&multiple_of(tasks))
    }),
    ("23, above 2^32", |tasks| multiple_of(tasks) > 1 << 32),
    ("23, above 2^64", |tasks| multiple_of(tasks) > 1 << 64),
    ("23, not by the first two periods", |tasks| {
        tasks.len() > 2 && multiple_of(&tasks[..2]) <= u128::from(MULTIPLE_MOST)
    }),
];

const BESIDE_REFUSED: &str = "a refusal of the text before 21 to 23";

pub fn all() -> Names {
    let mut names: Names = OF_TOLD.iter().map(|class| full(class.0)).collect();
    names.extend(OF_PERIODS.iter().map(|class| full(class.0)));
    names.insert(full(BESIDE_REFUSED));
    names
}

/// By a text that was asked for the verdict.
pub fn reached(outcome: &Outcome) -> Names {
    let table = match outcome.table() {
        Some(table) => table,
        None => return Names::from([full(BESIDE_REFUSED)]),
    };
    match outcome.product() {
        Ok(product) => {
            let told = Told {
                table,
                verdict: product.verdict(),
                late: product.late(),
                product: &product,
            };
            let reached = OF_TOLD.iter().filter(|class| class.1(&told));
            reached.map(|class| full(class.0)).collect()
        }
        Err(refusal) => {
            let tasks = &table.tasks;
            let reached = OF_PERIODS.iter().filter(|class| class.1(tasks));
            let mut names = Names::from([super::refusal_name(refusal.number)]);
            if refusal.number == 23 {
                names.extend(reached.map(|class| full(class.0)));
            }
            names
        }
    }
}

fn longest(table: &Table) -> u64 {
    let periods = table.tasks.iter().map(|task| task.period);
    periods.max().unwrap_or(0)
}

/// The least common multiple of the periods, or a number above 2^64 where it is that large.
fn multiple_of(tasks: &[Task]) -> u128 {
    let periods = tasks.iter().map(|task| u128::from(task.period));
    periods.fold(1, |multiple, period| {
        let (mut one, mut other) = (multiple, period);
        while other > 0 {
            (one, other) = (other, one % other);
        }
        (multiple / one * period).min(1 << 90)
    })
}

fn full(name: &str) -> String {
    format!("by deadlines: {name}")
}
