//! Whether the tasks of a table are in time where the earliest deadline comes first.
//!
//! Charged times and the demand bound are worked out as they are defined. Up to the least common multiple of
//! the periods the bound is asked at every whole time where that multiple is small, and otherwise at
//! every deadline: it grows at no other time.

use super::{Error, Refusal, Table, Task};

/// The greatest least common multiple of the periods.
pub const MULTIPLE_MOST: u64 = 250_000_000;

/// Up to this multiple every whole time is tried.
const TRIED_MOST: u64 = 5_000;

/// A table without jitter and accesses, of which the periods soon come together again.
pub struct Product<'a> {
    table: &'a Table,
    /// For each task its execution time with the reloads it is charged.
    pub charged: Vec<u64>,
    /// The least common multiple of the periods.
    pub multiple: u64,
    error: Option<Error>,
}

impl<'a> Product<'a> {
    pub fn of(table: &'a Table, error: Option<Error>) -> Result<Product<'a>, Refusal> {
        Product::refused(table, error).map_or(Ok(()), Err)?;
        let multiple = multiple_of(table, error).filter(|multiple| match error {
            Some(Error::RefusesLastMultiple) => *multiple < MULTIPLE_MOST,
            _ => *multiple <= MULTIPLE_MOST,
        });
        let charged = table.tasks.iter().map(|task| charged(table, task, error));
        Ok(Product {
            table,
            charged: charged.collect(),
            multiple: multiple.ok_or(Refusal::new(23, 0))?,
            error,
        })
    }

    fn refused(table: &Table, error: Option<Error>) -> Option<Refusal> {
        if error == Some(Error::LooksAtPeriodsFirst) && multiple_of(table, error).is_none() {
            return Some(Refusal::new(23, 0));
        }
        jitter_or_access(table, error)
    }

    /// Whether the charged times fit into the multiple of the periods.
    pub fn fits(&self) -> bool {
        self.taken() <= u128::from(self.multiple)
    }

    /// What all jobs of that time take.
    pub fn taken(&self) -> u128 {
        let each = self.table.tasks.iter().zip(&self.charged);
        let taken = each
            .map(|(task, charged)| u128::from(self.multiple / task.period) * u128::from(*charged));
        taken.sum()
    }

    /// The demand bound: what all jobs take of which release and deadline lie in so many ticks.
    pub fn demand(&self, time: u64) -> u128 {
        let each = self.table.tasks.iter().zip(&self.charged);
        let each = each.filter(|(task, _)| task.deadline <= time);
        let taken = each.map(|(task, charged)| {
            let more = (time - task.deadline) / task.period;
            let jobs = match self.error {
                Some(Error::CountsJobTooFew) => more,
                _ => more + 1,
            };
            u128::from(jobs) * u128::from(*charged)
        });
        taken.sum()
    }

    /// The first whole time up to the multiple that the demand bound is larger than.
    pub fn late(&self) -> Option<u64> {
        let is_late = |time: &u64| match self.error {
            Some(Error::WantsSmallerBound) => *time > 0 && self.demand(*time) >= u128::from(*time),
            _ => self.demand(*time) > u128::from(*time),
        };
        if self.error == Some(Error::LooksAtFirstDeadlines) {
            let mut deadlines = self.table.tasks.iter().map(|task| task.deadline);
            return deadlines.find(is_late);
        }
        if self.multiple <= TRIED_MOST {
            return (0..=self.multiple).find(is_late);
        }
        let late = self.table.tasks.iter().flat_map(|task| {
            let deadlines = (task.deadline..=self.multiple).step_by(task.period as usize);
            deadlines.clone().find(is_late)
        });
        late.min()
    }

    pub fn verdict(&self) -> bool {
        self.fits() && self.late().is_none()
    }

    /// At how many times the demand bound grows.
    pub fn deadlines(&self) -> u64 {
        let each = self.table.tasks.iter();
        each.map(|task| self.multiple / task.period).sum()
    }
}

/// The refusal of the first jitter above 0, or else of the first access.
pub fn jitter_or_access(table: &Table, error: Option<Error>) -> Option<Refusal> {
    let lines = table.tasks.iter().zip(2..);
    let mut jitters = lines.filter(|(task, _)| task.jitter > 0);
    let jitter = match error {
        Some(Error::TellsLastJitter) => jitters.last(),
        _ => jitters.next(),
    };
    let jitter = jitter.map(|(_, line)| Refusal::new(21, line));
    let first = table.tasks.len() as u64 + 2;
    let mut lines = first..first + table.accesses.len() as u64;
    let access = match error {
        Some(Error::TellsLastAccess) => lines.last(),
        _ => lines.next(),
    };
    let access = access.map(|line| Refusal::new(22, line));
    match error {
        Some(Error::LooksAtAccessesFirst) => access.or(jitter),
        _ => jitter.or(access),
    }
}

/// The least common multiple of the periods, if it is not too large.
fn multiple_of(table: &Table, error: Option<Error>) -> Option<u64> {
    let periods: Vec<u64> = table.tasks.iter().map(|task| task.period).collect();
    let multiple = |periods: &[u64]| {
        let mut periods = periods.iter();
        periods.try_fold(1, |multiple: u64, period| {
            common(multiple, *period, MULTIPLE_MOST)
        })
    };
    match error {
        Some(Error::TakesFirstTwoPeriods) => multiple(&periods[..periods.len().min(2)]),
        Some(Error::MultipliesPeriods) => {
            let product = |product: u64, period: &u64| product.saturating_mul(*period);
            let product = periods.iter().fold(1, product);
            multiple(&periods).filter(|_| product <= MULTIPLE_MOST)
        }
        Some(Error::CutsMultipleTo32Bits) => {
            let cut = periods.iter().fold(1, |multiple: u64, period| {
                (multiple / greatest_divisor(multiple, *period) * period % (1 << 32)).max(1)
            });
            // where the cut one is small the longest period stands for it, which is soon looked at
            let longest = periods.iter().copied().max();
            multiple(&periods).or_else(|| longest.filter(|_| cut <= MULTIPLE_MOST))
        }
        _ => multiple(&periods),
    }
}

/// By an error, that of two numbers above 0.
fn greatest_divisor(mut one: u64, mut other: u64) -> u64 {
    while other > 0 {
        (one, other) = (other, one % other);
    }
    one
}

/// The least common multiple of two numbers up to `most`, found among the multiples of the larger one.
fn common(one: u64, other: u64, most: u64) -> Option<u64> {
    let (small, large) = (one.min(other), one.max(other));
    let mut multiples = (1..=small.min(most / large)).map(|times| times * large);
    multiples.find(|multiple| multiple % small == 0)
}

/// The execution time of a task with what it is charged for each task that has a smaller deadline.
fn charged(table: &Table, task: &Task, error: Option<Error>) -> u64 {
    let charges = table.tasks.iter().map(|other| {
        let (own, its) = (task.deadline, other.deadline);
        let (longer, shorter) = match error {
            Some(Error::ChargesLargerDeadlines) => (its, own),
            _ => (own, its),
        };
        let is_other = task.name != other.name;
        let ticks = match error {
            Some(Error::ChargesAtEqualDeadline) if longer == shorter && is_other => 1,
            _ if longer <= shorter => return 0,
            _ => longer - shorter,
        };
        let times = match error {
            Some(Error::ChargesOnce) => 1,
            Some(Error::RoundsChargesDown) => ticks / other.period,
            _ => ticks / other.period + u64::from(ticks % other.period > 0),
        };
        let (useful, evicting) = match error {
            Some(Error::ChargesTheOtherWay) => (&other.useful, &task.evicting),
            _ => (&task.useful, &other.evicting),
        };
        let blocks = evicting.iter().map(|set| match error {
            Some(Error::CountsSetsForBlocks) => useful[*set].min(1),
            _ => useful[*set],
        });
        table.reload_time * blocks.sum::<usize>() as u64 * times
    });
    match error {
        Some(Error::ChargesNothing) => task.execution,
        _ => task.execution + charges.sum::<u64>(),
    }
}

#[cfg(test)]
mod tests {
    use super::*;
    use crate::generate;
    use crate::model::{read, Outcome};
    use crate::random::Random;

    #[test]
    fn looking_up_to_the_multiple_is_enough() {
        let mut random = Random::new(81);
        let mut seen = [0; 2];
        for _ in 0..400 {
            let table = read(&generate::by_deadline(&mut random).text()).expect("a valid table");
            let product = Product::of(&table, None).expect("short periods");
            let deadlines = table.tasks.iter().map(|task| task.deadline);
            let longest = deadlines.max().expect("a task");
            // where they do not fit, each multiple adds a tick at least to what is missing
            let end = product.multiple * (longest + 2) + longest;
            let is_late = |time: u64| product.demand(time) > u128::from(time);
            let has_late = (0..=end.min(200_000)).any(is_late);
            assert_eq!(product.verdict(), !has_late);
            seen[usize::from(has_late)] += 1;
        }
        assert!(seen.iter().all(|count| *count > 80), "{seen:?}");
    }

    #[test]
    fn trying_every_time_and_the_deadlines_give_the_same() {
        let mut random = Random::new(82);
        for _ in 0..400 {
            let table = read(&generate::by_deadline(&mut random).text()).expect("a valid table");
            let product = Product::of(&table, None).expect("short periods");
            let is_late = |time: &u64| product.demand(*time) > u128::from(*time);
            let by_deadlines = table.tasks.iter().flat_map(|task| {
                let mut times = (task.deadline..=product.multiple).step_by(task.period as usize);
                times.find(is_late)
            });
            assert_eq!(by_deadlines.min(), product.late());
        }
    }

    #[test]
    fn the_least_common_multiple_is_found_among_multiples() {
        let rows = [
            (4, 6, Some(12)),
            (1, 250_000_000, Some(250_000_000)),
            (15_811, 15_812, None),
            (15_810, 15_811, Some(249_971_910)),
            (125_000_000, 250_000_000, Some(250_000_000)),
            (7, 7, Some(7)),
        ];
        for (one, other, multiple) in rows {
            assert_eq!(common(one, other, MULTIPLE_MOST), multiple);
            assert_eq!(common(other, one, MULTIPLE_MOST), multiple);
        }
    }

    #[test]
    fn a_jitter_comes_before_an_access_and_both_before_the_periods() {
        let table = |jitters: [u64; 2], access: &str| {
            let task =
                |name, period, jitter| format!("T\t{name}\t1\t{period}\t9\t{jitter}\t0\t0\t0\n");
            let tasks = [task("a", 15_811, jitters[0]), task("b", 15_812, jitters[1])];
            format!("K\t4\t0\n{}{access}", tasks.concat()).into_bytes()
        };
        let refused = |text: &[u8], error| {
            let outcome = Outcome::of(text, error);
            outcome
                .edf()
                .err()
                .map(|refusal| (refusal.number, refusal.line))
        };
        let accesses = "A\tb\ta\t1\t0\nA\tb\tb\t1\t0\n";
        assert_eq!(refused(&table([1, 1], accesses), None), Some((21, 2)));
        assert_eq!(refused(&table([0, 1], accesses), None), Some((21, 3)));
        assert_eq!(refused(&table([0, 0], accesses), None), Some((22, 4)));
        assert_eq!(refused(&table([0, 0], ""), None), Some((23, 0)));
        assert_eq!(refused(b"", None), Some((2, 0)));
        let both = table([1, 1], accesses);
        assert_eq!(
            refused(&both, Some(Error::LooksAtAccessesFirst)),
            Some((22, 4))
        );
        assert_eq!(
            refused(&both, Some(Error::LooksAtPeriodsFirst)),
            Some((23, 0))
        );
        assert_eq!(refused(&both, Some(Error::TellsLastJitter)), Some((21, 3)));
        let no_jitter = table([0, 0], accesses);
        assert_eq!(
            refused(&no_jitter, Some(Error::TellsLastAccess)),
            Some((22, 5))
        );
    }
}
