//! The smallest response that equals its demand.

use super::Error;

/// Up to this limit every number is tried.
const TRIED_MOST: u64 = 256;

/// After this many turns the search is made shorter.
const TURNS_FIRST: u64 = 300;

/// A search longer than this is a fault of whoever made the table up.
const TURNS_MOST: u64 = 20_000_000;

/// The stretch of ticks over which the tasks' shares of the processor are worked out: so long that
/// what the rounding loses of them does not count.
const STRETCH: u128 = 1_000_000_000_000_000_000;

/// What a higher task takes: `each` ticks at every activation.
#[derive(Clone, Debug)]
pub struct Load {
    pub each: u64,
    pub period: u64,
    pub jitter: u64,
}

/// One equation: the task's own ticks (C and what blocks it) and what the tasks above it take.
#[derive(Clone, Debug)]
pub struct Equation {
    pub own: u64,
    pub loads: Vec<Load>,
    pub error: Option<Error>,
}

impl Equation {
    pub fn least_response(&self, limit: u64) -> Option<u64> {
        match self.error {
            Some(Error::StartsFromGuess) => self.guessed(limit),
            Some(Error::JudgesAtLimit) if self.demand(limit) > limit => None,
            _ if limit <= TRIED_MOST => self.by_trial(limit),
            _ => {
                let soon = self.climb(self.own, limit, TURNS_FIRST);
                soon.unwrap_or_else(|| self.settled(limit).by_shares(limit))
            }
        }
    }

    /// The equation that is the same from 1 to `limit`, with the ticks of the tasks that are not
    /// activated again up to there among its own.
    fn settled(&self, limit: u64) -> Equation {
        let activations = |load: &Load, at| self.activations(load, at);
        let is_settled = |load: &&Load| activations(load, 1) == activations(load, limit);
        let settled = self.loads.iter().filter(is_settled);
        let ticks: u64 = settled.map(|load| activations(load, 1) * load.each).sum();
        let others = self.loads.iter().filter(|load| !is_settled(load));
        Equation {
            own: self.own + ticks,
            loads: others.cloned().collect(),
            error: self.error,
        }
    }

    pub fn demand(&self, response: u64) -> u64 {
        let taken = self.loads.iter().map(|load| {
            let activations = self.activations(load, response);
            activations.checked_mul(load.each).expect("in range")
        });
        taken.fold(self.own, |sum, ticks| {
            sum.checked_add(ticks).expect("in range")
        })
    }

    pub fn activations(&self, load: &Load, response: u64) -> u64 {
        let reach = response + load.jitter;
        let whole = reach / load.period;
        let exact = reach % load.period == 0;
        if exact && self.error != Some(Error::CountsOneMore) {
            whole
        } else {
            whole + 1
        }
    }

    fn by_trial(&self, limit: u64) -> Option<u64> {
        (0..=limit).find(|response| self.demand(*response) == *response)
    }

    /// Leaves out what lies below every answer and searches the rest.
    ///
    /// The tasks above take at least `taken` of every L ticks; jitter and a period only begun can
    /// but add to it. So at a number t the demand is at least own + t * taken / L. Hence nothing
    /// answers where `taken` is at least L, and otherwise nothing below own * L / (L - taken).
    fn by_shares(&self, limit: u64) -> Option<u64> {
        let share = |load: &Load| u128::from(load.each) * STRETCH / u128::from(load.period);
        let taken: u128 = self.loads.iter().map(share).sum();
        if taken >= STRETCH {
            return None;
        }
        let start = u128::from(self.own) * STRETCH / (STRETCH - taken);
        if start > u128::from(limit) {
            return None;
        }
        let found = self.climb(start as u64, limit, TURNS_MOST);
        found.expect("a short search")
    }

    /// By an error, the search from an answer of another table, where that is above the usual start and
    /// not past the limit.
    pub fn response_from(&self, earlier: u64, limit: u64) -> Option<u64> {
        let start = Some(earlier).filter(|start| (self.own..=limit).contains(start));
        let found = start.and_then(|start| self.climb(start, limit, TURNS_FIRST));
        found.unwrap_or_else(|| self.least_response(limit))
    }

    /// The search upwards from a number that no answer is below: its result, or nothing if that
    /// takes too many turns. An error lets it start elsewhere, so that it may end at another solution.
    fn climb(&self, start: u64, limit: u64, turns: u64) -> Option<Option<u64>> {
        let mut response = start;
        for _ in 0..turns {
            if response > limit {
                return Some(None);
            }
            match self.demand(response) {
                demand if demand == response => return Some(Some(response)),
                demand => response = demand,
            }
        }
        None
    }

    fn guessed(&self, limit: u64) -> Option<u64> {
        let guess = (self.own + limit + 1) / 2;
        self.climb(guess, limit, TRIED_MOST).flatten()
    }
}

#[cfg(test)]
mod tests {
    use super::*;
    use crate::random::Random;

    #[test]
    fn starting_from_the_shares_climbing_and_trying_give_the_same() {
        let mut random = Random::new(7);
        let mut found = [0, 0];
        for _ in 0..20_000 {
            let loads = (0..random.below(4)).map(|_| Load {
                each: random.between(1, 9),
                period: random.between(1, 24),
                jitter: random.between(0, 15),
            });
            let loads = loads.collect();
            let equation = Equation {
                own: random.between(1, 40),
                loads,
                error: None,
            };
            let limit = random.between(0, 2_000);
            let response = equation.by_trial(limit);
            assert_eq!(equation.by_shares(limit), response, "{equation:?}");
            let settled = equation.settled(limit);
            assert_eq!(settled.by_shares(limit), response, "{equation:?}");
            let climbed = equation.climb(equation.own, limit, TURNS_MOST);
            assert_eq!(climbed, Some(response), "{equation:?}");
            found[usize::from(response.is_some())] += 1;
        }
        assert!(found[0] > 1_000 && found[1] > 1_000);
    }

    #[test]
    fn a_full_processor_answers_nothing() {
        for periods in [&[1][..], &[3, 3, 3], &[2, 3, 6], &[7; 7], &[31; 31]] {
            let load = |period: &u64| Load {
                each: 1,
                period: *period,
                jitter: 0,
            };
            let equation = Equation {
                own: 1,
                loads: periods.iter().map(load).collect(),
                error: None,
            };
            assert_eq!(equation.least_response(250_000_000), None);
        }
    }

    #[test]
    fn a_processor_almost_full_is_searched_to_the_end() {
        let load = |period| Load {
            each: 1,
            period,
            jitter: 0,
        };
        let loads: Vec<Load> = [2, 3, 7, 43, 1807].into_iter().map(load).collect();
        let equation = |own| Equation {
            own,
            loads: loads.clone(),
            error: None,
        };
        let found = equation(60).least_response(250_000_000);
        let response = found.expect("there is one");
        assert_eq!(equation(60).demand(response), response);
        assert_eq!(equation(90).least_response(250_000_000), None);
    }
}
