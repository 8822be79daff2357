//! A replay of a table, tick by tick.
//!
//! Every task has its jobs in the order of their releases, each with the ticks that are left of it. A tick goes to the
//! first job of the highest task that has one. Nothing is known of demands or responses.

use super::edf::jitter_or_access;
use super::{Error, Refusal, Table};
use std::collections::VecDeque;

/// The longest deadline of the task that is asked for.
pub const REPLAYED_MOST: u64 = 100_000;

/// What was seen up to the end of a task's first job, or up to its deadline.
#[derive(Clone, Debug, PartialEq, Eq)]
pub struct Replay {
    /// The end of the job in ticks; none where it is unfinished at its deadline.
    pub end: Option<u64>,
    /// How often the job had begun and had to wait.
    pub preempted: u64,
    /// Whether a task above had unfinished work when it was released again.
    pub keeps_work: bool,
    /// The jobs of tasks above that came to an end.
    pub jobs_above: u64,
    /// The ticks that are left of the job.
    pub left: u64,
}

pub fn replay(table: &Table, position: u64, error: Option<Error>) -> Result<Replay, Refusal> {
    let asked = (0..table.tasks.len()).find(|place| *place as u64 == position);
    let missing = Refusal::new(13, 0);
    let is_long = |deadline: u64| match error {
        Some(Error::RefusesLastDeadline) => deadline >= REPLAYED_MOST,
        _ => deadline > REPLAYED_MOST,
    };
    let too_long = match asked {
        Some(_) if error == Some(Error::LooksAtAnyDeadline) => {
            table.tasks.iter().any(|task| is_long(task.deadline))
        }
        Some(asked) => is_long(table.tasks[asked].deadline),
        None => false,
    };
    match error {
        Some(Error::LooksAtPositionFirst) if asked.is_none() => return Err(missing),
        Some(Error::LooksAtDeadlineFirst) if too_long => return Err(Refusal::new(24, 0)),
        _ => {}
    }
    jitter_or_access(table, error).map_or(Ok(()), Err)?;
    let asked = asked.ok_or(missing)?;
    match too_long {
        true => Err(Refusal::new(24, 0)),
        false => Ok(replayed(table, asked, error)),
    }
}

fn replayed(table: &Table, asked: usize, error: Option<Error>) -> Replay {
    let tasks = &table.tasks;
    let mut jobs: Vec<VecDeque<u64>> = vec![VecDeque::new(); tasks.len()];
    let mut replay = Replay {
        end: None,
        preempted: 0,
        keeps_work: false,
        jobs_above: 0,
        left: tasks[asked].execution,
    };
    let mut ran_last = None;
    let ticks = match error {
        Some(Error::JudgesByPeriod) => tasks[asked].period,
        Some(Error::EndsBeforeDeadline) => tasks[asked].deadline - 1,
        _ => tasks[asked].deadline,
    };
    for tick in 0..ticks {
        for (place, task) in tasks.iter().enumerate() {
            if !is_released(tick, task.period, error) {
                continue;
            }
            let is_above = place < asked;
            replay.keeps_work |= is_above && !jobs[place].is_empty();
            if error == Some(Error::LosesUnfinished) {
                jobs[place].clear();
            }
            jobs[place].push_back(task.execution);
        }
        let mut waiting = (0..tasks.len()).filter(|place| !jobs[*place].is_empty());
        let runs = match (error, ran_last) {
            (Some(Error::RunsLowestFirst), _) => waiting.last(),
            (Some(Error::LetsJobsEnd), Some(last)) => Some(last),
            _ => waiting.next(),
        };
        let runs = match runs {
            Some(runs) => runs,
            None => continue,
        };
        let has_begun = replay.left < tasks[asked].execution;
        replay.preempted += u64::from(has_begun && runs < asked && ran_last == Some(asked));
        ran_last = Some(runs);
        jobs[runs][0] -= 1;
        replay.left -= u64::from(runs == asked);
        if jobs[runs][0] > 0 {
            continue;
        }
        jobs[runs].pop_front();
        replay.jobs_above += u64::from(runs < asked);
        if runs == asked {
            replay.end = Some(match error {
                Some(Error::CountsEndFromOne) => tick + 2,
                Some(Error::TellsLastTick) => tick,
                _ => tick + 1,
            });
            return replay;
        }
        if error == Some(Error::LetsJobsEnd) {
            ran_last = None;
        }
    }
    replay
}

fn is_released(tick: u64, period: u64, error: Option<Error>) -> bool {
    match error {
        Some(Error::ReleasesTickLate) => tick > 0 && (tick - 1) % period == 0,
        Some(Error::ReleasesOnce) => tick == 0,
        _ => tick % period == 0,
    }
}

#[cfg(test)]
mod tests {
    use super::*;
    use crate::generate::{self, Family};
    use crate::model::Outcome;
    use crate::random::Random;

    #[test]
    fn the_first_job_ends_at_the_response_without_costs() {
        const FAMILIES: [Family; 2] = [generate::replayed, generate::keeping_work];
        let mut random = Random::new(91);
        let mut seen = [0; 2];
        for _ in 0..800 {
            let family = *random.pick(&FAMILIES);
            let outcome = Outcome::of(&family(&mut random).text(), None);
            for position in 0..outcome.rows().len() as u64 {
                let replay = outcome.replay(position).expect("a short deadline");
                assert_eq!(replay.end.unwrap_or(0), outcome.answer(0, position));
                seen[usize::from(replay.end.is_some())] += 1;
            }
        }
        assert!(seen.iter().all(|count| *count > 200), "{seen:?}");
    }

    #[test]
    fn the_errors_do_what_they_say() {
        use Error::*;
        const P: &str = "K 4 0|T a 2 5 5 0 0 0 0|T b 3 8 8 0 0 0 0|";
        const KEPT: &str = "K 4 0|T a 4 10 10 0 0 0 0|T b 2 5 5 0 0 0 0|T c 1 20 20 0 0 0 0|";
        let short = P.replace("8 8", "8 4");
        let rows: [(Error, &str, u64, u64, u64); 9] = [
            (LosesUnfinished, KEPT, 2, 9, 8),
            (RunsLowestFirst, P, 1, 5, 3),
            (ReleasesTickLate, P, 1, 5, 6),
            (CountsEndFromOne, P, 1, 5, 6),
            (TellsLastTick, P, 1, 5, 4),
            (JudgesByPeriod, &short, 1, 0, 5),
            (EndsBeforeDeadline, &P.replace("8 8", "8 5"), 1, 5, 0),
            (ReleasesOnce, KEPT, 2, 9, 7),
            (LetsJobsEnd, &P.replace("b 3", "b 4"), 1, 8, 6),
        ];
        for (error, table, position, right, wrong) in rows {
            let text = table.replace(' ', "\t").replace('|', "\n").into_bytes();
            for (error, expected) in [(None, right), (Some(error), wrong)] {
                let outcome = Outcome::of(&text, error);
                let replay = outcome.replay(position).expect("a short deadline");
                assert_eq!(replay.end.unwrap_or(0), expected, "{error:?}");
            }
        }
    }
}
