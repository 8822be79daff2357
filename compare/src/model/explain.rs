//! The reason behind a figure: who takes how much of it.

use super::blocking::{blockers, Blocker};
use super::costs::{tells_values, Reloads, Victim};
use super::report::equation;
use super::response::Equation;
use super::{Error, Table};

/// The end of the search for a figure, whatever the task's own limit.
pub const FIGURE_MOST: u64 = 250_000_000;

/// Why a task's figure is what it is.
pub struct Explanation {
    pub position: usize,
    pub name: String,
    /// The method explained, never the combined one.
    pub method: u64,
    /// The smallest solution of the task's equation; `None` for one beyond the search's end.
    pub figure: Option<u64>,
    /// D - J.
    pub limit: u64,
    pub execution: u64,
    /// The length of the access that is explained, or 0.
    pub blocking: u64,
    /// Everything that may block the task, each with its figure by the method explained.
    pub cases: Vec<Case>,
    /// Which of the cases is explained.
    pub explained: usize,
    /// What the tasks above take of the figure, from the highest on; nothing where there is none.
    pub taken: Vec<Interference>,
}

/// One thing that may block a task, and the figure that the task has then.
pub struct Case {
    /// The place of an access in the table; `None` where nothing blocks.
    pub access: Option<usize>,
    pub figure: Option<u64>,
}

/// What one task takes of the figure of a task below.
pub struct Interference {
    pub position: usize,
    pub name: String,
    pub activations: u64,
    /// Whether the figure plus J is a multiple of T.
    pub ends_period: bool,
    pub reloads: usize,
    /// What each of those affected has to reload, an access last, where the method has such values.
    pub values: Vec<usize>,
    /// Whether an access is among those affected.
    pub meets_access: bool,
    /// Who is hit, and the task's name.
    pub victim: Option<(Victim, String)>,
}

/// Explains the figures of one table.
pub struct Explainer<'a> {
    table: &'a Table,
    reloads: Reloads<'a>,
    error: Option<Error>,
}

impl<'a> Explainer<'a> {
    pub fn new(table: &'a Table, error: Option<Error>) -> Explainer<'a> {
        Explainer {
            table,
            reloads: Reloads::new(table, error),
            error,
        }
    }

    pub fn tasks(&self) -> usize {
        self.table.tasks.len()
    }

    /// The explanation of the task at `i` by one of the methods 0 to 5.
    pub fn explain(&self, method: u64, i: usize) -> Explanation {
        let task = &self.table.tasks[i];
        let worst = self.worst(method, i);
        let (method, figure) = (worst.method, worst.figure());
        let shown = match self.error {
            Some(Error::ListsAfterBeyond) => Some(figure.unwrap_or(FIGURE_MOST)),
            _ => figure,
        };
        let blocker = &worst.blockers[worst.explained];
        let taken = shown.map_or(Vec::new(), |figure| self.taken(method, i, blocker, figure));
        let blocking = match self.error {
            Some(Error::ShowsNoBlocking) => 0,
            _ => blocker.length,
        };
        Explanation {
            position: i,
            name: task.name.clone(),
            method,
            figure,
            limit: task.deadline - task.jitter,
            execution: task.execution,
            blocking,
            explained: worst.explained,
            cases: worst.cases(),
            taken,
        }
    }

    /// What explains the task at `i`, where `method` is asked for.
    fn worst(&self, method: u64, i: usize) -> Worst {
        if method < 5 {
            return self.worst_by(method, i);
        }
        let (useful_union, evicting_union) = (self.worst_by(3, i), self.worst_by(4, i));
        let (by_useful, by_evicting) = (size(useful_union.figure()), size(evicting_union.figure()));
        let takes_useful = match self.error {
            Some(Error::ExplainsDearer) => by_useful > by_evicting,
            Some(Error::ExplainsThreeIfEqual) => by_useful <= by_evicting,
            _ => by_useful < by_evicting,
        };
        if takes_useful {
            useful_union
        } else {
            evicting_union
        }
    }

    fn worst_by(&self, method: u64, i: usize) -> Worst {
        let blockers = blockers(self.table, i, self.error);
        let figures = blockers
            .iter()
            .map(|blocker| self.figure(method, i, blocker));
        let figures: Vec<Option<u64>> = figures.collect();
        let sizes = figures.iter().map(|figure| match self.error {
            Some(Error::ExplainsLargestNumber) => figure.unwrap_or(0),
            _ => size(*figure),
        });
        let sizes: Vec<u64> = sizes.collect();
        let has_most = |size: &u64| Some(size) == sizes.iter().max();
        let explained = match self.error {
            Some(Error::ExplainsFirst) => Some(0),
            Some(Error::ExplainsLastOfEquals) => sizes.iter().rposition(has_most),
            _ => sizes.iter().position(has_most),
        };
        Worst {
            method,
            explained: explained.expect("something blocks, if only for 0 ticks"),
            blockers,
            figures,
        }
    }

    fn figure(&self, method: u64, i: usize, blocker: &Blocker) -> Option<u64> {
        let task = &self.table.tasks[i];
        let end = match self.error {
            Some(Error::EndsAtLimit) => task.deadline - task.jitter,
            _ => FIGURE_MOST,
        };
        self.equation(method, i, blocker).least_response(end)
    }

    fn equation(&self, method: u64, i: usize, blocker: &Blocker) -> Equation {
        let count = |j| self.reloads.count(method, i, j, blocker);
        equation(self.table, i, 0..i, blocker, &count, self.error)
    }

    fn taken(&self, method: u64, i: usize, blocker: &Blocker, figure: u64) -> Vec<Interference> {
        let equation = self.equation(method, i, blocker);
        let taken = equation.loads.iter().enumerate().map(|(j, load)| {
            let activations = equation.activations(load, figure);
            let ends_period = (figure + load.jitter) % load.period == 0;
            let one_more = ends_period && self.error == Some(Error::ListsOneMore);
            Interference {
                activations: activations + u64::from(one_more),
                ends_period,
                ..self.reloading(method, i, j, blocker)
            }
        });
        taken.collect()
    }

    /// What an activation of `j` makes others reload.
    fn reloading(&self, method: u64, i: usize, j: usize, blocker: &Blocker) -> Interference {
        let row = match self.error {
            Some(Error::ListsRowAbove) if j + 1 < i => i - 1,
            _ => i,
        };
        let values = if tells_values(method) {
            self.reloads.values(method, i, j, blocker)
        } else {
            Vec::new()
        };
        let named = |victim: Victim| (victim, self.table.tasks[victim.task].name.clone());
        Interference {
            position: j,
            name: self.table.tasks[j].name.clone(),
            activations: 0,
            ends_period: false,
            reloads: self.reloads.count(method, row, j, blocker),
            meets_access: values.len() > i - j,
            values,
            victim: self.reloads.victim(method, i, j, blocker).map(named),
        }
    }
}

/// `beyond` is larger than any number.
fn size(figure: Option<u64>) -> u64 {
    figure.unwrap_or(u64::MAX)
}

/// The figures of a task by one method, and which of them is explained.
struct Worst {
    method: u64,
    blockers: Vec<Blocker>,
    figures: Vec<Option<u64>>,
    explained: usize,
}

impl Worst {
    fn figure(&self) -> Option<u64> {
        self.figures[self.explained]
    }

    fn cases(&self) -> Vec<Case> {
        let cases = self.blockers.iter().zip(&self.figures);
        let cases = cases.map(|(blocker, figure)| Case {
            access: blocker.accesses.first().copied(),
            figure: *figure,
        });
        cases.collect()
    }
}

impl Explanation {
    pub fn text(&self) -> String {
        let mut lines = vec![self.first_line()];
        lines.extend(self.taken.iter().map(Interference::line));
        lines.concat()
    }

    fn first_line(&self) -> String {
        let figure = self.figure.map(|ticks| ticks.to_string());
        let fields = [
            "X".to_string(),
            self.name.clone(),
            self.method.to_string(),
            figure.unwrap_or_else(|| "beyond".to_string()),
            self.limit.to_string(),
            self.execution.to_string(),
            self.blocking.to_string(),
        ];
        fields.join("\t") + "\n"
    }
}

impl Interference {
    fn line(&self) -> String {
        let victim = self.victim.as_ref().map_or("-", |(_, name)| name);
        format!(
            "I\t{}\t{}\t{}\t{victim}\n",
            self.name, self.activations, self.reloads
        )
    }
}

#[cfg(test)]
mod tests {
    use super::*;
    use crate::generate::{self, Family};
    use crate::model::{analyse, read};
    use crate::random::Random;

    const FAMILIES: [Family; 5] = [
        generate::small,
        generate::loaded,
        generate::unions,
        generate::shared,
        generate::near_limit,
    ];

    /// Calls `see` with made-up tables.
    fn made_up(seed: u64, mut see: impl FnMut(&Table)) {
        let mut random = Random::new(seed);
        for _ in 0..100 {
            for family in FAMILIES {
                let text = family(&mut random).text();
                see(&read(&text).expect("a valid table"));
            }
        }
    }

    #[test]
    fn what_is_written_adds_up_to_the_figure() {
        made_up(11, |table| {
            let explainer = Explainer::new(table, None);
            for i in 0..table.tasks.len() {
                for method in 0..6 {
                    let explanation = explainer.explain(method, i);
                    let ticks = |above: &Interference| {
                        let execution = table.tasks[above.position].execution;
                        let reloading = table.reload_time * above.reloads as u64;
                        above.activations * (execution + reloading)
                    };
                    let taken: u64 = explanation.taken.iter().map(ticks).sum();
                    let own = explanation.execution + explanation.blocking;
                    assert_eq!(explanation.figure.unwrap_or(own), own + taken);
                }
            }
        });
    }

    #[test]
    fn a_figure_within_the_limit_is_the_response() {
        made_up(12, |table| {
            let explainer = Explainer::new(table, None);
            for (i, row) in analyse(table, None).rows.iter().enumerate() {
                for (method, answer) in (0..).zip(row.answers) {
                    let figure = explainer.explain(method, i).figure;
                    assert_eq!(figure.filter(|ticks| *ticks <= row.limit), answer);
                }
            }
        });
    }
}
