//! All answers of a table, and their report.

use super::blocking::{blockers, worst, Blocker};
use super::costs::Reloads;
use super::order::Orders;
use super::response::{Equation, Load};
use super::{Error, Table, METHODS};

pub struct Analysis {
    pub rows: Vec<Row>,
}

#[derive(Clone)]
pub struct Row {
    pub name: String,
    /// D - J.
    pub limit: u64,
    /// By method; `None` for unschedulable.
    pub answers: [Option<u64>; METHODS as usize],
}

pub fn analyse(table: &Table, error: Option<Error>) -> Analysis {
    analyse_in(table, Orders::usual(table), error)
}

/// The same, with the members of every sum in some order.
pub fn analyse_in(table: &Table, orders: Orders, error: Option<Error>) -> Analysis {
    analysis(&Reloads::in_orders(table, orders, error), &[], error)
}

/// The same after another table. Of that there is nothing, unless an error hands its answers on: each
/// search then starts from the one at its place.
pub fn analyse_after(table: &Table, before: &[Row], error: Option<Error>) -> Analysis {
    analysis(&Reloads::new(table, error), before, error)
}

fn analysis(reloads: &Reloads, before: &[Row], error: Option<Error>) -> Analysis {
    let positions = 0..reloads.table.tasks.len();
    let rows = positions.map(|i| row(reloads, i, before.get(i), error));
    Analysis {
        rows: rows.collect(),
    }
}

fn row(reloads: &Reloads, i: usize, before: Option<&Row>, error: Option<Error>) -> Row {
    let table = reloads.table;
    let task = &table.tasks[i];
    let limit = task.deadline - task.jitter;
    let tested = match error {
        Some(Error::ForgetsOwnJitter) => task.deadline,
        _ => limit,
    };
    let blockers = blockers(table, i, error);
    let equation = |blocker: &Blocker, count: &dyn Fn(usize) -> usize| {
        let above = reloads.orders.above(i);
        equation(table, i, above, blocker, count, error)
    };
    let of_each = |method| -> Vec<Option<u64>> {
        let start = before.and_then(|row| row.answers[method as usize]);
        let by = |blocker| {
            let equation = equation(blocker, &|j| reloads.count(method, i, j, blocker));
            match start {
                Some(start) => equation.response_from(start, tested),
                None => equation.least_response(tested),
            }
        };
        blockers.iter().map(by).collect()
    };
    let by = |method| worst(of_each(method), error);
    let (useful_union, evicting_union) = (by(3), by(4));
    let combined = match error {
        Some(Error::CombinesPerPair) => {
            let smaller = |blocker| {
                let count = |method, j| reloads.count(method, i, j, blocker);
                let equation = equation(blocker, &|j| count(3, j).min(count(4, j)));
                equation.least_response(tested)
            };
            worst(blockers.iter().map(smaller).collect(), error)
        }
        Some(Error::CombinesPerAccess) => {
            let pairs = of_each(3).into_iter().zip(of_each(4));
            worst(
                pairs.map(|(one, other)| smaller(one, other)).collect(),
                error,
            )
        }
        _ => smaller(useful_union, evicting_union),
    };
    Row {
        name: task.name.clone(),
        limit,
        answers: [by(0), by(1), by(2), useful_union, evicting_union, combined],
    }
}

/// The equation of the task at `i` while one thing blocks it, with the terms of the tasks `above` it.
pub fn equation(
    table: &Table,
    i: usize,
    above: impl Iterator<Item = usize>,
    blocker: &Blocker,
    count: &dyn Fn(usize) -> usize,
    error: Option<Error>,
) -> Equation {
    let loads = above.map(|j| {
        let above = &table.tasks[j];
        Load {
            each: above.execution + table.reload_time * count(j) as u64,
            period: above.period,
            jitter: above.jitter,
        }
    });
    Equation {
        own: table.tasks[i].execution + blocker.length,
        loads: loads.collect(),
        error,
    }
}

/// The smaller of those there are.
fn smaller(one: Option<u64>, other: Option<u64>) -> Option<u64> {
    one.into_iter().chain(other).min()
}

impl Analysis {
    pub fn report(&self) -> String {
        let mut lines: Vec<String> = self.rows.iter().map(row_line).collect();
        lines.push(self.verdict_line());
        lines.concat()
    }

    fn verdict_line(&self) -> String {
        let mut fields = vec!["V"];
        for method in 0..METHODS as usize {
            let all = self.rows.iter().all(|row| row.answers[method].is_some());
            fields.push(if all { "yes" } else { "no" });
        }
        fields.join("\t") + "\n"
    }
}

fn row_line(row: &Row) -> String {
    let mut fields = vec!["R".to_string(), row.name.clone(), row.limit.to_string()];
    for answer in row.answers {
        fields.push(answer.map_or("-".to_string(), |response| response.to_string()));
    }
    fields.join("\t") + "\n"
}
