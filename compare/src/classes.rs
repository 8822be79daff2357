//! What the made-up texts and table values have to reach at least once.

mod access_reasons;
mod accesses;
mod counted;
mod deadlines;
mod explained;
mod growths;
mod laws;
mod lists;
mod pool;
mod reasons;
mod replays;
mod spelled;
mod values;

pub use reasons::reasons;

use crate::checks::pool::{Call, Made};
use crate::model::value::Value;
use crate::model::{Checks, Growths, Outcome, Row, Table, Task, Writing};
use std::collections::{BTreeMap, BTreeSet};

pub type Names = BTreeSet<String>;

type OfTable = (&'static str, fn(&Table) -> bool);
type OfTask = (&'static str, fn(&Task) -> bool);
type OfRow = (&'static str, fn(&Row) -> bool);

const OF_TABLE: [OfTable; 8] = [
    ("1 task", |table| table.tasks.len() == 1),
    ("32 tasks", |table| table.tasks.len() == 32),
    ("4 sets", |table| table.sets == 4),
    ("256 sets", |table| table.sets == 256),
    ("BRT 0", |table| table.reload_time == 0),
    ("BRT 100,000", |table| table.reload_time == 100_000),
    ("loaded above 1", |table| load_of(table) > 1.0),
    ("loaded 0.9 to 1", |table| {
        (0.9..=1.0).contains(&load_of(table))
    }),
];

const OF_TASK: [OfTask; 17] = [
    ("name of 1 byte", |task| task.name.len() == 1),
    ("name of 12 bytes", |task| task.name.len() == 12),
    ("name with -", |task| task.name.contains('-')),
    ("C 1", |task| task.execution == 1),
    ("C 250,000,000", |task| task.execution == 250_000_000),
    ("C above D", |task| task.execution > task.deadline),
    ("T 1", |task| task.period == 1),
    ("T 250,000,000", |task| task.period == 250_000_000),
    ("D 1", |task| task.deadline == 1),
    ("D 250,000,000", |task| task.deadline == 250_000_000),
    ("D = T", |task| task.deadline == task.period),
    ("J 0", |task| task.jitter == 0),
    ("J = D", |task| task.jitter == task.deadline),
    ("J 250,000,000", |task| task.jitter == 250_000_000),
    ("UCB empty", |task| {
        task.useful.iter().all(|count| *count == 0)
    }),
    ("ECB empty", |task| task.evicting.is_empty()),
    ("UCB not inside ECB", |task| {
        let outside = |set: usize| !task.evicting.contains(&set);
        (0..task.useful.len()).any(|set| task.useful[set] > 0 && outside(set))
    }),
];

const OF_ROW: [OfRow; 9] = [
    (
        "UCB-Union below ECB-Union",
        |row| matches!((row.answers[3], row.answers[4]), (Some(a), Some(b)) if a < b),
    ),
    (
        "ECB-Union below UCB-Union",
        |row| matches!((row.answers[3], row.answers[4]), (Some(a), Some(b)) if a > b),
    ),
    ("only UCB-Union in time", |row| {
        row.answers[3].is_some() && row.answers[4].is_none()
    }),
    ("only ECB-Union in time", |row| {
        row.answers[3].is_none() && row.answers[4].is_some()
    }),
    ("neither union in time", |row| {
        row.answers[3].is_none() && row.answers[4].is_none() && row.answers[0].is_some()
    }),
    ("all six in time", |row| {
        row.answers.iter().all(Option::is_some)
    }),
    ("none in time", |row| {
        row.answers.iter().all(Option::is_none)
    }),
    ("at its limit", |row| row.answers.contains(&Some(row.limit))),
    ("nine digits", |row| {
        matches!(row.answers[1], Some(100_000_000..))
    }),
];

fn load_of(table: &Table) -> f64 {
    let load = |task: &Task| task.execution as f64 / task.period as f64;
    table.tasks.iter().map(load).sum()
}

const OF_ASKING: [&str; 4] = [
    "12 before a refusal of the text",
    "12 before 13",
    "a refusal of the text before 13",
    "a refusal of the text before 14",
];

const OF_WRITING: [&str; 4] = [
    "written again: a refusal of the text before 14",
    "written again: refusal 14",
    "value refused: 14",
    "value refused: 25 before 14",
];

/// How often each class was reached.
#[derive(Default)]
pub struct Classes {
    counts: BTreeMap<String, u64>,
}

impl Classes {
    /// With every class that has to be reached, besides the plans of spoiled texts.
    pub fn new() -> Classes {
        let mut classes = Classes::default();
        for number in 1..=25 {
            classes.require(&refusal_name(number));
        }
        let names = OF_ASKING.into_iter().chain(OF_WRITING);
        let names = names.chain(OF_TABLE.iter().map(|class| class.0));
        let names = names.chain(OF_TASK.iter().map(|class| class.0));
        for name in names.chain(OF_ROW.iter().map(|class| class.0)) {
            classes.require(name);
        }
        let further = [
            accesses::all(),
            counted::all(),
            explained::all(),
            values::all(),
            growths::all(),
            pool::all(),
            laws::all(),
            lists::all(),
            deadlines::all(),
            replays::all(),
        ];
        for name in further.iter().flatten() {
            classes.require(name);
        }
        for name in spelled::all() {
            classes.require(&written_again(&name));
        }
        classes
    }

    pub fn require(&mut self, name: &str) {
        self.counts.entry(name.to_string()).or_insert(0);
    }

    pub fn reach(&mut self, name: &str) {
        *self.counts.entry(name.to_string()).or_insert(0) += 1;
    }

    pub fn reach_refusal(&mut self, number: u64) {
        self.reach(&refusal_name(number));
    }

    pub fn reach_table(&mut self, table: &Table, rows: &[Row]) {
        for (name, holds) in OF_TABLE {
            self.reach_if(name, holds(table));
        }
        for (name, holds) in OF_TASK {
            self.reach_if(name, table.tasks.iter().any(holds));
        }
        for (name, holds) in OF_ROW {
            self.reach_if(name, rows.iter().any(holds));
        }
        let further = [
            accesses::reached_by_table(table),
            counted::reached_by_table(table),
        ];
        for name in further.iter().flatten() {
            self.reach(name);
        }
    }

    pub fn reach_explained(&mut self, outcome: &Outcome) {
        for name in explained::reached(outcome) {
            self.reach(&name);
        }
    }

    pub fn reach_explained_in_rooms(&mut self, outcome: &Outcome) {
        for name in explained::reached_in_rooms(outcome) {
            self.reach(&name);
        }
    }

    /// By a text that was asked for all its growths and scaled tables.
    pub fn reach_growths(&mut self, text: &[u8], outcome: &Outcome, growths: &Growths) {
        for name in growths::reached(text, outcome, growths) {
            self.reach(&name);
        }
    }

    /// By the calls that each worker of a pool made, in step with the others or not.
    pub fn reach_pool(&mut self, calls: &[Call], logs: &[Vec<Made>], in_step: bool) {
        let mut names = pool::reached(calls, logs);
        if in_step {
            names.extend(pool::reached_in_step(calls, logs));
        }
        for name in names {
            self.reach(&name);
        }
    }

    /// By the answers of a text by all methods.
    pub fn reach_beside(&mut self, rows: &[Row]) {
        for name in laws::reached_by_rows(rows) {
            self.reach(&name);
        }
    }

    /// By a table, and the same with a line more at a position.
    pub fn reach_line(&mut self, before: &Outcome, after: &Outcome, place: usize) {
        for name in laws::reached_by_line(before, after, place) {
            self.reach(&name);
        }
    }

    /// By a table, and the same with lines changed that do not matter to the task at `i`.
    pub fn reach_change(&mut self, before: &Outcome, after: &Outcome, i: usize) {
        for name in laws::reached_by_change(before, after, i) {
            self.reach(&name);
        }
    }

    /// By a list that was checked by all methods.
    pub fn reach_list(&mut self, outcome: &Outcome, list: &[u8], checks: &Checks) {
        for name in lists::reached(outcome, list, checks) {
            self.reach(&name);
        }
    }

    pub fn reach_list_in_rooms(&mut self, list: &[u8], outcome: &Outcome) {
        for name in lists::reached_in_rooms(list, &outcome.checks()) {
            self.reach(&name);
        }
    }

    /// By a list that would be refused with this number, beside a refused text.
    pub fn reach_list_beside_refused(&mut self, number: u64) {
        for name in lists::reached_beside_refused(number) {
            self.reach(&name);
        }
    }

    /// By a text that was asked for the verdict by deadlines.
    pub fn reach_by_deadlines(&mut self, outcome: &Outcome) {
        for name in deadlines::reached(outcome) {
            self.reach(&name);
        }
    }

    /// By a text that was asked for the replays of all its tasks.
    pub fn reach_replays(&mut self, outcome: &Outcome) {
        for name in replays::reached(outcome) {
            self.reach(&name);
        }
    }

    pub fn reach_rewritten(&mut self, outcome: &Outcome) {
        if let (Some(table), Ok(writing)) = (outcome.table(), outcome.writing()) {
            for name in spelled::reached(&Value::of(table), &writing) {
                self.reach(&written_again(&name));
            }
        }
    }

    pub fn reach_rewritten_in_rooms(&mut self, outcome: &Outcome) {
        self.reach(match outcome.refusal() {
            Some(_) => "written again: a refusal of the text before 14",
            None => "written again: refusal 14",
        });
    }

    /// By a value that was made from one that a text gives; `reasons` is all that is wrong with it.
    pub fn reach_value(
        &mut self,
        before: &Value,
        value: &Value,
        writing: &Writing,
        reasons: &Names,
    ) {
        for name in values::reached(before, value, writing, reasons) {
            self.reach(&name);
        }
        if !writing.is_given() {
            self.reach_refusal(25);
        }
    }

    pub fn reach_value_in_rooms(&mut self, writing: &Writing) {
        self.reach(if writing.is_given() {
            "value refused: 14"
        } else {
            "value refused: 25 before 14"
        });
    }

    fn reach_if(&mut self, name: &str, reached: bool) {
        if reached {
            self.reach(name);
        }
    }

    pub fn missed(&self) -> Vec<&str> {
        let missed = self.counts.iter().filter(|class| *class.1 == 0);
        missed.map(|class| class.0.as_str()).collect()
    }

    pub fn len(&self) -> usize {
        self.counts.len()
    }

    pub fn is_empty(&self) -> bool {
        self.counts.is_empty()
    }

    /// How often the classes were reached that `wanted` picks.
    pub fn lines(&self, wanted: impl Fn(&str) -> bool) -> Vec<String> {
        let picked = self.counts.iter().filter(|class| wanted(class.0));
        picked
            .map(|(name, count)| format!("{count:>8}  {name}"))
            .collect()
    }
}

fn refusal_name(number: u64) -> String {
    format!("refusal {number:2}")
}

fn written_again(name: &str) -> String {
    format!("written again: {name}")
}
