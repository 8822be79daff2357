//! What tables with accesses, and the explanations of their tasks, have to reach.

use super::Names;
use crate::model::{Access, Case, Explanation, Interference, Table, FIGURE_MOST};

type OfTable = (&'static str, fn(&Table) -> bool);
type OfAccess = (&'static str, fn(&Table, &Access) -> bool);
/// By any one method.
type OfExplanation = (&'static str, fn(&Table, &Explanation) -> bool);
/// By UCB-Union and by ECB-Union.
type OfUnions = (&'static str, fn(&Explanation, &Explanation) -> bool);
/// Of what a task above takes, where an access is explained; each for methods 2 and 4.
type OfVictim = (&'static str, fn(&Interference, &Access) -> bool);

const OF_TABLE: [OfTable; 5] = [
    ("one", |table| table.accesses.len() == 1),
    ("32, of one task", |table| {
        let first = &table.accesses[0];
        table.accesses.len() == 32
            && table
                .accesses
                .iter()
                .all(|access| access.task == first.task)
    }),
    ("32, of several of 32 tasks", |table| {
        let first = &table.accesses[0];
        let others = |access: &Access| access.task != first.task;
        let is_full = table.accesses.len() == 32 && table.tasks.len() == 32;
        is_full && table.accesses.iter().any(others)
    }),
    ("equal ones", |table| {
        let is_again = |index: usize| table.accesses[..index].contains(&table.accesses[index]);
        (0..table.accesses.len()).any(is_again)
    }),
    ("none that may block", |table| {
        let is_own = |access: &Access| access.ceiling == access.task;
        table.accesses.iter().all(is_own)
    }),
];

const OF_ACCESS: [OfAccess; 10] = [
    ("of length 1", |_, access| access.length == 1),
    ("of length 250,000,000", |_, access| {
        access.length == 250_000_000
    }),
    ("with the task as ceiling", |_, access| {
        access.ceiling == access.task
    }),
    ("with the task above as ceiling", |_, access| {
        access.ceiling + 1 == access.task
    }),
    ("with the highest task as ceiling", |_, access| {
        access.ceiling == 0 && access.task > 1
    }),
    ("with a ceiling between", |_, access| {
        access.ceiling > 0 && access.ceiling + 1 < access.task
    }),
    ("with no useful set", |_, access| marks(&access.useful) == 0),
    ("with all sets useful", |table, access| {
        marks(&access.useful) == table.sets
    }),
    ("with sets of the task's", |table, access| {
        let of_task = &table.tasks[access.task].useful;
        let is_inside = is_inside(&access.useful, |set| of_task[set] > 0);
        is_inside && (1..marks(of_task)).contains(&marks(&access.useful))
    }),
    ("with sets of nobody's", |table, access| {
        let has = |set: usize| table.tasks.iter().any(|task| task.useful[set] > 0);
        marks(&access.useful) > 0 && is_inside(&access.useful, |set| !has(set))
    }),
];

/// How many sets have a useful block.
fn marks(counts: &[usize]) -> usize {
    counts.iter().filter(|count| **count > 0).count()
}

fn is_inside(counts: &[usize], has: impl Fn(usize) -> bool) -> bool {
    (0..counts.len()).all(|set| counts[set] == 0 || has(set))
}

const OF_EXPLANATION: [OfExplanation; 14] = [
    ("none of them may block the task", |_, task| {
        task.cases[0].access.is_none()
    }),
    ("one may block the task", |_, task| {
        task.cases.len() == 1 && task.cases[0].access.is_some()
    }),
    ("all of 32 may block the task", |_, task| {
        task.cases.len() == 32
    }),
    ("in time though blocked", |_, task| {
        task.cases[0].access.is_some() && is_in_time(task, &task.cases[task.explained])
    }),
    ("in time with one and not with another", |_, task| {
        let in_time = task.cases.iter().filter(|case| is_in_time(task, case));
        (1..task.cases.len()).contains(&in_time.count())
    }),
    ("the shorter has the larger figure", |table, task| {
        others(task).any(|case| {
            length(table, case).unwrap_or(0) > task.blocking && case.figure < task.figure
        })
    }),
    ("the longer has the larger figure", |table, task| {
        let explained = &task.cases[task.explained];
        let is_shorter = |case: &Case| length(table, case) < length(table, explained);
        others(task).any(|case| is_shorter(case) && case.figure < task.figure)
    }),
    ("equal figures of equal lengths", |table, task| {
        let is_as_long = |case: &Case| length(table, case) == Some(task.blocking);
        equals(task).any(is_as_long)
    }),
    ("equal figures of other lengths", |table, task| {
        let is_as_long = |case: &Case| length(table, case) == Some(task.blocking);
        equals(task).any(|case| !is_as_long(case))
    }),
    ("equal figures after a smaller one", |_, task| {
        task.explained > 0 && equals(task).next().is_some()
    }),
    ("the last has the largest figure", |_, task| {
        task.explained > 0 && task.explained + 1 == task.cases.len()
    }),
    ("one beyond after another that is not", |_, task| {
        task.figure.is_none() && task.cases[0].figure.is_some()
    }),
    ("several beyond", |_, task| {
        let beyond = task.cases.iter().filter(|case| case.figure.is_none());
        beyond.count() > 1
    }),
    ("needs 250,000,000 with one", |_, task| {
        task.cases[0].access.is_some() && task.figure == Some(FIGURE_MOST)
    }),
];

const OF_UNIONS: [OfUnions; 3] = [
    (
        "the unions explained by different ones",
        |useful, evicting| {
            let both = useful.figure.is_some() && evicting.figure.is_some();
            both && useful.explained != evicting.explained
        },
    ),
    ("combined above that with each one", |useful, evicting| {
        let pairs = useful.cases.iter().zip(&evicting.cases);
        let smaller = |(one, other): (&Case, &Case)| Some(one.figure?.min(other.figure?));
        let of_each: Option<Vec<u64>> = pairs.map(smaller).collect();
        match (of_each, useful.figure, evicting.figure) {
            (Some(of_each), Some(one), Some(other)) => {
                of_each.iter().all(|figure| *figure < one.min(other))
            }
            _ => false,
        }
    }),
    ("one union beyond with one", |useful, evicting| {
        useful.cases[0].access.is_some() && useful.figure.is_none() != evicting.figure.is_none()
    }),
];

const OF_VICTIM: [OfVictim; 7] = [
    ("hits its task", |above, _| is_hit(above)),
    ("hits a task that is equal", |above, _| {
        above.reloads > 0 && meets_equal(above)
    }),
    ("hits a task that has more", |above, _| {
        above.meets_access && above.values.last() < Some(&above.reloads)
    }),
    ("hits none of them", |above, _| {
        above.reloads == 0 && meets_equal(above)
    }),
    (
        "hits its task from just above the ceiling",
        |above, access| is_hit(above) && above.position + 1 == access.ceiling,
    ),
    ("hits its task from further above", |above, access| {
        is_hit(above) && above.position + 1 < access.ceiling
    }),
    ("does not meet it at the ceiling", |above, access| {
        !above.meets_access && above.position == access.ceiling
    }),
];

fn is_in_time(task: &Explanation, case: &Case) -> bool {
    matches!(case.figure, Some(figure) if figure <= task.limit)
}

/// The cases beside the one that is explained.
fn others(task: &Explanation) -> impl Iterator<Item = &Case> {
    let cases = task.cases.iter().enumerate();
    let others = cases.filter(|(index, _)| *index != task.explained);
    others.map(|(_, case)| case)
}

/// Those with the same figure as the one that is explained, if that is a number.
fn equals(task: &Explanation) -> impl Iterator<Item = &Case> {
    others(task).filter(|case| case.figure.is_some() && case.figure == task.figure)
}

fn length(table: &Table, case: &Case) -> Option<u64> {
    case.access.map(|access| table.accesses[access].length)
}

fn is_hit(above: &Interference) -> bool {
    matches!(&above.victim, Some((victim, _)) if victim.in_access)
}

/// Whether the access is affected as much as the task that is hit.
fn meets_equal(above: &Interference) -> bool {
    above.meets_access && !is_hit(above) && above.values.last() == Some(&above.reloads)
}

pub fn all() -> Names {
    let mut names: Vec<String> = Vec::new();
    names.extend(OF_TABLE.iter().map(|class| full(class.0)));
    names.extend(OF_ACCESS.iter().map(|class| full(class.0)));
    names.extend(OF_EXPLANATION.iter().map(|class| full(class.0)));
    names.extend(OF_UNIONS.iter().map(|class| full(class.0)));
    for class in OF_VICTIM {
        names.extend([2, 4].map(|method| of_method(method, class.0)));
    }
    names.into_iter().collect()
}

/// What a table reaches by itself.
pub fn reached_by_table(table: &Table) -> Names {
    let mut names = Names::new();
    if table.accesses.is_empty() {
        return names;
    }
    let of_table = OF_TABLE.iter().filter(|class| class.1(table));
    names.extend(of_table.map(|class| full(class.0)));
    let accesses = || table.accesses.iter();
    let of_access = OF_ACCESS
        .iter()
        .filter(|class| accesses().any(|access| class.1(table, access)));
    names.extend(of_access.map(|class| full(class.0)));
    names
}

/// What the explanations of a task by the six methods reach.
pub fn reached_by_task(table: &Table, six: &[Explanation]) -> Names {
    let mut names = Names::new();
    if table.accesses.is_empty() {
        return names;
    }
    for task in &six[..5] {
        let classes = OF_EXPLANATION.iter().filter(|class| class.1(table, task));
        names.extend(classes.map(|class| full(class.0)));
        if let Some(access) = task.cases[task.explained].access {
            let access = &table.accesses[access];
            let taken = || task.taken.iter();
            let victims = OF_VICTIM
                .iter()
                .filter(|class| taken().any(|above| class.1(above, access)));
            names.extend(victims.map(|class| of_method(task.method, class.0)));
        }
    }
    let unions = OF_UNIONS.iter().filter(|class| class.1(&six[3], &six[4]));
    names.extend(unions.map(|class| full(class.0)));
    names
}

fn full(name: &str) -> String {
    format!("accesses: {name}")
}

fn of_method(method: u64, name: &str) -> String {
    full(&format!("method {method} {name}"))
}
