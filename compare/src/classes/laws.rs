//! What the methods beside each other, tables with a task line more and tables with other lines changed have
//! to reach.

use super::Names;
use crate::model::laws::Answer;
use crate::model::{Access, Form, Outcome, Row, Table, METHODS, TASKS_MOST, WAYS_MOST};

/// Of an answer by a method and that by another one.
type OfPair = (&'static str, fn(Answer, Answer) -> bool);

/// Of an answer without and with a line more; each for every method.
type OfAnswers = (&'static str, fn(Answer, Answer) -> bool);

/// Of a table with a line more, and that line's position.
type OfLonger = (&'static str, fn(&Table, usize) -> bool);

/// Of an access of a table with a line more that may block a task, and of the line's position.
type OfAccess = (&'static str, fn(&Access, usize) -> bool);

/// Of a table before and after a change that the answer of a task does not depend on, and of its position.
type OfChange = (&'static str, fn(&Table, &Table, usize) -> bool);

const OF_PAIR: [OfPair; 4] = [
    (
        "is smaller",
        |one, other| matches!((one, other), (Some(one), Some(other)) if one < other),
    ),
    ("is equal", |one, other| one.is_some() && one == other),
    ("alone is in time", |one, other| {
        one.is_some() && other.is_none()
    }),
    ("has no answer either", |one, other| {
        one.is_none() && other.is_none()
    }),
];

/// Those that never exceed one another, each way round.
const PAIRS: [(usize, usize); 4] = [(3, 1), (4, 2), (5, 3), (5, 4)];

/// Of these either may be the larger one.
const UNORDERED: [(usize, usize); 4] = [(1, 2), (1, 4), (2, 3), (3, 4)];

const OF_ANSWERS: [OfAnswers; 3] = [
    ("a response grows", |before, after| {
        after.is_some() && before < after
    }),
    ("a task becomes unschedulable", |before, after| {
        before.is_some() && after.is_none()
    }),
    ("a task stays unschedulable", |before, after| {
        before.is_none() && after.is_none()
    }),
];

const OF_LONGER: [OfLonger; 6] = [
    ("at the top", |_, place| place == 0),
    ("in the middle", |table, place| {
        place > 0 && place + 1 < table.tasks.len()
    }),
    ("at the end", |table, place| place + 1 == table.tasks.len()),
    ("of a single task", |table, _| table.tasks.len() == 2),
    ("the 32nd", |table, _| table.tasks.len() == TASKS_MOST),
    ("without accesses", |table, _| table.accesses.is_empty()),
];

const OF_ACCESS: [OfAccess; 3] = [
    ("above a ceiling", |access, place| place < access.ceiling),
    ("between a ceiling and its task", |access, place| {
        access.ceiling < place && place < access.task
    }),
    ("below the task of an access", |access, place| {
        place > access.task
    }),
];

const ONLY_BELOW: &str = "only responses below grow, and all stay in time";
const NOTHING_ELSE: &str = "above others, none of which has an answer";

const OF_CHANGE: [OfChange; 13] = [
    ("the first task", |_, _, i| i == 0),
    ("a task between", |before, _, i| {
        i > 0 && i + 1 < before.tasks.len()
    }),
    ("the last task", |before, _, i| {
        i > 0 && i + 1 == before.tasks.len()
    }),
    ("a line below changed", |before, after, i| {
        let mut below = before.tasks[i + 1..].iter();
        below.any(|task| {
            let mut again = after.tasks.iter();
            again.any(|other| other.name == task.name && other != task)
        })
    }),
    ("a line below taken out", |before, after, i| {
        names(before, i).any(|name| !names(after, i).any(|other| other == name))
    }),
    ("a line below put in", |before, after, i| {
        names(after, i).any(|name| !names(before, i).any(|other| other == name))
    }),
    ("lines below in another order", |before, after, i| {
        let has = |table: &Table, name: &str| names(table, i).any(|other| other == name);
        let kept = names(before, i).filter(|name| has(after, name));
        let again = names(after, i).filter(|name| has(before, name));
        !kept.eq(again)
    }),
    ("none may block the task", |before, _, i| {
        blocking(before, i).count() == 0
    }),
    ("one may block the task", |before, _, i| {
        blocking(before, i).count() == 1
    }),
    ("several may block the task", |before, _, i| {
        blocking(before, i).count() > 1
    }),
    ("the ceiling of one that may block", |before, _, i| {
        blocking(before, i).any(|access| access.ceiling == i)
    }),
    (
        "the task of one that may block stands elsewhere",
        |before, after, i| {
            let mut pairs = blocking(before, i).zip(blocking(after, i));
            pairs.any(|(one, other)| one.task != other.task)
        },
    ),
    ("other accesses that cannot block it", |before, after, i| {
        others(before, i) != others(after, i)
    }),
];

const OTHERS_CHANGE: &str = "others have other answers";

/// Of the tasks below.
fn names(table: &Table, i: usize) -> impl Iterator<Item = &str> {
    table.tasks[i + 1..].iter().map(|task| &task.name[..])
}

fn may_block(access: &Access, i: usize) -> bool {
    access.ceiling <= i && i < access.task
}

fn blocking(table: &Table, i: usize) -> impl Iterator<Item = &Access> {
    let accesses = table.accesses.iter();
    accesses.filter(move |access| may_block(access, i))
}

fn others(table: &Table, i: usize) -> Vec<&Access> {
    let accesses = table.accesses.iter();
    accesses.filter(|access| !may_block(access, i)).collect()
}

pub fn all() -> Names {
    let mut names = Names::new();
    for (name, _) in OF_PAIR {
        names.extend(PAIRS.map(|pair| of_pair(pair, name)));
    }
    names.extend(UNORDERED.map(|pair| of_pair(pair, OF_PAIR[0].0)));
    names.extend(UNORDERED.map(|(one, other)| of_pair((other, one), OF_PAIR[0].0)));
    for (name, _) in OF_ANSWERS {
        names.extend((0..METHODS).map(|method| of_method(method, name)));
    }
    names.extend(OF_LONGER.iter().map(|class| added(class.0)));
    names.extend(OF_ACCESS.iter().map(|class| added(class.0)));
    names.extend([ONLY_BELOW, NOTHING_ELSE].map(added));
    names.insert(of_form(Form::Hex));
    names.extend((1..=WAYS_MOST).map(Form::Counted).map(of_form));
    names.extend([1, 9, 10].map(refused));
    names.extend(OF_CHANGE.iter().map(|class| changed(class.0)));
    names.insert(changed(OTHERS_CHANGE));
    names
}

/// By the methods beside each other.
pub fn reached_by_rows(rows: &[Row]) -> Names {
    let mut names = Names::new();
    for row in rows {
        for (name, holds) in OF_PAIR {
            let pairs = PAIRS
                .iter()
                .filter(|pair| holds(row.answers[pair.0], row.answers[pair.1]));
            names.extend(pairs.map(|pair| of_pair(*pair, name)));
        }
        let (name, is_smaller) = OF_PAIR[0];
        for (one, other) in UNORDERED {
            for pair in [(one, other), (other, one)] {
                if is_smaller(row.answers[pair.0], row.answers[pair.1]) {
                    names.insert(of_pair(pair, name));
                }
            }
        }
    }
    names
}

/// By a table, and the same with a line more at a position.
pub fn reached_by_line(before: &Outcome, after: &Outcome, place: usize) -> Names {
    let table = match after.table() {
        Some(table) => table,
        None => {
            let number = after.refusal().map(|refusal| refusal.number);
            return number.into_iter().map(refused).collect();
        }
    };
    let mut names = Names::from([of_form(table.form)]);
    let of_longer = OF_LONGER.iter().filter(|class| class.1(table, place));
    names.extend(of_longer.map(|class| added(class.0)));
    let may_block = |access: &&Access| access.ceiling < access.task;
    let accesses = || table.accesses.iter().filter(may_block);
    let of_access = OF_ACCESS
        .iter()
        .filter(|class| accesses().any(|access| class.1(access, place)));
    names.extend(of_access.map(|class| added(class.0)));
    let below = || before.rows().iter().zip(&after.rows()[1..]).skip(place);
    for method in 0..METHODS as usize {
        let any = |holds: fn(Answer, Answer) -> bool| {
            below().any(|(one, other)| holds(one.answers[method], other.answers[method]))
        };
        let of_answers = OF_ANSWERS.iter().filter(|class| any(class.1));
        names.extend(of_answers.map(|class| of_method(method as u64, class.0)));
    }
    let in_time = |row: &Row| row.answers.iter().all(Option::is_some);
    let has_none = |row: &Row| row.answers.iter().all(Option::is_none);
    if below().count() > 0 && after.rows().iter().all(in_time) {
        names.insert(added(ONLY_BELOW));
    }
    if below().count() > 0 && below().all(|(before, _)| has_none(before)) {
        names.insert(added(NOTHING_ELSE));
    }
    names
}

/// By a table, and the same with lines changed on which the answer of the task at `i` does not depend.
pub fn reached_by_change(before: &Outcome, after: &Outcome, i: usize) -> Names {
    let (one, other) = match (before.table(), after.table()) {
        (Some(one), Some(other)) => (one, other),
        _ => return Names::new(),
    };
    let of_change = OF_CHANGE.iter().filter(|class| class.1(one, other, i));
    let mut names: Names = of_change.map(|class| changed(class.0)).collect();
    let has_changed = |row: &Row| {
        let mut again = after.rows().iter();
        again.any(|other| other.name == row.name && other.answers != row.answers)
    };
    if before.rows().iter().any(has_changed) {
        names.insert(changed(OTHERS_CHANGE));
    }
    names
}

fn of_pair((one, other): (usize, usize), name: &str) -> String {
    format!("methods: {one} beside {other} {name}")
}

fn of_method(method: u64, name: &str) -> String {
    added(&format!("method {method}: {name}"))
}

fn of_form(form: Form) -> String {
    match form {
        Form::Hex => added("to a table in hex"),
        Form::Counted(ways) => added(&format!("to a table with {ways} ways")),
    }
}

fn refused(number: u64) -> String {
    added(&format!("refused with {number}"))
}

fn added(name: &str) -> String {
    format!("a line more: {name}")
}

fn changed(name: &str) -> String {
    format!("other lines changed: {name}")
}
