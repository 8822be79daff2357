//! What the explanations of the made-up texts have to reach.

use super::{accesses, Names};
use crate::model::{Explanation, Interference, Outcome, FIGURE_MOST};

/// Of the figures of UCB-Union and ECB-Union, and the method that explains the combined one.
type OfUnions = (&'static str, fn(Option<u64>, Option<u64>, u64) -> bool);
type OfExplanation = (&'static str, fn(&Explanation) -> bool);
type OfVictim = (&'static str, fn(&Interference) -> bool);

const OF_UNIONS: [OfUnions; 6] = [
    ("UCB-Union is smaller", |useful, evicting, by| {
        by == 3 && evicting.is_some() && useful < evicting
    }),
    ("only ECB-Union is beyond", |useful, evicting, by| {
        by == 3 && evicting.is_none() && useful.is_some()
    }),
    ("ECB-Union is smaller", |useful, evicting, by| {
        by == 4 && evicting.is_some() && evicting < useful
    }),
    ("only UCB-Union is beyond", |useful, evicting, by| {
        by == 4 && evicting.is_some() && useful.is_none()
    }),
    ("both unions are equal", |useful, evicting, by| {
        by == 4 && evicting.is_some() && useful == evicting
    }),
    ("both unions are beyond", |useful, evicting, by| {
        by == 4 && evicting.is_none() && useful.is_none()
    }),
];

const OF_EXPLANATION: [OfExplanation; 18] = [
    ("needs less than it has", |task| {
        task.figure.is_some() && task.figure < Some(task.limit)
    }),
    ("needs what it has", |task| task.figure == Some(task.limit)),
    ("needs a tick more than it has", |task| {
        task.figure == Some(task.limit + 1)
    }),
    ("needs far more than it has", |task| {
        task.figure > Some(10 * task.limit)
    }),
    ("needs 250,000,000, the first", |task| {
        task.figure == Some(FIGURE_MOST) && task.position == 0
    }),
    ("needs 250,000,000, below others", |task| {
        task.figure == Some(FIGURE_MOST) && task.position > 0
    }),
    ("needs 250,000,001", |task| {
        own(task) == FIGURE_MOST + 1 && task.position == 0
    }),
    ("beyond, but C and what blocks are not", |task| {
        own(task) <= FIGURE_MOST && task.figure.is_none()
    }),
    ("beyond by method 0", |task| is_beyond_by(0, task)),
    ("beyond by method 1", |task| is_beyond_by(1, task)),
    ("beyond by method 2", |task| is_beyond_by(2, task)),
    ("beyond by method 3", |task| is_beyond_by(3, task)),
    ("beyond by method 4", |task| is_beyond_by(4, task)),
    ("31 tasks above", |task| task.taken.len() == 31),
    ("activations of nine digits", |task| {
        task.taken
            .iter()
            .any(|above| above.activations > 99_999_999)
    }),
    ("activations at a period's end", |task| {
        task.taken.iter().any(|above| above.ends_period)
    }),
    ("256 reloads", |task| {
        task.taken.iter().any(|above| above.reloads == 256)
    }),
    ("2,048 reloads", |task| {
        task.taken.iter().any(|above| above.reloads == 2_048)
    }),
];

/// Each for methods 2 and 4.
const OF_VICTIM: [OfVictim; 6] = [
    ("hits the task just below", |above| {
        distance(above) == Some(1)
    }),
    ("hits one further down", |above| distance(above) > Some(1)),
    ("hits the first of several equals", |above| {
        above.reloads > 0 && equals(above) > 1
    }),
    ("hits equals further down", |above| {
        distance(above) > Some(1) && equals(above) > 1
    }),
    ("hits none of several", |above| {
        above.reloads == 0 && equals(above) > 1
    }),
    (
        "hits one named -",
        |above| matches!(&above.victim, Some((_, name)) if name == "-"),
    ),
];

fn own(task: &Explanation) -> u64 {
    task.execution + task.blocking
}

fn is_beyond_by(method: u64, task: &Explanation) -> bool {
    task.method == method && task.figure.is_none()
}

/// How far below the pre-empting task its victim stands; not where that is hit in an access.
fn distance(above: &Interference) -> Option<usize> {
    let victim = above.victim.as_ref().map(|(victim, _)| victim);
    let victim = victim.filter(|victim| !victim.in_access)?;
    Some(victim.task - above.position)
}

/// How many of the affected tasks have the largest value.
fn equals(above: &Interference) -> usize {
    let has_most = |value: &&usize| **value == above.reloads;
    above.values.iter().filter(has_most).count()
}

/// By a text that is accepted.
const ASKED: [&str; 3] = ["refusal 12", "refusal 13", "12 before 13"];
const ASKED_IN_ROOMS: [&str; 3] = ["refusal 14", "12 before 14", "13 before 14"];

/// By a text that is refused.
const REFUSED: [&str; 2] = [
    "12 before a refusal of the text",
    "a refusal of the text before 13",
];
const REFUSED_IN_ROOMS: [&str; 1] = ["a refusal of the text before 14"];

pub fn all() -> Names {
    let mut names: Vec<&str> = Vec::new();
    names.extend(OF_UNIONS.iter().map(|class| class.0));
    names.extend(OF_EXPLANATION.iter().map(|class| class.0));
    names.extend(ASKED.iter().chain(&ASKED_IN_ROOMS));
    names.extend(REFUSED.iter().chain(&REFUSED_IN_ROOMS));
    let victims = OF_VICTIM.iter().map(|class| class.0);
    let victims = victims.flat_map(|name| [2, 4].map(|method| of_method(method, name)));
    names.into_iter().map(full).chain(victims).collect()
}

/// What a text reaches that is asked for all its explanations, and for some that are refused.
pub fn reached(outcome: &Outcome) -> Names {
    let asked = match outcome.refusal() {
        Some(_) => &REFUSED[..],
        None => &ASKED[..],
    };
    let mut reached: Names = asked.iter().copied().map(full).collect();
    let explanations = outcome.explanations();
    for position in 0..outcome.rows().len() as u64 {
        let explain = |method| explanations.explain(method, position).ok();
        let six: Vec<Explanation> = (0..6).filter_map(explain).collect();
        let (useful, evicting, by) = (six[3].figure, six[4].figure, six[5].method);
        let unions = OF_UNIONS
            .iter()
            .filter(|class| class.1(useful, evicting, by));
        reached.extend(unions.map(|class| full(class.0)));
        reached.extend(six.iter().flat_map(reached_by));
        if let Some(table) = outcome.table() {
            reached.extend(accesses::reached_by_task(table, &six));
        }
    }
    reached
}

fn reached_by(task: &Explanation) -> Names {
    let classes = OF_EXPLANATION.iter().filter(|class| class.1(task));
    let names = classes.map(|class| full(class.0));
    let victims = OF_VICTIM
        .iter()
        .filter(|class| task.taken.iter().any(class.1));
    names
        .chain(victims.map(|class| of_method(task.method, class.0)))
        .collect()
}

/// What a text reaches that is asked for explanations into buffers of every length.
pub fn reached_in_rooms(outcome: &Outcome) -> Names {
    let asked = match outcome.refusal() {
        Some(_) => &REFUSED_IN_ROOMS[..],
        None => &ASKED_IN_ROOMS[..],
    };
    asked.iter().copied().map(full).collect()
}

fn full(name: &str) -> String {
    format!("explained: {name}")
}

fn of_method(method: u64, name: &str) -> String {
    full(&format!("method {method} {name}"))
}
