//! What the growths of the made-up texts, and the tables scaled by them, have to reach.

use super::Names;
use crate::model::{Error, Growing, Growths, Outcome, Table, GROWTH_MOST, METHODS, TEXT_MOST};

/// Of a growth, each for every method.
type OfGrowth = (&'static str, fn(u64) -> bool);

/// Of the k after the growth, which fails; by any method.
type OfNext = (&'static str, fn(&Next) -> bool);

/// Of the growths by UCB-Union, ECB-Union and the combined method.
type OfUnions = (&'static str, fn(u64, u64, u64) -> bool);

/// Of the growth, the text and the text of the scaled table.
type OfScaled = (&'static str, fn(u64, &[u8], &[u8]) -> bool);

const OF_GROWTH: [OfGrowth; 9] = [
    ("0", |k| k == 0),
    ("1", |k| k == 1),
    ("2 to 998", |k| (2..999).contains(&k)),
    ("999", |k| k == 999),
    ("1,000", |k| k == 1_000),
    ("1,001", |k| k == 1_001),
    ("1,002 to 3,998", |k| (1_002..3_999).contains(&k)),
    ("3,999", |k| k == 3_999),
    ("4,000", |k| k == GROWTH_MOST),
];

/// A k that fails though the one before it passes, or is the first.
struct Next<'a> {
    growing: &'a Growing<'a>,
    /// The same rounded down, and rounded to the nearest.
    rounded: &'a [Growing<'a>; 2],
    table: &'a Table,
    method: u64,
    k: u64,
    /// The positions of the tasks without a response; none where the text is refused.
    late: Vec<usize>,
}

impl Next<'_> {
    fn is_first(&self) -> bool {
        self.k == 1
    }

    fn only_late(&self) -> Option<usize> {
        match self.late[..] {
            [one] => Some(one),
            _ => None,
        }
    }

    /// Whether the k would pass in a table with something changed.
    fn passes_after(&self, change: impl FnOnce(&mut Vec<Vec<Vec<u8>>>)) -> bool {
        let text = self.growing.text(self.k);
        let lines = text.split(|byte| *byte == b'\n');
        let fields = |line: &[u8]| line.split(|byte| *byte == b'\t').map(Vec::from).collect();
        let mut lines: Vec<Vec<Vec<u8>>> = lines.map(fields).collect();
        change(&mut lines);
        let lines: Vec<Vec<u8>> = lines.iter().map(|line| line.join(&b'\t')).collect();
        let outcome = Outcome::of(&lines.join(&b'\n'), None);
        let in_time = |method: u64| {
            let mut rows = outcome.rows().iter();
            rows.all(|row| row.answers[method as usize].is_some())
        };
        outcome.refusal().is_none() && in_time(self.method)
    }
}

const OF_NEXT: [OfNext; 12] = [
    ("the next is refused", |next| {
        next.growing.refusal(next.k).is_some()
    }),
    ("the next is a byte too long", |next| {
        next.growing.text(next.k).len() == TEXT_MOST + 1
    }),
    ("the next leaves only the first task late", |next| {
        next.only_late() == Some(0) && next.table.tasks.len() > 1
    }),
    ("the next leaves only the last task late", |next| {
        let last = next.table.tasks.len() - 1;
        next.only_late() == Some(last) && last > 0
    }),
    ("the next leaves only one between late", |next| {
        let last = next.table.tasks.len() - 1;
        matches!(next.only_late(), Some(one) if one > 0 && one < last)
    }),
    ("the next leaves several tasks late", |next| {
        next.late.len() > 1
    }),
    ("the next would pass without accesses", |next| {
        let has_accesses = !next.table.accesses.is_empty();
        has_accesses && next.passes_after(|lines| lines.retain(|line| line[0] != b"A"))
    }),
    ("the next would pass without reloads", |next| {
        next.growing.passes(0, next.k)
    }),
    ("the next would pass, rounded down", |next| {
        next.rounded[0].passes(next.method, next.k)
    }),
    ("the next would pass, rounded to the nearest", |next| {
        next.rounded[1].passes(next.method, next.k)
    }),
    ("0, though each C is a tick", |next| {
        let is_tick = |execution: u64| execution <= 1_000;
        next.is_first() && next.table.tasks.iter().all(|task| is_tick(task.execution))
    }),
    ("a C of 1 stays, and others shrink", |next| {
        let has_one = next.table.tasks.iter().any(|task| task.execution == 1);
        (2..1_000).contains(&next.k) && has_one
    }),
];

const OF_UNIONS: [OfUnions; 5] = [
    (
        "combined with UCB-Union, above ECB-Union",
        |useful, evicting, combined| combined == useful && useful > evicting,
    ),
    (
        "combined with ECB-Union, above UCB-Union",
        |useful, evicting, combined| combined == evicting && evicting > useful,
    ),
    ("combined with both unions", |useful, evicting, combined| {
        combined == useful && combined == evicting
    }),
    (
        "combined above both unions, which differ",
        |useful, evicting, combined| combined > useful.max(evicting) && useful != evicting,
    ),
    (
        "combined, though neither union passes",
        |useful, evicting, combined| combined > 0 && useful == 0 && evicting == 0,
    ),
];

const OF_SCALED: [OfScaled; 6] = [
    ("longer than the text", |_, text, scaled| {
        scaled.len() > text.len()
    }),
    ("shorter than the text", |_, text, scaled| {
        scaled.len() < text.len()
    }),
    ("as long as the text, but another", |_, text, scaled| {
        scaled.len() == text.len() && scaled != text
    }),
    ("the text, scaled by 1,000", |k, text, scaled| {
        k == 1_000 && scaled == text
    }),
    ("the text, as no k passes", |k, text, scaled| {
        k == 0 && scaled == text
    }),
    ("with an access", |k, _, scaled| {
        let has_access = scaled.windows(3).any(|three| three == b"\nA\t");
        k > 0 && k != 1_000 && has_access
    }),
];

/// What the last k is refused with, as its C has nine digits or ten, or as the text is too long.
const REFUSED_LAST: [u64; 3] = [6, 5, 1];

const OF_ACCEPTED: [&str; 3] = ["refusal 12", "refusal 14", "12 before 14"];
const OF_REFUSED: [&str; 3] = [
    "12 before a refusal of the text",
    "a refusal of the text",
    "a refusal of the text before 14",
];

pub fn all() -> Names {
    let mut names = Vec::new();
    for (name, _) in OF_GROWTH {
        names.extend((0..METHODS).map(|method| of_method(method, name)));
    }
    names.extend(OF_NEXT.iter().map(|class| full(class.0)));
    names.extend(OF_UNIONS.iter().map(|class| full(class.0)));
    names.extend(OF_SCALED.iter().map(|class| written(class.0)));
    names.extend(REFUSED_LAST.map(refused_last));
    names.extend(OF_ACCEPTED.iter().chain(&OF_REFUSED).map(|name| full(name)));
    names.into_iter().collect()
}

/// By a text that was asked for all its growths and scaled tables.
pub fn reached(text: &[u8], outcome: &Outcome, growths: &Growths) -> Names {
    let (growing, table) = match (growths.growing(), outcome.table()) {
        (Some(growing), Some(table)) => (growing, table),
        _ => return OF_REFUSED.iter().map(|name| full(name)).collect(),
    };
    let rounded = [Error::RoundsDown, Error::RoundsToNearest];
    let rounded = rounded.map(|error| Growing::new(text, table, Some(error)));
    let mut names: Names = OF_ACCEPTED.iter().map(|name| full(name)).collect();
    let each: Vec<u64> = (0..METHODS)
        .flat_map(|method| growths.growth(method))
        .collect();
    for (method, k) in (0..).zip(&each) {
        let classes = OF_GROWTH.iter().filter(|class| class.1(*k));
        names.extend(classes.map(|class| of_method(method, class.0)));
        if *k < GROWTH_MOST {
            let next = Next {
                growing,
                rounded: &rounded,
                table,
                method,
                k: k + 1,
                late: growing.late(method, k + 1),
            };
            let classes = OF_NEXT.iter().filter(|class| class.1(&next));
            names.extend(classes.map(|class| full(class.0)));
        }
        let scaled = growths.scaled(method).unwrap_or_default();
        let classes = OF_SCALED.iter().filter(|class| class.1(*k, text, &scaled));
        names.extend(classes.map(|class| written(class.0)));
    }
    let unions = OF_UNIONS
        .iter()
        .filter(|class| class.1(each[3], each[4], each[5]));
    names.extend(unions.map(|class| full(class.0)));
    let last = growing.refusal(GROWTH_MOST);
    names.extend(last.map(|refusal| refused_last(refusal.number)));
    names
}

fn refused_last(number: u64) -> String {
    full(&format!("k = 4,000 is refused with {number}"))
}

fn full(name: &str) -> String {
    format!("growth: {name}")
}

fn of_method(method: u64, name: &str) -> String {
    full(&format!("method {method}: {name}"))
}

fn written(name: &str) -> String {
    format!("scaled table: {name}")
}
