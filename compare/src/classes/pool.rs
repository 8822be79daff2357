//! What the calls of several workers have to reach.

use super::Names;
use crate::checks::pool::{Call, Given, Made, Operation};
use std::collections::{BTreeMap, BTreeSet};

/// Of two calls that a worker made one after the other, into the same buffer.
type OfPair = (&'static str, fn(&Given, &Given) -> bool);

const OF_PAIR: [OfPair; 4] = [
    ("a text after a longer one", |before, given| {
        !given.written.is_empty() && given.written.len() < before.written.len()
    }),
    ("a text after a shorter one", |before, given| {
        !before.written.is_empty() && before.written.len() < given.written.len()
    }),
    ("a refusal after a text", |before, given| {
        !before.written.is_empty() && given.refusal().is_some()
    }),
    ("a text after a refusal", |before, given| {
        before.refusal().is_some() && !given.written.is_empty()
    }),
];

/// The refusals of calls.
const OF_CALLS: [Option<u64>; 10] = [
    None,
    Some(12),
    Some(13),
    Some(14),
    Some(19),
    Some(20),
    Some(21),
    Some(22),
    Some(23),
    Some(24),
];

const BY_TWO: &str = "a text asked by two workers";
const BY_ALL_AT_ONCE: &str = "a text asked by all workers at once";
const CALL_AT_ONCE: &str = "the same call by two workers at once";

pub fn all() -> Names {
    let mut names: Names = OF_PAIR.iter().map(|class| full(class.0)).collect();
    names.extend([BY_TWO, BY_ALL_AT_ONCE, CALL_AT_ONCE].map(full));
    for operation in Operation::NAMES {
        names.extend([true, false].map(|is_given| of_operation(operation, is_given)));
    }
    names.extend(OF_CALLS.map(refused));
    names
}

/// By the calls that each worker made.
pub fn reached(calls: &[Call], logs: &[Vec<Made>]) -> Names {
    let mut names = Names::new();
    let mut workers: BTreeMap<&[u8], BTreeSet<usize>> = BTreeMap::new();
    for (worker, log) in logs.iter().enumerate() {
        for made in log {
            let call = &calls[made.call];
            workers.entry(call.text).or_default().insert(worker);
            let refusal = made.given.refusal();
            names.insert(of_operation(call.operation.name(), refusal.is_none()));
            names.extend(refusal.map(|number| refused(asked_too_much(number))));
        }
        for pair in log.windows(2) {
            let holds = |class: &&OfPair| class.1(&pair[0].given, &pair[1].given);
            names.extend(OF_PAIR.iter().filter(holds).map(|class| full(class.0)));
        }
    }
    if workers.values().any(|workers| workers.len() > 1) {
        names.insert(full(BY_TWO));
    }
    names
}

/// By the same where the workers made each call at the same time.
pub fn reached_in_step(calls: &[Call], logs: &[Vec<Made>]) -> Names {
    let mut names = Names::new();
    let steps = logs.iter().map(Vec::len).min().unwrap_or(0);
    for step in 0..steps {
        let made = || logs.iter().map(move |log| log[step].call);
        let texts: BTreeSet<&[u8]> = made().map(|call| calls[call].text).collect();
        let different: BTreeSet<usize> = made().collect();
        if texts.len() == 1 {
            names.insert(full(BY_ALL_AT_ONCE));
        }
        if different.len() < logs.len() {
            names.insert(full(CALL_AT_ONCE));
        }
    }
    names
}

/// The refusals that are not of the text.
fn asked_too_much(number: u64) -> Option<u64> {
    Some(number).filter(|number| matches!(number, 12..=14 | 19..=24))
}

fn refused(number: Option<u64>) -> String {
    full(&match number {
        Some(number) => format!("refusal {number}"),
        None => "a refusal of the text".to_string(),
    })
}

fn of_operation(name: &str, is_given: bool) -> String {
    let word = if is_given { "given" } else { "refused" };
    full(&format!("{name}, {word}"))
}

fn full(name: &str) -> String {
    format!("pool: {name}")
}
