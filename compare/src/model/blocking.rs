//! What may block a task.

use super::{Access, Error, Table};

/// One thing that may block a task.
#[derive(Clone, Debug, PartialEq, Eq)]
pub struct Blocker {
    /// What stands for B.
    pub length: u64,
    /// The accesses, by their places in the table, that may be pre-empted meanwhile: the one that
    /// blocks, or none where nothing does.
    pub accesses: Vec<usize>,
}

/// Everything of which the worst is taken: each access that may block the task at `i`, or nothing for 0
/// ticks where there is none.
pub fn blockers(table: &Table, i: usize, error: Option<Error>) -> Vec<Blocker> {
    let accesses = table.accesses.iter().enumerate();
    let blocking = accesses.filter(|(_, access)| may_block(access, i, error));
    let each = blocking.map(|(place, access)| Blocker {
        length: access.length,
        accesses: vec![place],
    });
    let each: Vec<Blocker> = each.collect();
    let nothing = Blocker {
        length: 0,
        accesses: Vec::new(),
    };
    match error {
        _ if each.is_empty() => vec![nothing],
        Some(Error::LooksAtNothingFirst) => [vec![nothing], each].concat(),
        _ => mistaken(each, error),
    }
}

fn may_block(access: &Access, i: usize, error: Option<Error>) -> bool {
    let is_below = match error {
        Some(Error::BlocksItself) => access.task >= i,
        _ => access.task > i,
    };
    let reaches_up = match error {
        Some(Error::HoldsCeilingAgainstTask) => access.ceiling <= access.task,
        Some(Error::WantsCeilingAbove) => access.ceiling < i,
        _ => access.ceiling <= i,
    };
    is_below && reaches_up
}

/// What an error makes of the accesses that may block a task, of which there is one at least.
fn mistaken(each: Vec<Blocker>, error: Option<Error>) -> Vec<Blocker> {
    let lengths = each.iter().map(|blocker| blocker.length);
    let longest = lengths.clone().max().unwrap_or(0);
    match error {
        Some(Error::AddsLengths) => {
            let length = lengths.sum();
            let longer = |blocker: &Blocker| Blocker {
                length,
                ..blocker.clone()
            };
            each.iter().map(longer).collect()
        }
        Some(Error::TakesLongest) => {
            let is_longest = |blocker: &Blocker| blocker.length == longest;
            each.into_iter().find(is_longest).into_iter().collect()
        }
        Some(Error::TakesAllAtOnce) => {
            let all = each.into_iter().flat_map(|blocker| blocker.accesses);
            vec![Blocker {
                length: longest,
                accesses: all.collect(),
            }]
        }
        _ => each,
    }
}

/// The largest over the blockers; none where one of them leaves none.
pub fn worst(responses: Vec<Option<u64>>, error: Option<Error>) -> Option<u64> {
    match error {
        Some(Error::TakesSmallest) => responses.into_iter().flatten().min(),
        Some(Error::PassesOverNone) => responses.into_iter().flatten().max(),
        _ => {
            let all: Option<Vec<u64>> = responses.into_iter().collect();
            all?.into_iter().max()
        }
    }
}
