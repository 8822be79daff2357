//! Replays worked out by hand.

use super::{text, Expected, Figure, A, P};
use crate::model::Refusal;

/// b begins with its first job when a has run, and has a tick of it left when it is due and its next job comes. It runs
/// up to 8, and c has the tick after that.
const KEPT: &str = "K 4 0|T a 4 10 10 0 0 0 0|T b 2 5 5 0 0 0 0|T c 1 20 20 0 0 0 0|";

pub fn all() -> Vec<Figure> {
    let replay = |name, table: &str, position, end| Figure {
        name,
        text: text(table),
        expected: Expected::Replay(position, end),
    };
    let refused = |name, table: &str, position, number, line| Figure {
        name,
        text: text(table),
        expected: Expected::NoReplay(position, Refusal::new(number, line)),
    };
    let b_due = |deadline: &str| P.replace("8 8", &format!("8 {deadline}"));
    let full = P.replace("a 2", "a 5");
    let alone = |execution: u64, deadline: u64| {
        format!("K 4 0|T a {execution} 250000000 {deadline} 0 0 0 0|")
    };
    let jitter = P.replace("8 8 0", "8 8 1");
    let access = [P, "A b a 1 0|"].concat();
    vec![
        replay("P, a replayed", P, 0, 2),
        replay("P, b replayed", P, 1, 5),
        replay("P, b due in 5 replayed", &b_due("5"), 1, 5),
        replay("P, b due in 4 replayed", &b_due("4"), 1, 0),
        replay("P, nothing left for b in a replay", &full, 1, 0),
        replay("A, c replayed without costs", A, 2, 5),
        replay("KEPT, b has a tick left", KEPT, 1, 0),
        replay("KEPT, c replayed", KEPT, 2, 9),
        replay(
            "100,000 ticks replayed",
            &alone(100_000, 100_000),
            0,
            100_000,
        ),
        replay("100,001 ticks in 100,000", &alone(100_001, 100_000), 0, 0),
        refused("a deadline of 100,001", &alone(1, 100_001), 0, 24, 0),
        refused("no task to be replayed", P, 2, 13, 0),
        refused("no task, and a jitter", &jitter, 2, 21, 3),
        refused("no task, and an access", &access, 2, 22, 4),
        refused("no text to be replayed", "", 0, 2, 0),
    ]
}
