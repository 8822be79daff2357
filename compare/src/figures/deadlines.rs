//! Verdicts worked out by hand, where the earliest deadline comes first.

use super::{text, Expected, Figure, A, M, P};
use crate::model::Refusal;

/// Each takes half of the time, and both are due at the same time.
const HALVES: &str = "K 4 1|T a 2 4 4 0 0 f f|T b 2 4 4 0 0 f f|";

/// b has four blocks that a evicts, and is charged for a ⌈(9 - 4) / 5⌉ times: once. In 9 ticks there are two jobs of a, of 2
/// each, and one of b of 1 + 4: just as many ticks.
const CHARGED: &str = "K 4 1|T a 2 5 4 0 0 0 f|T b 1 10 9 0 0 f 0|";

/// The same with two ways of which one set has 2 blocks: 1 + 5 for b.
const COUNTED: &str = "K 4 1 2|T a 2 5 4 0 0 0000 f|T b 1 10 9 0 0 2111 0|";

/// a takes 2 of 2 ticks and b 3 more of 5, so that the first jobs have as much time as there is; but the second one
/// of a makes it 7 of 6. All jobs together take all of the time.
const LATER: &str = "K 4 0|T a 2 4 2 0 0 0 0|T b 3 6 5 0 0 0 0|";

pub fn all() -> Vec<Figure> {
    let verdict = |name, table: &str, verdict| Figure {
        name,
        text: text(table),
        expected: Expected::Verdict(verdict),
    };
    let refused = |name, table: &str, number, line| Figure {
        name,
        text: text(table),
        expected: Expected::NoVerdict(Refusal::new(number, line)),
    };
    let with = |from: &str, to: &str| CHARGED.replace(from, to);
    let periods =
        |one: u64, other: u64| format!("K 4 0|T a 1 {one} 9 0 0 0 0|T b 1 {other} 9 0 0 0 0|");
    let alone = |execution: u64| format!("K 4 0|T a {execution} 250000000 250000000 0 0 0 0|");
    vec![
        verdict("A by deadlines", A, true),
        verdict("M by deadlines", M, true),
        // 2 in 5, 5 in 8, 7 in 10, 9 in 15, 12 in 16 ..., and 31 of 40
        verdict("P by deadlines", P, true),
        verdict("halves, due at the same time", HALVES, true),
        verdict(
            "a tick more than the halves",
            &HALVES.replace("b 2", "b 3"),
            false,
        ),
        verdict("charged as much as there is time", CHARGED, true),
        verdict("a tick more for b", &with("b 1", "b 2"), false),
        verdict("a tick earlier for b", &with("10 9", "10 8"), true),
        // 2 + 5 ticks in 6
        verdict("three ticks earlier for b", &with("10 9", "10 6"), false),
        verdict("twice as long a reload", &with("K 4 1", "K 4 2"), false),
        // ⌈(10 - 4) / 5⌉ is 2: 4 + 1 + 8 ticks in 10
        verdict("charged twice", &with("10 9", "10 10"), false),
        verdict("charged by blocks", COUNTED, false),
        verdict(
            "charged by fewer blocks",
            &COUNTED.replace("2111", "2011"),
            true,
        ),
        verdict(
            "nothing charged at the same deadline",
            &with("10 9", "10 4"),
            true,
        ),
        verdict("late with the second job of a", LATER, false),
        verdict("a tick less for b", &LATER.replace("b 3", "b 2"), true),
        verdict("all of the longest time", &alone(250_000_000), true),
        verdict(
            "periods together at 249,971,910",
            &periods(15_810, 15_811),
            true,
        ),
        refused(
            "periods together at 250,003,532",
            &periods(15_811, 15_812),
            23,
            0,
        ),
        refused("a jitter", &with("4 0 0", "4 1 0"), 21, 2),
        refused("the lower task's jitter", &with("9 0 0", "9 1 0"), 21, 3),
        refused("an access", &[CHARGED, "A b a 1 0|"].concat(), 22, 4),
        refused("007 by deadlines", &with("K 4 1", "K 4 007"), 5, 1),
    ]
}
