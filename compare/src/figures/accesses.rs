//! The worked figures of tables with accesses.

use super::{explained, of_tables, refused, reported, text, Expected, Figure, A, A_REPORT};

/// Figure 5 of the paper: b and c share a device, and a pre-empts c while it blocks b.
const S: &str = "K 4 1|T a 1 20 20 0 0 0 3|T b 2 40 40 0 0 0 0|T c 3 60 60 0 0 3 3|A c b 2 3|";

/// 5 ticks of b are its own and c's, and one is a's; a makes c reload two blocks.
const S_REPORT: &str = "R a 20 1 1 1 1 1 1|R b 40 5 7 7 7 7 7|R c 60 6 8 10 8 10 8|\
                        V yes yes yes yes yes yes|";

/// An access without useful sets costs its length alone.
const A_BLOCKED: &str = "R a 20 1 1 1 1 1 1|R b 40 6 10 8 8 8 8|R c 60 5 13 9 11 9 9|\
                         V yes yes yes yes yes yes|";

/// The second access is shorter and has more to reload.
const Q: &str = "K 4 1|T a 1 20 20 0 0 0 f|T b 2 40 40 0 0 0 0|T c 2 60 60 0 0 0 0|";
const Q_LONG: &str = "A c b 3 1|";
const Q_SHORT: &str = "A c b 2 f|";

/// As long, with its one reload, as this with its three.
const Q_EQUAL: &str = "A c b 1 7|";

/// d has three blocks to reload in its access; only b evicts.
const C: &str = "K 4 1|T a 1 100 100 0 0 0 0|T b 2 100 100 0 0 0 f|T c 3 100 100 0 0 0 0|\
                 T d 1 100 100 0 0 0 0|";

/// UCB-Union is largest with the first access, as b meets c and the access in sets 0 to 3, and
/// ECB-Union with the second, whose three blocks a and b are both charged for.
const D: &str = "K 8 1|T a 1 100 100 0 0 00 f0|T b 2 200 200 0 0 00 0f|T c 3 300 300 0 0 03 00|\
                 T d 4 400 400 0 0 00 00|A d c 8 0c|A d c 5 70|";

const LONG: &str = "A c b 250000000 0|";
const NEARLY_AS_LONG: &str = "A c b 249999999 f|";

pub fn all() -> Vec<Figure> {
    let mut figures = reports();
    figures.extend(responses());
    figures.extend(explanations());
    figures.extend(refusals());
    figures
}

fn with(table: &str, accesses: &[&str]) -> String {
    [table, &accesses.concat()].concat()
}

fn reports() -> Vec<Figure> {
    let empty = with(A, &["A c b 3 0|"]);
    let own_ceilings = with(A, &["A a a 9 f|A b b 9 f|A c c 9 f|"]);
    let rows: Vec<(&'static str, &str, &str)> = vec![
        ("S, whole report", S, S_REPORT),
        ("A, an access without marks", &empty, A_BLOCKED),
        ("A, the tasks as ceilings", &own_ceilings, A_REPORT),
    ];
    reported(rows)
}

fn responses() -> Vec<Figure> {
    use Expected::{NoResponse, Response};
    let unmarked = S.replace("A c b 2 3|", "A c b 2 0|");
    let q = with(Q, &[Q_LONG, Q_SHORT]);
    let q_alone = with(Q, &[Q_LONG]);
    let q_9 = q.replace("40 40", "40 9");
    let q_8 = q.replace("40 40", "40 8");
    let above = with(C, &["A d a 5 7|"]);
    let at = with(C, &["A d b 5 7|"]);
    let below = with(C, &["A d c 5 7|"]);
    let d_17 = D.replace("300 300", "300 17");
    let d_16 = D.replace("300 300", "300 16");
    let rows: Vec<(&'static str, &str, Expected)> = vec![
        ("S without the marks", &unmarked, Response(3, 1, 5)),
        ("Q, b, method 0: the longer", &q, Response(0, 1, 6)),
        ("Q, b, method 1: the longer", &q, Response(1, 1, 10)),
        ("Q, b, method 2: the shorter", &q, Response(2, 1, 9)),
        ("Q, b, method 3: the shorter", &q, Response(3, 1, 9)),
        ("Q, b, method 4: the shorter", &q, Response(4, 1, 9)),
        ("Q, the longer alone", &q_alone, Response(4, 1, 7)),
        ("Q, D of b = 9", &q_9, Response(5, 1, 9)),
        ("Q, D of b = 8: one has none", &q_8, NoResponse(5, 1)),
        ("Q, D of b = 8, method 0", &q_8, Response(0, 1, 6)),
        ("C, ceiling above b, method 2", &above, Response(2, 2, 11)),
        ("C, ceiling above b, method 3", &above, Response(3, 2, 11)),
        ("C, ceiling above b, method 4", &above, Response(4, 2, 11)),
        ("C, ceiling at b, method 2", &at, Response(2, 2, 14)),
        ("C, ceiling at b, method 3", &at, Response(3, 2, 11)),
        ("C, ceiling at b, method 4", &at, Response(4, 2, 11)),
        ("C, ceiling below b, method 2", &below, Response(2, 2, 17)),
        ("C, ceiling below b, method 3", &below, Response(3, 2, 14)),
        ("C, ceiling below b, method 4", &below, Response(4, 2, 14)),
        ("D, c, method 0", D, Response(0, 2, 14)),
        ("D, c, method 1", D, Response(1, 2, 22)),
        ("D, c, method 2", D, Response(2, 2, 18)),
        ("D, c, method 3: the first", D, Response(3, 2, 18)),
        ("D, c, method 4: the second", D, Response(4, 2, 17)),
        ("D, c, method 5 after that", D, Response(5, 2, 17)),
        ("D, D of c = 17", &d_17, Response(5, 2, 17)),
        ("D, D of c = 16", &d_16, NoResponse(5, 2)),
    ];
    of_tables(rows)
}

fn explanations() -> Vec<Figure> {
    let q = with(Q, &[Q_LONG, Q_SHORT]);
    let q_8 = q.replace("40 40", "40 8");
    let equal = with(Q, &[Q_LONG, Q_EQUAL]);
    let turned = with(Q, &[Q_EQUAL, Q_LONG]);
    let beyond = with(Q, &[Q_LONG, LONG, Q_SHORT]);
    let both_beyond = with(Q, &[Q_LONG, NEARLY_AS_LONG, LONG]);
    let rows: Vec<(&'static str, &str, u64, u64, &str)> = vec![
        ("S, b by method 5", S, 5, 1, "X b 4 7 40 2 2|I a 1 2 c|"),
        ("S, b by method 3", S, 3, 1, "X b 3 7 40 2 2|I a 1 2 -|"),
        ("Q, b by method 0", &q, 0, 1, "X b 0 6 40 2 3|I a 1 0 -|"),
        ("Q, b by method 2", &q, 2, 1, "X b 2 9 40 2 2|I a 1 4 c|"),
        ("Q needs 9, has 8", &q_8, 4, 1, "X b 4 9 8 2 2|I a 1 4 c|"),
        ("Q, equals", &equal, 4, 1, "X b 4 7 40 2 3|I a 1 1 c|"),
        (
            "Q, equals turned",
            &turned,
            4,
            1,
            "X b 4 7 40 2 1|I a 1 3 c|",
        ),
        (
            "Q, one beyond",
            &beyond,
            5,
            1,
            "X b 4 beyond 40 2 250000000|",
        ),
        (
            "Q, two beyond",
            &both_beyond,
            0,
            1,
            "X b 0 beyond 40 2 249999999|",
        ),
        (
            "D, c by method 5",
            D,
            5,
            2,
            "X c 4 17 300 3 5|I a 1 3 d|I b 1 3 d|",
        ),
        (
            "D, c by method 3",
            D,
            3,
            2,
            "X c 3 18 300 3 8|I a 1 0 -|I b 1 4 -|",
        ),
        (
            "D, c by method 2, which is hit before an equal access",
            D,
            2,
            2,
            "X c 2 18 300 3 8|I a 1 2 c|I b 1 2 c|",
        ),
    ];
    explained(rows)
}

fn refusals() -> Vec<Figure> {
    let a_with = |accesses: &str| text(&with(A, &[accesses]));
    let access = "A c b 1 0|";
    let a_blocked = A.replace("40 40 0 0", "40 40 0 1");
    let unblocked = super::longest_report();
    let more = "T a 1 20 20 0 0 0 f|";
    let full_with = |lines: &str| [unblocked.clone(), text(lines)].concat();
    let own = "A longest-name longest-name 1 0|";
    let own_and_more = [own, more].concat();
    let first = A.replace("|T a", "|A c b 1 0|T a");
    vec![
        refused("no such task", a_with("A d b 1 0|"), 15, 5),
        refused("no such ceiling", a_with("A c d 1 0|"), 15, 5),
        refused("a ceiling below", a_with("A a b 1 0|"), 15, 5),
        refused("an access before the tasks", text(&first), 15, 2),
        refused("7 before 15", a_with("A d b 1 00|"), 7, 5),
        refused("a length of 0", a_with("A c b 0 0|"), 6, 5),
        refused(
            "a task after an access",
            a_with("A c b 1 0|T d 1 9 9 0 0 0 0|"),
            3,
            6,
        ),
        refused("a 33rd access", a_with(&access.repeat(33)), 16, 37),
        refused(
            "16 before 3",
            a_with(&[&access.repeat(32), "A|"].concat()),
            16,
            37,
        ),
        refused(
            "B beside an access",
            text(&with(&a_blocked, &[access])),
            17,
            3,
        ),
        refused("32 tasks and another line", full_with("x|"), 3, 34),
        refused(
            "a 33rd task after an access",
            full_with(&own_and_more),
            10,
            35,
        ),
    ]
}

#[cfg(test)]
mod tests {
    use super::*;
    use crate::model::{Error, Outcome, Refusal};

    fn outcome(table: &str, error: Error) -> Outcome {
        Outcome::of(&text(table), Some(error))
    }

    #[test]
    fn the_errors_of_answers_do_what_they_say() {
        let q = with(Q, &[Q_LONG, Q_SHORT]);
        let q_8 = q.replace("40 40", "40 8");
        let above = with(C, &["A d a 5 7|"]);
        let at = with(C, &["A d b 5 7|"]);
        let rows: Vec<(Error, &str, u64, u64, u64)> = vec![
            (Error::BlocksItself, S, 0, 2, 8),
            (Error::HoldsCeilingAgainstTask, S, 0, 0, 3),
            (Error::WantsCeilingAbove, S, 0, 1, 3),
            (Error::PreemptsAtCeiling, &at, 3, 2, 14),
            (Error::PreemptsAtCeiling, &above, 3, 2, 11),
            (Error::PreemptsBelowCeiling, &above, 3, 2, 14),
            (Error::LeavesAccessOutOf2, S, 2, 1, 5),
            (Error::LeavesAccessOutOf3, S, 3, 1, 5),
            (Error::LeavesAccessOutOf4, S, 4, 1, 5),
            (Error::LeavesAccessOutOf4, S, 3, 1, 7),
            (Error::TakesSmallest, &q, 2, 1, 7),
            (Error::PassesOverNone, &q_8, 2, 1, 7),
            (Error::AddsLengths, &q, 0, 1, 8),
            (Error::TakesLongest, &q, 2, 1, 7),
            (Error::TakesAllAtOnce, &q, 3, 1, 10),
            (Error::CombinesPerAccess, D, 5, 2, 16),
        ];
        for (error, table, method, position, ticks) in rows {
            let answer = outcome(table, error).answer(method, position);
            assert_eq!(answer, ticks, "{error:?}");
        }
    }

    #[test]
    fn the_errors_of_explanations_do_what_they_say() {
        let q = with(Q, &[Q_LONG, Q_SHORT]);
        let equal = with(Q, &[Q_LONG, Q_EQUAL]);
        let beyond = with(Q, &[LONG, Q_SHORT]);
        let full = q.replace("a 1 20", "a 20 20");
        let own = "X b 4 7 40 2 0|I a 1 2 c|";
        let hit = "X c 2 18 300 3 8|I a 1 2 d|I b 1 2 d|";
        let rows: Vec<(Error, &str, u64, u64, &str)> = vec![
            (
                Error::ExplainsLastOfEquals,
                &equal,
                4,
                1,
                "X b 4 7 40 2 1|I a 1 3 c|",
            ),
            (Error::ExplainsFirst, &q, 2, 1, "X b 2 7 40 2 3|I a 1 1 c|"),
            (
                Error::ExplainsLargestNumber,
                &beyond,
                4,
                1,
                "X b 4 9 40 2 2|I a 1 4 c|",
            ),
            (
                Error::LooksAtNothingFirst,
                &full,
                4,
                1,
                "X b 4 beyond 40 2 0|",
            ),
            (Error::ShowsNoBlocking, S, 4, 1, own),
            (Error::HitsAccessOfEquals, D, 2, 2, hit),
        ];
        for (error, table, method, position, lines) in rows {
            let outcome = outcome(table, error);
            let explained = outcome.explanations().explain(method, position);
            let explained = explained.map(|explained| explained.text().into_bytes());
            assert_eq!(explained, Ok(text(lines)), "{error:?}");
        }
    }

    #[test]
    fn the_errors_of_reading_do_what_they_say() {
        let full = String::from_utf8_lossy(&super::super::longest_report()).into_owned();
        let own = "A longest-name longest-name 1 0|";
        let misplaced = with(&full, &[own, "T a 1 20 20 0 0 0 f|"]);
        let access = "A c b 1 0|";
        let twice = with(A, &[access, access]);
        let unread = with(A, &[&access.repeat(32), "A|"]);
        let rows: Vec<(Error, &str, u64, u64)> = vec![
            (Error::RefusesOwnCeiling, "A c c 1 0|", 15, 5),
            (Error::LooksUpNamesFirst, "A d b 1 00|", 15, 5),
        ];
        let rows = rows.into_iter().map(|(error, access, number, line)| {
            let table = with(A, &[access]);
            (error, table, number, line)
        });
        let rows = rows.chain([
            (Error::CountsFieldsFirst, unread, 3, 37),
            (Error::CountsAllLines, with(&full, &["x|"]), 10, 34),
            (Error::LooksAtOrderFirst, misplaced, 3, 35),
            (Error::RefusesEqualAccess, twice, 9, 6),
        ]);
        for (error, table, number, line) in rows {
            let refusal = outcome(&table, error).refusal();
            assert_eq!(refusal, Some(Refusal::new(number, line)), "{error:?}");
            let refusal = Outcome::of(&text(&table), None).refusal();
            assert_ne!(refusal, Some(Refusal::new(number, line)), "{error:?}");
        }
    }

    #[test]
    fn the_errors_of_blocking_do_what_they_say() {
        let one = A.replace("40 40 0 0", "40 40 0 1");
        let two = one.replace("60 60 0 0", "60 60 0 9");
        let line = |table: &str, error| {
            let refusal = Outcome::of(&text(table), error).refusal();
            refusal.map(|refusal| (refusal.number, refusal.line))
        };
        let alone = Some(Error::AllowsBlockingAlone);
        assert_eq!(line(&one, None), Some((17, 3)));
        assert_eq!(line(&one, alone), None);
        assert_eq!(line(&with(&one, &["A c b 1 0|"]), alone), Some((17, 3)));
        assert_eq!(line(&two, None), Some((17, 3)));
        assert_eq!(line(&two, Some(Error::TellsLastBlocked)), Some((17, 4)));
    }
}
