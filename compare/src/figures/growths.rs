//! Growths worked out by hand.

use super::{text, Expected, Figure, A, P};

/// C of 3 and 4 ticks of time: ⌈3k / 1000⌉ is at most 4 as long as 3k is at most 4,000.
const THREE_OF_FOUR: &str = "K 4 0|T a 3 4 4 0 0 0 0|";

/// One tick and three of time: it takes two ticks from 1,001 on, three from 2,001 on and four from
/// 3,001 on.
const ONE_OF_THREE: &str = "K 4 0|T a 1 3 3 0 0 0 0|";

/// The access stays, so that ⌈2k / 1000⌉ may be 5: up to 5,000 / 2. b has time enough.
const BLOCKED: &str = "K 4 0|T a 2 10 10 0 0 0 0|T b 1 99 99 0 0 0 0|A b a 5 0|";

/// Each takes one tick of every two with k = 1 already, and there are three of them.
const THREE_TICKS_OF_TWO: &str = "K 4 0|T a 1 2 2 0 0 0 0|T b 1 2 2 0 0 0 0|T c 1 2 2 0 0 0 0|";

/// A limit of 0 leaves no response.
const NO_LIMIT: &str = "K 4 0|T a 1 9 9 9 0 0 0|";

/// c costs 2 and 2 blocks by ECB-Union and 4 and 2 by UCB-Union, for a and for b. d costs 4, 4 and 4 by
/// ECB-Union and 4, 4 and 0 by UCB-Union, for a, b and c: c evicts none of d's blocks, but what a and b
/// evict counts for c as well. So with k = 1,000 c needs 9 and d needs 14, by another union each. Up to
/// 500 each C is one tick: by UCB-Union c needs 3 + 6 then, by ECB-Union and by UCB-only d needs 4 + 12,
/// and by ECB-only c needs 3 + 8. Without costs c needs what it does in table A.
const EITHER_UNION: &str = "K 8 1|T a 1 20 20 0 0 00 0f|T b 2 40 40 0 0 03 0f|\
                            T c 2 60 9 0 0 0c f0|T d 1 80 14 0 0 0f 00|";

/// Figure 5 of the paper with 7 ticks for b. The access stays 2 ticks long. Without costs b needs
/// ⌈2k / 1000⌉ + 2 + ⌈k / 1000⌉, which is 7 up to k = 1,500; with two blocks to reload it is 7 with
/// 1,000 and more from there on.
const SHARED: &str = "K 4 1|T a 1 20 20 0 0 0 3|T b 2 40 7 0 0 0 0|T c 3 60 60 0 0 3 3|A c b 2 3|";

const SHARED_BY_0: &str =
    "K 4 1|T a 2 20 20 0 0 0 3|T b 3 40 7 0 0 0 0|T c 5 60 60 0 0 3 3|A c b 2 3|";

/// Table A with 9 ticks for c, which needs ⌈k / 1000⌉ + 2 ⌈2k / 1000⌉ and its costs, if that is at most
/// 20. Without costs that is 8 up to 1,500 and then 10. ECB-only adds 8 blocks to at least 3 ticks.
/// UCB-Union adds 6, which leaves each task one tick, up to 500. The others add 4, which leaves what
/// they have, 5, up to 1,000.
fn a_with_9() -> String {
    A.replace("60 60", "60 9")
}

const A_BY_0: &str = "K 4 1|T a 2 20 20 0 0 0 f|T b 3 40 40 0 0 3 f|T c 3 60 9 0 0 c f|";
const A_BY_3: &str = "K 4 1|T a 1 20 20 0 0 0 f|T b 1 40 40 0 0 3 f|T c 1 60 9 0 0 c f|";

/// With four times its C each task of table A is in time: c needs 34 by UCB-Union, 8 of its own, 10 for
/// b and twice 8 for a.
const A_BY_4000: &str = "K 4 1|T a 4 20 20 0 0 0 f|T b 8 40 40 0 0 3 f|T c 8 60 60 0 0 c f|";

pub fn all() -> Vec<Figure> {
    let mut figures = growths();
    figures.extend(scaled());
    figures
}

/// A task alone that may run for as long as there is.
fn alone(execution: u64) -> String {
    format!("K 4 0|T a {execution} 250000000 250000000 0 0 0 0|")
}

fn growths() -> Vec<Figure> {
    let (hundred, all, quarter) = (alone(100_000_000), alone(250_000_000), alone(62_500_000));
    let more = alone(62_500_001);
    let nine = a_with_9();
    let rows: Vec<(&'static str, &str, [u64; 6])> = vec![
        // from 1,001 on a takes 3 ticks and b takes 4: 7 ticks pass a's second release, and 10 are late
        ("P may not grow", P, [1_000; 6]),
        ("a C of 3 in 4 ticks", THREE_OF_FOUR, [1_333; 6]),
        ("a C of 1 in 3 ticks", ONE_OF_THREE, [3_000; 6]),
        ("an access of 5 ticks stays", BLOCKED, [2_500; 6]),
        ("three ticks of two", THREE_TICKS_OF_TWO, [0; 6]),
        ("a limit of 0", NO_LIMIT, [0; 6]),
        // 250,000,000 with 2,500, with 1,000, and with 4,000; 250,000,004 with 4,000
        ("a C of 100,000,000", &hundred, [2_500; 6]),
        ("a C of 250,000,000", &all, [1_000; 6]),
        ("a C of 62,500,000", &quarter, [4_000; 6]),
        ("a C of 62,500,001", &more, [3_999; 6]),
        ("A may grow to four times", A, [4_000; 6]),
        ("A, D of c = 9", &nine, [1_500, 0, 1_000, 500, 1_000, 1_000]),
        (
            "c by ECB-Union, d by UCB-Union",
            EITHER_UNION,
            [1_500, 0, 0, 500, 0, 1_000],
        ),
        (
            "an access does not grow",
            SHARED,
            [1_500, 1_000, 1_000, 1_000, 1_000, 1_000],
        ),
    ];
    let figures = rows.into_iter().map(|(name, table, growths)| Figure {
        name,
        text: text(table),
        expected: Expected::Growths(growths),
    });
    figures.collect()
}

fn scaled() -> Vec<Figure> {
    let nine = a_with_9();
    let rows: Vec<(&'static str, &str, u64, &str)> = vec![
        ("A scaled by 4,000", A, 3, A_BY_4000),
        ("A, D of c = 9, scaled by 1,500", &nine, 0, A_BY_0),
        ("A, D of c = 9, scaled by 500", &nine, 3, A_BY_3),
        ("A, D of c = 9, scaled by 1,000", &nine, 5, &nine),
        ("A, D of c = 9, not scaled", &nine, 1, &nine),
        ("an access stays as it is", SHARED, 0, SHARED_BY_0),
        (
            "three ticks stay",
            THREE_TICKS_OF_TWO,
            5,
            THREE_TICKS_OF_TWO,
        ),
    ];
    let figures = rows
        .into_iter()
        .map(|(name, table, method, scaled)| Figure {
            name,
            text: text(table),
            expected: Expected::Scaled(method, text(scaled)),
        });
    figures.collect()
}

#[cfg(test)]
mod tests {
    use super::*;
    use crate::model::{Error, Outcome, Refusal};

    #[test]
    fn the_errors_of_growths_do_what_they_say() {
        let (hundred, nine) = (alone(100_000_000), a_with_9());
        let last_has_time = "K 4 0|T a 3 40 4 0 0 0 0|T b 1 40 40 0 0 0 0|";
        let rows: Vec<(Error, &str, u64, u64)> = vec![
            (Error::RoundsDown, THREE_OF_FOUR, 0, 1_666),
            (Error::RoundsToNearest, THREE_OF_FOUR, 0, 1_499),
            (Error::MultipliesIn32Bits, &hundred, 0, 4_000),
            (Error::TriesOneMore, A, 3, 4_001),
            (Error::StartsFromWhole, &nine, 3, 0),
            (Error::StartsFromWhole, &nine, 4, 1_000),
            (Error::TellsOneForNone, &nine, 1, 1),
            (Error::TellsFirstFailing, &nine, 0, 1_501),
            (Error::TellsFirstFailing, A, 0, 4_000),
            (Error::ScalesLengths, SHARED, 0, 1_000),
            (Error::ScalesLengths, BLOCKED, 0, 1_400),
            (Error::ScalesPeriods, THREE_OF_FOUR, 0, 4_000),
            (Error::LetsRefusedPass, &hundred, 0, 4_000),
            (Error::LooksAtLastTask, last_has_time, 0, 4_000),
            (Error::TakesVerdictWithoutCosts, &nine, 1, 1_500),
            (Error::TakesVerdictOfUsefulUnion, &nine, 5, 500),
            (Error::TakesVerdictOfUsefulUnion, &nine, 4, 1_000),
            (Error::CombinesVerdicts, EITHER_UNION, 5, 500),
        ];
        for (error, table, method, k) in rows {
            let outcome = Outcome::of(&text(table), Some(error));
            assert_eq!(outcome.growths().growth(method), Ok(k), "{error:?}");
        }
    }

    #[test]
    fn the_errors_of_scaled_tables_do_what_they_say() {
        let none = A_BY_3.replace("a 1", "a 0").replace("b 1", "b 0");
        let none = none.replace("c 1", "c 0");
        let rows = [
            (Error::WritesScaledByOne, A_BY_3),
            (Error::WritesScaledByNone, &none),
        ];
        for (error, scaled) in rows {
            let outcome = Outcome::of(&text(&a_with_9()), Some(error));
            assert_eq!(outcome.growths().scaled(1), Ok(text(scaled)), "{error:?}");
        }
    }

    #[test]
    fn the_method_is_refused_before_the_text_and_the_text_before_the_room() {
        let refused = |spelled: &str, error, method, room| {
            let outcome = Outcome::of(&text(spelled), error);
            let growths = outcome.growths();
            let scaled = growths.scaled_in(method, room);
            assert!(growths.growth(method).err().is_none() || scaled.is_err());
            scaled.err()
        };
        let told = |number| Some(Refusal::new(number, 0));
        assert_eq!(refused("", None, 6, 0), told(12));
        assert_eq!(refused("", None, 5, 0), told(2));
        assert_eq!(refused(P, None, 6, 0), told(12));
        assert_eq!(refused(P, None, 5, P.len() - 1), told(14));
        assert_eq!(refused(P, None, 5, P.len()), None);
        assert_eq!(refused("", Some(Error::ReadsBeforeMethod), 6, 0), told(2));
        assert_eq!(refused(P, Some(Error::ReadsBeforeMethod), 6, 0), told(12));
        assert_eq!(refused(P, Some(Error::LooksForRoomOfText), 6, 0), told(14));
    }
}
