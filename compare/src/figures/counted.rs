//! The worked figures of tables with counts.

use super::{
    comes_back, explained, of_tables, refused, reported, text, Expected, Figure, A_REPORT,
};

/// The tables A, B and M with a digit for each set and one way.
const A: &str = "K 4 1 1|T a 1 20 20 0 0 0000 f|T b 2 40 40 0 0 0011 f|T c 2 60 60 0 0 1100 f|";
const B: &str = "K 4 1 1|T a 1 20 20 0 0 0000 3|T b 2 40 40 0 0 0000 c|T c 2 60 60 0 0 1111 f|";
const M: &str = "K 8 1 1|T a 1 20 20 0 0 00000000 0f|T b 2 40 40 0 0 00000011 30|\
                 T c 2 60 60 0 0 00111100 3c|";

/// Two ways: b has 2 blocks in set 0 and 1 in set 1, and c the other way round. By UCB-Union a costs c two
/// blocks in each of the two sets, though b and c have three there.
const W: &str = "K 4 1 2|T a 1 20 20 0 0 0000 f|T b 2 40 40 0 0 0012 f|T c 2 60 60 0 0 0021 f|";

/// By ECB-only each activation costs 4 times 2: b needs 2 + 9, and c needs 2 + 2 (1 + 8) + 10.
const W_REPORT: &str = "R a 20 1 1 1 1 1 1|R b 40 3 11 6 6 6 6|R c 60 5 30 11 12 11 11|\
                        V yes yes yes yes yes yes|";

/// With three ways there is room for the three, and ECB-only has 4 times 3.
const W_3_REPORT: &str = "R a 20 1 1 1 1 1 1|R b 40 3 15 6 6 6 6|R c 60 5 - 11 14 11 11|\
                          V yes no yes yes yes yes|";

const W_BY_4000: &str =
    "K 4 1 2|T a 4 20 20 0 0 0000 f|T b 8 40 40 0 0 0012 f|T c 8 60 60 0 0 0021 f|";

/// The access has 2 blocks in set 0, where b has one, and another one in set 1.
const S: &str = "K 4 1 2|T a 1 20 20 0 0 0000 3|T b 2 40 40 0 0 0001 0|T c 3 60 60 0 0 0000 3|\
                 A c b 2 0012|";

/// c has more useful blocks than b, in fewer sets.
const V: &str = "K 4 1 4|T a 1 20 20 0 0 0000 f|T b 2 40 40 0 0 0111 f|T c 2 60 60 0 0 0004 f|";

/// a evicts the lowest set alone, where b has two blocks.
const LOWEST: &str = "K 4 1 2|T a 1 20 20 0 0 0000 1|T b 2 40 40 0 0 0002 0|";

pub fn all() -> Vec<Figure> {
    let mut figures = reports();
    figures.extend(responses());
    figures.extend(explanations());
    figures.extend(tables());
    figures.extend(growths());
    figures.extend(refusals());
    figures
}

fn reports() -> Vec<Figure> {
    let w_3 = W.replace("K 4 1 2", "K 4 1 3");
    let rows: Vec<(&'static str, &str, &str)> = vec![
        ("A with counts", A, A_REPORT),
        ("W, two ways", W, W_REPORT),
        ("W, three ways", &w_3, W_3_REPORT),
    ];
    reported(rows)
}

fn responses() -> Vec<Figure> {
    use Expected::Response;
    let rows: Vec<(&'static str, &str, Expected)> = vec![
        ("A with counts, c, method 3", A, Response(3, 2, 11)),
        ("A with counts, c, method 4", A, Response(4, 2, 9)),
        ("A with counts, c, method 5", A, Response(5, 2, 9)),
        ("B with counts, c, method 2", B, Response(2, 2, 13)),
        ("B with counts, c, method 3", B, Response(3, 2, 9)),
        ("B with counts, c, method 4", B, Response(4, 2, 11)),
        ("B with counts, c, method 5", B, Response(5, 2, 9)),
        ("M with counts, c, method 3", M, Response(3, 2, 11)),
        ("M with counts, c, method 4", M, Response(4, 2, 11)),
        ("M with counts, c, method 5", M, Response(5, 2, 11)),
        ("W, c, method 1: twice the sets", W, Response(1, 2, 30)),
        ("W, c, method 3: capped", W, Response(3, 2, 12)),
        ("W, b, method 3: below the cap", W, Response(3, 1, 6)),
        ("S, b, capped with the access", S, Response(3, 1, 8)),
        ("the last digit is set 0", LOWEST, Response(3, 1, 5)),
    ];
    of_tables(rows)
}

fn explanations() -> Vec<Figure> {
    let rows: Vec<(&'static str, &str, u64, u64, &str)> = vec![
        (
            "W, c by method 3",
            W,
            3,
            2,
            "X c 3 12 60 2 0|I a 1 4 -|I b 1 3 -|",
        ),
        (
            "W, c by method 1",
            W,
            1,
            2,
            "X c 1 30 60 2 0|I a 2 8 -|I b 1 8 -|",
        ),
        ("S, b by method 3", S, 3, 1, "X b 3 8 40 2 2|I a 1 3 -|"),
        ("S, b by method 5", S, 5, 1, "X b 4 8 40 2 2|I a 1 3 c|"),
        (
            "V, c is hit",
            V,
            2,
            2,
            "X c 2 13 60 2 0|I a 1 4 c|I b 1 4 c|",
        ),
        ("W, equals", W, 4, 2, "X c 4 11 60 2 0|I a 1 3 b|I b 1 3 c|"),
    ];
    let mut figures = explained(rows);
    figures.push(Figure {
        name: "the longest explanation",
        text: longest_explanation(),
        expected: Expected::ExplanationLength(4, 31, 1_342),
    });
    figures
}

/// The longest explanation there is: that of hex with 2,048 reloads in each line.
pub fn longest_explanation() -> Vec<u8> {
    let hex = String::from_utf8_lossy(&super::longest_explanation()).into_owned();
    let useful = format!("\t{}\t", "f".repeat(64));
    let counts = format!("\t{}\t", "8".repeat(256));
    let counted = hex.replace(&useful, &counts);
    counted
        .replace("K\t256\t0\n", "K\t256\t0\t8\n")
        .into_bytes()
}

fn tables() -> Vec<Figure> {
    vec![
        comes_back("A with counts comes back", text(A), 77),
        comes_back("M with counts comes back", text(M), 92),
        comes_back("S with counts comes back", text(S), 90),
        comes_back("the longest table of all", longest_with_counts(), 16_384),
    ]
}

/// The longest accepted text there is: 15 accesses are as many as there is room for, and nine of the
/// execution times have nine digits.
pub fn longest_with_counts() -> Vec<u8> {
    let (useful, evicting) = ("01234567".repeat(32), "0123456789abcdef".repeat(4));
    let mut spelled = "K 256 100000 8|".to_string();
    for index in 0..32 {
        let execution = if index < 9 { 250_000_000 } else { 9 };
        let times = format!("{execution} 250000000 200000000 100000000 0");
        let task = format!("T longest-na{index:02} {times} {useful} {evicting}|");
        spelled.push_str(&task);
    }
    let useful = "87654321".repeat(32);
    for index in 0..15 {
        let names = format!("longest-na31 longest-na{index:02}");
        spelled.push_str(&format!("A {names} 250000000 {useful}|"));
    }
    text(&spelled)
}

/// A text of `length` bytes, up to 16,384, in which the execution time of the first task is 9 and all others
/// are 1. Every task has all the time there is.
fn nine_and_ones(length: usize) -> Vec<u8> {
    let (zeros, none) = ("0".repeat(256), "0".repeat(64));
    let last_jitter = 10u64.pow(6 - (16_384 - length) as u32);
    let mut spelled = "K 256 0 8|".to_string();
    for index in 0..32 {
        let execution = if index == 0 { 9 } else { 1 };
        let jitter = match index {
            0..=19 => 100_000_000,
            20 => last_jitter,
            _ => 0,
        };
        let times = format!("{execution} 250000000 250000000 {jitter} 0");
        spelled.push_str(&format!("T longest-na{index:02} {times} {zeros} {none}|"));
    }
    for index in 0..16 {
        let access = format!("A longest-na31 longest-na{index:02} 1 {zeros}|");
        spelled.push_str(&access);
    }
    text(&spelled)
}

fn growths() -> Vec<Figure> {
    let rows = [
        // with 1,001 the first execution time has a digit more
        ("no room for a digit", nine_and_ones(16_384), [1_000; 6]),
        ("room for one digit", nine_and_ones(16_383), [4_000; 6]),
    ];
    let grown = |(name, text, growths)| Figure {
        name,
        text,
        expected: Expected::Growths(growths),
    };
    let mut figures: Vec<Figure> = rows.into_iter().map(grown).collect();
    // c needs 8 + 2 (4 + 4) + 11
    figures.push(Figure {
        name: "the form stays",
        text: text(W),
        expected: Expected::Scaled(3, text(W_BY_4000)),
    });
    figures
}

fn refusals() -> Vec<Figure> {
    let first = |fields: &str| text(&W.replace("K 4 1 2", fields));
    let of_b = |counts: &str| text(&W.replace("0012", counts));
    let of_access = |access: &str| text(&[W, access].concat());
    let late = W.replace("40 40", "40 41").replace("0012", "0013");
    let equal = W.replace("T b", "T a").replace("0012", "0013");
    vec![
        refused("no ways", first("K 4 1 0"), 6, 1),
        refused("nine ways", first("K 4 1 9"), 6, 1),
        refused("a tab at the end", first("K 4 1 "), 5, 1),
        refused("02 ways", first("K 4 1 02"), 5, 1),
        refused("a fifth field", first("K 4 1 2 2"), 3, 1),
        refused("two fields", first("K 4"), 3, 1),
        refused("hex in the place of counts", first("K 4 1"), 7, 2),
        refused("counts in the place of hex", of_b("3"), 7, 3),
        refused("too few counts", of_b("012"), 7, 3),
        refused("too many counts", of_b("00012"), 7, 3),
        refused("a hex digit for a count", of_b("001a"), 7, 3),
        refused("a count above the ways", of_b("0013"), 18, 3),
        refused("7 before 18", of_b("001g3"), 7, 3),
        refused("18 before 8", text(&late), 18, 3),
        refused("18 before 9", text(&equal), 18, 3),
        refused("a count of an access", of_access("A c b 1 0030|"), 18, 5),
        refused("18 before 15", of_access("A c d 1 0030|"), 18, 5),
        refused("7 before 18 on an access", of_access("A c b 1 3|"), 7, 5),
    ]
}

#[cfg(test)]
mod tests {
    use super::*;
    use crate::model::{Error, Outcome, Refusal};

    #[test]
    fn the_errors_of_answers_do_what_they_say() {
        let rows = [
            (Error::AddsWithoutCap, W, 3, 2, 14),
            (Error::CapsEachAlone, W, 3, 2, 14),
            (Error::CapsTasksAlone, W, 3, 2, 12),
            (Error::CapsTasksAlone, S, 3, 1, 9),
            (Error::ForgetsWays, W, 1, 2, 13),
            (Error::CountsFromLowestSet, LOWEST, 3, 1, 3),
        ];
        for (error, table, method, position, ticks) in rows {
            let outcome = Outcome::of(&text(table), Some(error));
            assert_eq!(outcome.answer(method, position), ticks, "{error:?}");
        }
    }

    #[test]
    fn the_errors_of_reading_do_what_they_say() {
        let both = W.replace("0012", "0g13");
        let late = W.replace("40 40", "40 41").replace("0012", "0013");
        let nobody = [W, "A c d 1 0030|"].concat();
        let letter = W.replace("0012", "001a");
        let rows: Vec<(Error, &str, u64, u64)> = vec![
            (Error::LooksAtCountsFirst, &both, 18, 3),
            (Error::LooksAtOrderOfTimesFirst, &late, 8, 3),
            (Error::LooksUpNamesBeforeCounts, &nobody, 15, 5),
            (Error::TakesHexDigits, &letter, 18, 3),
        ];
        for (error, table, number, line) in rows {
            let refusal = Outcome::of(&text(table), Some(error)).refusal();
            assert_eq!(refusal, Some(Refusal::new(number, line)), "{error:?}");
            let refusal = Outcome::of(&text(table), None).refusal();
            assert_ne!(refusal, Some(Refusal::new(number, line)), "{error:?}");
        }
        let hex = W.replace("0012", "3");
        let nine = W.replace("K 4 1 2", "K 4 1 9");
        for (error, table) in [(Error::TakesHexFields, hex), (Error::TakesNineWays, nine)] {
            let refusal = |error| Outcome::of(&text(&table), error).refusal();
            assert!(refusal(None).is_some() && refusal(Some(error)).is_none());
        }
    }

    #[test]
    fn the_errors_of_writing_do_what_they_say() {
        let written = |table: &str, error| {
            let outcome = Outcome::of(&text(table), Some(error));
            let writing = outcome.writing().expect("an accepted text");
            writing.text(100).map(<[u8]>::to_vec)
        };
        assert_eq!(written(A, Error::ForgetsForm), Ok(text(super::super::A)));
        assert_eq!(written(W, Error::ForgetsForm), Ok(text(W)));
        let turned = W.replace("0012", "2100").replace("0021", "1200");
        let counts = written(W, Error::WritesCountsFromLowestSet);
        assert_eq!(counts, Ok(text(&turned)));
    }

    #[test]
    fn a_text_that_is_too_long_does_not_pass() {
        let growth = |error| {
            let full = nine_and_ones(16_384);
            let outcome = Outcome::of(&full, error);
            let growth = outcome.growths().growth(0);
            growth
        };
        assert_eq!(growth(None), Ok(1_000));
        assert_eq!(growth(Some(Error::LetsLongPass)), Ok(4_000));
    }
}
