//! The worked figures of partners' lists.

use super::{longest_report, text, Expected, Figure, A, P};
use crate::model::Refusal;

/// In 6 ticks of table P b and a ask for 3 + 2 · 2, which is 7 ticks, and 7 in 7 ticks and in 8.
const P_LISTS: [(&str, &str, &str); 8] = [
    ("P, b with 5", "R a 2|R b 5|", "C a ok|C b ok|"),
    ("P, b with 6", "R a 2|R b 6|", "C a ok|C b bad|"),
    ("P, b with 7", "R a 3|R b 7|", "C a ok|C b ok|"),
    ("P, b with 8", "R a 5|R b 8|", "C a ok|C b ok|"),
    ("P, b with 9", "R a 6|R b 9|", "C a bad|C b bad|"),
    ("P, b with 4", "R a 1|R b 4|", "C a bad|C b bad|"),
    ("P, b with -", "R a 0|R b -|", "C a bad|C b open|"),
    (
        "P, b with the largest",
        "R a -|R b 999999999|",
        "C a open|C b bad|",
    ),
];

/// Two accesses may block b. With the first b asks for 1 + 2, and for 1 and four reloads at each activation of
/// a: 8 ticks in 8 and in 10, and 13 in 11 and more. With the second it asks for 1 + 9 and 1 for each of these: 12 in 11 and
/// more, so that it needs 12. In 12 ticks the first access does not fit, and in 13 both do.
const TWO: &str =
    "K 4 1|T a 1 10 10 0 0 0 f|T b 1 40 40 0 0 0 0|T c 1 60 60 0 0 f 0|A c b 2 f|A c b 9 0|";

/// By UCB-Union and ECB-Union alike.
const TWO_LISTS: [(&str, u64, &str, &str); 8] = [
    (
        "two accesses, own number",
        3,
        "R a 1|R b 12|R c 7|",
        "C a ok|C b open|C c ok|",
    ),
    (
        "two accesses, one more",
        3,
        "R a 1|R b 13|R c 6|",
        "C a ok|C b ok|C c bad|",
    ),
    (
        "two accesses, one less",
        4,
        "R a 1|R b 11|R c -|",
        "C a ok|C b open|C c open|",
    ),
    (
        "two accesses, own number combined",
        5,
        "R a 1|R b 12|R c 7|",
        "C a ok|C b open|C c ok|",
    ),
    (
        "two accesses, without costs",
        0,
        "R a 1|R b 12|R c 3|",
        "C a ok|C b ok|C c ok|",
    ),
    (
        "two accesses, the limit",
        5,
        "R a 1|R b 40|R c 60|",
        "C a ok|C b ok|C c ok|",
    ),
    (
        "two accesses, past the limit",
        5,
        "R a 10|R b 41|R c 61|",
        "C a ok|C b bad|C c bad|",
    ),
    (
        "two accesses, 0",
        5,
        "R a 0|R b 0|R c 0|",
        "C a bad|C b open|C c bad|",
    ),
];

/// c needs 11 ticks by UCB-Union and 9 by ECB-Union.
const A_LISTS: [(&str, u64, &str, &str); 4] = [
    (
        "A, c with 9 by UCB-Union",
        3,
        "R a 1|R b 5|R c 9|",
        "C a ok|C b ok|C c bad|",
    ),
    (
        "A, c with 9 by ECB-Union",
        4,
        "R a 1|R b 5|R c 9|",
        "C a ok|C b ok|C c ok|",
    ),
    (
        "A, c with 9 combined",
        5,
        "R a 1|R b 5|R c 9|",
        "C a ok|C b ok|C c ok|",
    ),
    (
        "A, c with 8 combined",
        5,
        "R a 1|R b 5|R c 8|",
        "C a ok|C b ok|C c bad|",
    ),
];

/// Lists for table P, by method 0, and the refusal's number and line.
const REFUSED: [(&str, &str, u64, u64); 12] = [
    ("no line", "", 20, 1),
    ("an empty line", "|", 19, 1),
    ("a line missing", "R a 2|", 20, 2),
    ("the names changed round", "R b 5|R a 2|", 20, 1),
    ("a name that no task has", "R a 2|R c 5|", 20, 2),
    ("a malformed name", "R A 2|R b 5|", 19, 1),
    ("007", "R a 2|R b 007|", 19, 2),
    ("007 for another task", "R a 2|R a 007|", 19, 2),
    ("no end", "R a 2|R b 5", 19, 2),
    ("a surplus line", "R a 2|R b 5|R b 5|", 20, 3),
    ("an empty surplus line", "R a 2|R b 5||", 19, 3),
    ("a line of a report", "R a 5 2 2 2 2 2 2|", 19, 1),
];

pub fn all() -> Vec<Figure> {
    let words = |name, table: &str, method, list, words| Figure {
        name,
        text: text(table),
        expected: Expected::Words(method, text(list), text(words)),
    };
    let refused = |name, table: &str, method, list, number, line| Figure {
        name,
        text: text(table),
        expected: Expected::ListRefused(method, text(list), Refusal::new(number, line)),
    };
    let jitter = P.replace("8 8 0", "8 8 3");
    let mut figures: Vec<Figure> = P_LISTS
        .into_iter()
        .map(|(name, list, told)| words(name, P, 0, list, told))
        .collect();
    let of_two = TWO_LISTS.into_iter();
    figures.extend(of_two.map(|(name, method, list, told)| words(name, TWO, method, list, told)));
    let of_a = A_LISTS.into_iter();
    figures.extend(of_a.map(|(name, method, list, told)| words(name, A, method, list, told)));
    let of_p = REFUSED.into_iter();
    figures.extend(of_p.map(|(name, list, number, line)| refused(name, P, 0, list, number, line)));
    figures.extend([
        words(
            "J of b = 3, the limit",
            &jitter,
            0,
            "R a 2|R b 5|",
            "C a ok|C b ok|",
        ),
        words(
            "J of b = 3, the deadline",
            &jitter,
            0,
            "R a 2|R b 8|",
            "C a ok|C b bad|",
        ),
        refused("a list by method 6", P, 6, "|", 12, 0),
        refused("a list for no text", "", 5, "|", 2, 0),
        Figure {
            name: "the longest words",
            text: longest_report(),
            expected: Expected::WordsLength(0, longest_list(), 640),
        },
    ]);
    figures
}

/// A list without numbers, for the table with the longest report.
fn longest_list() -> Vec<u8> {
    let mut spelled = "R longest-name -|".to_string();
    for index in 0..31 {
        spelled.push_str(&format!("R longest-na{index:02} -|"));
    }
    text(&spelled)
}
