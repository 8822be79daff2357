//! The worked figures of the rules, and the values they give.

mod accesses;
mod counted;
mod deadlines;
mod growths;
mod lists;
mod replays;

pub use counted::{longest_explanation as longest_counted_explanation, longest_with_counts};

use crate::library;
use crate::model::{Outcome, Refusal};

/// What is asked of a text, and the value that the rules give for it.
pub enum Expected {
    /// Method, position and the response.
    Response(u64, u64, u64),
    /// Method and position: unschedulable.
    NoResponse(u64, u64),
    Report(String),
    ReportLength(usize),
    /// Method, position and the explanation.
    Explanation(u64, u64, String),
    /// Method, position and the explanation's length.
    ExplanationLength(u64, u64, usize),
    /// The text comes back, and has this length.
    ComesBack(usize),
    /// By the report and by the table written again.
    Refused(Refusal),
    /// By method.
    Growths([u64; 6]),
    /// Method and the scaled table's text.
    Scaled(u64, Vec<u8>),
    /// Method, a partner's list and its words.
    Words(u64, Vec<u8>, Vec<u8>),
    /// Method, a partner's list and the length of its words.
    WordsLength(u64, Vec<u8>, usize),
    /// Method and a partner's list.
    ListRefused(u64, Vec<u8>, Refusal),
    /// Where the earliest deadline comes first.
    Verdict(bool),
    NoVerdict(Refusal),
    /// Position, and the end in ticks of the first job, 0 where it is unfinished at its deadline.
    Replay(u64, u64),
    NoReplay(u64, Refusal),
}

/// Room for every report, every explanation and every table.
const ROOMY: usize = 16_500;

pub struct Figure {
    pub name: &'static str,
    pub text: Vec<u8>,
    pub expected: Expected,
}

impl Figure {
    /// Whether the model and the library give what the rules say.
    pub fn verdicts(&self, outcome: &Outcome) -> [(&'static str, bool); 2] {
        let text = &self.text[..];
        let answers = |method: u64, position: u64| {
            let given = library::answer(text, method, position);
            [outcome.answer(method, position), given]
        };
        let reports = || {
            let report = outcome.report(ROOMY).unwrap_or(&[]).to_vec();
            [report, written(|out| library::report(text, out))]
        };
        let explanations = |method: u64, position: u64| {
            let explained = outcome.explanations().explain(method, position);
            let explanation = explained.map_or(String::new(), |explained| explained.text());
            let given = written(|out| library::explain(text, method, position, out));
            [explanation.into_bytes(), given]
        };
        let rewritten = || {
            let model = match outcome.writing() {
                Ok(writing) => writing.text(ROOMY).unwrap_or(&[]).to_vec(),
                Err(_) => Vec::new(),
            };
            [model, written(|out| library::rewrite(text, out))]
        };
        let words = |method: u64, list: &[u8]| {
            let checked = outcome.checks().check(list, method);
            let words = checked.map_or(String::new(), |checked| checked.text);
            let given = written(|out| library::check(text, list, method, out));
            [words.into_bytes(), given]
        };
        let agree = match &self.expected {
            Expected::Response(method, position, ticks) => {
                answers(*method, *position).map(|answer| answer == *ticks)
            }
            Expected::NoResponse(method, position) => {
                answers(*method, *position).map(|answer| answer == 0)
            }
            Expected::Report(expected) => reports().map(|report| report == expected.as_bytes()),
            Expected::ReportLength(expected) => reports().map(|report| report.len() == *expected),
            Expected::Explanation(method, position, expected) => {
                explanations(*method, *position).map(|lines| lines == expected.as_bytes())
            }
            Expected::ExplanationLength(method, position, expected) => {
                explanations(*method, *position).map(|lines| lines.len() == *expected)
            }
            Expected::ComesBack(length) => {
                let as_told = text.len() == *length;
                rewritten().map(|rewritten| as_told && rewritten == text)
            }
            Expected::Refused(refusal) => {
                let report = library::report(text, &mut [0; ROOMY]);
                let table = library::rewrite(text, &mut [0; ROOMY]);
                let refused = [report, table] == [refusal.code(); 2];
                [outcome.refusal() == Some(*refusal), refused]
            }
            Expected::Growths(expected) => {
                let growths = outcome.growths();
                let methods = || (0..).zip(expected);
                let by_model = methods().all(|(method, k)| growths.growth(method) == Ok(*k));
                let by_library = methods().all(|(method, k)| library::growth(text, method) == *k);
                [by_model, by_library]
            }
            Expected::Scaled(method, expected) => {
                let given = written(|out| library::scaled(text, *method, out));
                let scaled = outcome.growths().scaled(*method);
                [scaled.as_ref() == Ok(expected), given == *expected]
            }
            Expected::Verdict(expected) => {
                let given = library::edf(text) == u64::from(*expected);
                [outcome.edf() == Ok(*expected), given]
            }
            Expected::NoVerdict(refusal) => {
                let given = library::edf(text) == refusal.code();
                [outcome.edf() == Err(*refusal), given]
            }
            Expected::Replay(position, expected) => {
                let replay = outcome.replay(*position);
                let end = replay.map(|replay| replay.end.unwrap_or(0));
                let given = library::replay(text, *position) == *expected;
                [end == Ok(*expected), given]
            }
            Expected::NoReplay(position, refusal) => {
                let given = library::replay(text, *position) == refusal.code();
                [outcome.replay(*position) == Err(*refusal), given]
            }
            Expected::Words(method, list, expected) => {
                words(*method, list).map(|words| words == *expected)
            }
            Expected::WordsLength(method, list, expected) => {
                words(*method, list).map(|words| words.len() == *expected)
            }
            Expected::ListRefused(method, list, refusal) => {
                let checked = outcome.checks().check(list, *method);
                let given = library::check(text, list, *method, &mut [0; ROOMY]);
                [checked == Err(*refusal), given == refusal.code()]
            }
        };
        [("model", agree[0]), ("library", agree[1])]
    }
}

/// What a call writes where there is room enough.
fn written(call: impl FnOnce(&mut [u8]) -> u64) -> Vec<u8> {
    let mut out = [0; ROOMY];
    let length = call(&mut out) as usize;
    out.get(..length).unwrap_or(&[]).to_vec()
}

const A: &str = "K 4 1|T a 1 20 20 0 0 0 f|T b 2 40 40 0 0 3 f|T c 2 60 60 0 0 c f|";
const B: &str = "K 4 1|T a 1 20 20 0 0 0 3|T b 2 40 40 0 0 0 c|T c 2 60 60 0 0 f f|";
const M: &str = "K 8 1|T a 1 20 20 0 0 00 0f|T b 2 40 40 0 0 03 30|T c 2 60 60 0 0 3c 3c|";
const P: &str = "K 4 0|T a 2 5 5 0 0 0 0|T b 3 8 8 0 0 0 0|";
/// The order of the lines is that of priority, so that the other one has another report.
const P_TURNED: &str = "K 4 0|T b 3 8 8 0 0 0 0|T a 2 5 5 0 0 0 0|";

const A_REPORT: &str = "R a 20 1 1 1 1 1 1|R b 40 3 7 5 5 5 5|R c 60 5 13 9 11 9 9|\
                        V yes yes yes yes yes yes|";

const P_REPORT: &str = "R a 5 2 2 2 2 2 2|R b 8 5 5 5 5 5 5|V yes yes yes yes yes yes|";
const P_TURNED_REPORT: &str = "R b 8 3 3 3 3 3 3|R a 5 5 5 5 5 5 5|V yes yes yes yes yes yes|";

const A_BY_3: &str = "X c 3 11 60 2 0|I a 1 4 -|I b 1 2 -|";
const A_BY_4: &str = "X c 4 9 60 2 0|I a 1 2 b|I b 1 2 c|";
const B_BY_3: &str = "X c 3 9 60 2 0|I a 1 2 -|I b 1 2 -|";
const M_BY_4: &str = "X c 4 11 60 2 0|I a 1 2 b|I b 1 4 c|";
const P_NEEDS_7: &str = "X b 0 7 6 3 0|I a 2 0 -|";
const P_FULL: &str = "X b 4 beyond 8 3 0|";

/// Stands for the text with blanks for tabs and bars for LFs.
fn text(spelled: &str) -> Vec<u8> {
    spelled.replace(' ', "\t").replace('|', "\n").into_bytes()
}

/// The lines that are expected of a report or an explanation, spelled the same way.
fn lines(spelled: &str) -> String {
    String::from_utf8_lossy(&text(spelled)).into_owned()
}

/// What is expected of each of these tables, which are spelled.
fn of_tables(rows: Vec<(&'static str, &str, Expected)>) -> Vec<Figure> {
    let figures = rows.into_iter().map(|(name, table, expected)| Figure {
        name,
        text: text(table),
        expected,
    });
    figures.collect()
}

/// The same of tables and their reports.
fn reported(rows: Vec<(&'static str, &str, &str)>) -> Vec<Figure> {
    let rows = rows.into_iter().map(|(name, table, report)| {
        let expected = Expected::Report(lines(report));
        (name, table, expected)
    });
    of_tables(rows.collect())
}

/// Of tables, with a method and a position, and their explanations.
fn explained(rows: Vec<(&'static str, &str, u64, u64, &str)>) -> Vec<Figure> {
    let rows = rows
        .into_iter()
        .map(|(name, table, method, position, explanation)| {
            let expected = Expected::Explanation(method, position, lines(explanation));
            (name, table, expected)
        });
    of_tables(rows.collect())
}

/// A text that comes back, of so many bytes.
fn comes_back(name: &'static str, text: Vec<u8>, length: usize) -> Figure {
    let expected = Expected::ComesBack(length);
    Figure {
        name,
        text,
        expected,
    }
}

/// A text that is refused, by number and line.
fn refused(name: &'static str, text: Vec<u8>, number: u64, line: u64) -> Figure {
    let expected = Expected::Refused(Refusal::new(number, line));
    Figure {
        name,
        text,
        expected,
    }
}

pub fn table_m() -> Vec<u8> {
    text(M)
}

pub fn table_p() -> Vec<u8> {
    text(P)
}

/// The longest report there is: 32 tasks, each number of nine digits, all in time.
pub fn longest_report() -> Vec<u8> {
    let mut spelled = "K 4 0|T longest-name 100000000 250000000 250000000 0 0 0 0|".to_string();
    for index in 0..31 {
        let task = format!("T longest-na{index:02} 1 250000000 250000000 0 0 0 0|");
        spelled.push_str(&task);
    }
    text(&spelled)
}

/// The longest explanation there is in hex, of the last task by method 2 or 4: its C and the activations
/// have as many digits as numbers that add up to 250,000,000 can have together.
pub fn longest_explanation() -> Vec<u8> {
    let all = "f".repeat(64);
    let mut spelled = "K 256 0|".to_string();
    for index in 0..31 {
        let period = if index < 23 { 25 } else { 250 };
        let task = format!("T longest-na{index:02} 1 {period} {period} 0 0 {all} {all}|");
        spelled.push_str(&task);
    }
    let last = format!("T longest-name 12000000 250000000 250000000 0 0 {all} {all}|");
    spelled.push_str(&last);
    text(&spelled)
}

/// The longest accepted text in hex without accesses: every name of 12 bytes, every number as long as it may be,
/// and every cache set with a digit.
pub fn longest_table() -> Vec<u8> {
    let (useful, evicting) = ("9".repeat(64), "0123456789abcdef".repeat(4));
    let mut spelled = "K 256 100000|".to_string();
    for index in 0..32 {
        let times = "250000000 250000000 200000000 100000000 0";
        let task = format!("T longest-na{index:02} {times} {useful} {evicting}|");
        spelled.push_str(&task);
    }
    text(&spelled)
}

/// The longest accepted text in hex: as many accesses as there may be.
pub fn longest_with_accesses() -> Vec<u8> {
    let mut spelled = String::from_utf8_lossy(&longest_table()).into_owned();
    let useful = "fedcba9876543210".repeat(4);
    for index in 0..32 {
        let names = format!("longest-na31 longest-na{index:02}");
        spelled.push_str(&format!("A {names} 250000000 {useful}|"));
    }
    text(&spelled)
}

/// Table A with lines added below it up to `length` bytes.
fn padded(length: usize) -> Vec<u8> {
    let mut padded = text(A);
    padded.resize(length - 1, b'x');
    padded.push(b'\n');
    padded
}

pub fn all() -> Vec<Figure> {
    let mut figures = responses();
    figures.extend(reports());
    figures.extend(explanations());
    figures.extend(tables());
    figures.extend(refusals());
    figures.extend(accesses::all());
    figures.extend(counted::all());
    figures.extend(growths::all());
    figures.extend(lists::all());
    figures.extend(deadlines::all());
    figures.extend(replays::all());
    figures
}

fn responses() -> Vec<Figure> {
    use Expected::{NoResponse, Response};
    let a_c_9 = A.replace("60 60", "60 9");
    let a_c_8 = A.replace("60 60", "60 8");
    let b_c_10 = B.replace("60 60", "60 10");
    let p_b_6 = P.replace("8 8", "8 6");
    let p_a_jitter = P.replace("5 5 0", "5 5 1");
    let p_both_jitter = p_a_jitter.replace("8 8 0", "8 7 1");
    let p_no_limit = P.replace("8 8 0", "8 8 8");
    let rows: Vec<(&'static str, &str, Expected)> = vec![
        ("A, c, method 3", A, Response(3, 2, 11)),
        ("A, c, method 4", A, Response(4, 2, 9)),
        ("A, c, method 5", A, Response(5, 2, 9)),
        ("A, D of c = 9, method 5", &a_c_9, Response(5, 2, 9)),
        ("A, D of c = 8, method 5", &a_c_8, NoResponse(5, 2)),
        ("B, c, method 3", B, Response(3, 2, 9)),
        ("B, c, method 4", B, Response(4, 2, 11)),
        ("B, c, method 5", B, Response(5, 2, 9)),
        ("B, D of c = 10, method 4", &b_c_10, NoResponse(4, 2)),
        ("B, D of c = 10, method 5", &b_c_10, Response(5, 2, 9)),
        ("B, c, method 2", B, Response(2, 2, 13)),
        ("M, c, method 3", M, Response(3, 2, 11)),
        ("M, c, method 4", M, Response(4, 2, 11)),
        ("M, c, method 5", M, Response(5, 2, 11)),
        ("P, b, method 0", P, Response(0, 1, 5)),
        ("P, D of b = 6", &p_b_6, Response(0, 1, 5)),
        ("P, J of a = 1", &p_a_jitter, Response(0, 1, 7)),
        ("P, J 1, D of b = 7", &p_both_jitter, NoResponse(0, 1)),
        ("P, J of b = 8", &p_no_limit, NoResponse(0, 1)),
    ];
    of_tables(rows)
}

fn reports() -> Vec<Figure> {
    let mut figures = reported(vec![
        ("A, whole report", A, A_REPORT),
        ("P, whole report", P, P_REPORT),
        ("P, its tasks changed round", P_TURNED, P_TURNED_REPORT),
    ]);
    figures.push(Figure {
        name: "the longest report",
        text: longest_report(),
        expected: Expected::ReportLength(2_746),
    });
    figures
}

fn explanations() -> Vec<Figure> {
    let p_needs_7 = P.replace("5 5 0", "5 5 1").replace("8 8", "8 6");
    let p_full = P.replace("a 2 5", "a 5 5");
    let rows: Vec<(&'static str, &str, u64, u64, &str)> = vec![
        ("A, c by method 3", A, 3, 2, A_BY_3),
        ("A, c by method 4", A, 4, 2, A_BY_4),
        ("A, c by method 5: 4 is smaller", A, 5, 2, A_BY_4),
        ("B, c by method 5: 3 is smaller", B, 5, 2, B_BY_3),
        ("M, c by method 5: equal", M, 5, 2, M_BY_4),
        ("P, b needs 7, has 6", &p_needs_7, 0, 1, P_NEEDS_7),
        ("P, nothing left for b", &p_full, 5, 1, P_FULL),
    ];
    let mut figures = explained(rows);
    figures.push(Figure {
        name: "the longest explanation in hex",
        text: longest_explanation(),
        expected: Expected::ExplanationLength(4, 31, 1_311),
    });
    figures
}

fn tables() -> Vec<Figure> {
    vec![
        comes_back("A comes back", text(A), 66),
        comes_back("B comes back", text(B), 66),
        comes_back("M comes back", text(M), 72),
        comes_back("P comes back", text(P), 42),
        comes_back(
            "the longest in hex without accesses",
            longest_table(),
            5_997,
        ),
        comes_back("the longest in hex", longest_with_accesses(), 9_293),
    ]
}

fn refusals() -> Vec<Figure> {
    let changed = |from: &str, to: &str| text(&A.replace(from, to));
    let b_blocked = |times: &str| text(&P.replace("8 8 0 0", times));
    let both_blocked = P.replace("0 0 0 0", "0 1 0 0");
    let a_longer = [longest_report(), text("T a 1 20 20 0 0 0 f|")].concat();
    vec![
        refused("16,384 bytes", padded(16_384), 3, 5),
        refused("16,385 bytes", padded(16_385), 1, 0),
        refused("no bytes", Vec::new(), 2, 0),
        refused("007 on line 1", changed("K 4 1", "K 4 007"), 5, 1),
        refused("007 on a task line", changed("a 1", "a 007"), 5, 2),
        refused("6 sets", changed("K 4", "K 6"), 6, 1),
        refused("CR on line 1", changed("K 4 1", "K 4 1\r"), 5, 1),
        refused("CR on a task line", changed("3 f", "3 f\r"), 7, 3),
        refused("a 33rd task line", a_longer, 10, 34),
        refused("no task line", text("K 4 1|"), 11, 1),
        refused("P, B of b = 1", b_blocked("8 8 0 1"), 17, 3),
        refused("P, B of b = 1, D 7", b_blocked("8 7 0 1"), 17, 3),
        refused(
            "P, B of b = 250,000,001",
            b_blocked("8 8 0 250000001"),
            6,
            3,
        ),
        refused("P, B of b = 01", b_blocked("8 8 0 01"), 5, 3),
        refused("P, B of both", text(&both_blocked), 17, 2),
    ]
}
