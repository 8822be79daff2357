// What the public functions of `changes` answer, as far as their promises leave one answer: of responses that moved, what is told of them.
use crate::harder::{compared, is_harder};
use crate::{answers, between, compare, Comparison, FateChange, ResponseChange, Source, VerdictChange};
use table::accepted::Accepted;
use table::Table;
use ::heap::{Global, Vec as Room};
use ::{cache, table};

#[path = "common.rs"]
mod common;
#[path = "tables.rs"]
mod tables;
use common::{show, unknown, Args};

fn moved(responses: &[ResponseChange]) -> String {
    show(responses.iter().collect::<Vec<_>>())
}

// A comparison of which some parts are there.
fn found(args: &mut Args) -> Comparison {
    let mut found = compare(Global, Source::Absent, Source::Absent, false).unwrap();
    match args.number() {
        0 => {}
        1 => found.fates = Some(FateChange { old: None, new: None }),
        _ => found.verdicts.push(VerdictChange { method: 0, old: true, new: false }).unwrap(),
    }
    found
}

fn answer(name: &str, args: &mut Args) -> String {
    match name {
        "is_empty" => show(found(args).is_empty()),
        "compare" => {
            let (old, new) = (args.bytes(), args.bytes());
            let found = compare(Global, Source::Text(&old), Source::Text(&new), false).unwrap();
            if old == new { show(found.is_empty()) } else { "-".to_string() }
        }
        _ => {
            let (first, second) = (tables::read(args), tables::read(args));
            let (old, new) = (Accepted { table: &first }, Accepted { table: &second });
            match name {
                "is_harder" => show(is_harder(old, new)),
                "compared" => show(compared(old, new)),
                "between" => moved(&between(Global, old, new, false).unwrap().responses),
                "moved" => moved(&answers::moved(Global, old, new).unwrap().responses),
                _ => unknown(name),
            }
        }
    }
}

pub fn main() {
    common::run(answer);
}
