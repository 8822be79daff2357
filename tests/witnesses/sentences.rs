// What `sentences` writes and tells.
use crate::sums::{add_sum, Part};
use crate::{explain, explained};
use ::analysis::Method;
use ::heap::{Global, Vec as Room};
use ::table::accepted::Pending;
use ::table::Table;

#[path = "common.rs"]
mod common;
use common::{text, unknown, Args};

fn told(part: &Part) -> String {
    format!("{}|{}|{}", text(&part.name), text(&part.words), part.ticks)
}

fn answer(name: &str, args: &mut Args) -> String {
    match name {
        "explain" => {
            let (bytes, method, position) = (args.bytes(), args.number(), args.number());
            let mut out = vec![];
            let answered = explain(Global, &bytes, method, position, &mut out).ok().unwrap();
            format!("{} {} {}", text(&out), common::show(answered.ending), answered.written.is_ok())
        }
        "explained" => {
            let (bytes, method, i) = (args.bytes(), args.number(), args.size());
            let mut table = Table::empty();
            table.read(&bytes).unwrap();
            let method = Method::from_number(method).unwrap();
            let it = explained(Global, Pending { table: &table, i }, method).unwrap();
            let sum = it.sum.map(|sum| {
                let parts: Vec<String> = sum.parts.iter().map(told).collect();
                format!("{} {}", parts.join("; "), sum.whole)
            });
            format!("{} {}", text(&it.sentences), common::show(sum))
        }
        "add_sum" => {
            let mut parts = vec![];
            let whole = args.number();
            while !args.is_done() {
                let (name, words) = (Room(args.bytes()), Room(args.bytes()));
                let ticks = args.number();
                parts.push(Part { name, words, ticks });
            }
            let mut out = Room(vec![]);
            add_sum(&mut out, &parts, whole).unwrap();
            text(&out)
        }
        _ => unknown(name),
    }
}

pub fn main() {
    common::run(answer);
}
