// What the public functions of `lists` answer.
use crate::{line, put_together, Fate};
use texts::refusals::{Reason, Refusal};
use ::heap::{Global, Vec as Room};
use ::table;

#[path = "common.rs"]
mod common;
use common::{text, unknown, Args};

fn fate(args: &mut Args) -> Fate {
    match args.number() {
        0 => Fate::Unread,
        1 => Fate::Unwritten,
        2 => Fate::Refused(Refusal {
            reason: Reason::Shape,
            line: args.number(),
            field: None,
        }),
        _ => Fate::Judged(std::array::from_fn(|_| args.number() == 1)),
    }
}

fn answer(name: &str, args: &mut Args) -> String {
    match name {
        "line" => text(&line(Global, &args.bytes(), fate(args)).unwrap()),
        "put_together" => {
            let mut lists = vec![];
            while !args.is_done() {
                lists.push(Room(args.bytes()));
            }
            text(&put_together(Global, &lists).unwrap())
        }
        _ => unknown(name),
    }
}

pub fn main() {
    common::run(answer);
}
