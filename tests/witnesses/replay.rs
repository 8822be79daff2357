// What the public functions of `replay` answer.
use crate::{replay, ticks};
use table::accepted::{Accepted, Pending};
use ::{cache, table};

#[path = "common.rs"]
mod common;
#[path = "tables.rs"]
mod tables;
use common::{filled, show, unknown, Args};

fn answer(name: &str, args: &mut Args) -> String {
    match name {
        "replay" => {
            let table = tables::read(args);
            let (table, i) = (&table, args.size());
            show(replay(Pending { table, i }))
        }
        "page" => {
            let table = tables::read(args);
            let (from, mut out) = (args.number(), args.buffer());
            filled(
                ticks::write(Accepted { table: &table }, from, &mut out),
                &out,
            )
        }
        _ => unknown(name),
    }
}

pub fn main() {
    common::run(answer);
}
