// What the public functions of `table_text` answer.
use crate::extent::length;
use crate::readable::accepted;
use table::accepted::Accepted;
use crate::write;
use ::{cache, table};

#[path = "common.rs"]
mod common;
#[path = "tables.rs"]
mod tables;
use common::{filled, show, unknown, Args};

fn answer(name: &str, args: &mut Args) -> String {
    match name {
        "write" => {
            let (table, mut out) = (tables::read(args), args.buffer());
            filled(write(Accepted { table: &table }, &mut out), &out)
        }
        "length" => show(length(&tables::changed(args))),
        "is_readable" => show(accepted(&tables::changed(args)).is_some()),
        _ => unknown(name),
    }
}

pub fn main() {
    common::run(answer);
}
