// What the public functions of `claims` answer.
use crate::finding::judge;
use crate::list::read;
use crate::write;
use analysis::Method;
use table::accepted::Accepted;
use table::Table;
use ::{cache, search, table};

#[path = "common.rs"]
mod common;
#[path = "tables.rs"]
mod tables;
#[path = "terms.rs"]
mod terms;
use common::{filled, show, unknown, Args};

fn method(args: &mut Args) -> Method {
    Method::from_number(args.number()).expect("a method")
}

fn answer(name: &str, args: &mut Args) -> String {
    match name {
        "judge" => {
            let table = tables::read(args);
            let (method, i) = (method(args), args.size());
            let pending = Accepted { table: &table }.pending(i);
            show(judge(pending, method, terms::response(args)))
        }
        "read" => {
            let table = tables::read(args);
            show(read(Accepted { table: &table }, &args.bytes()))
        }
        "write" => {
            let table = tables::read(args);
            let accepted = Accepted { table: &table };
            let method = method(args);
            let mut claims = [search::demand::Response::Unschedulable; Table::MOST_TASKS];
            for i in 0..table.count {
                claims[i] = terms::response(args);
            }
            let mut out = args.buffer();
            filled(write(accepted, method, &claims, &mut out), &out)
        }
        _ => unknown(name),
    }
}

pub fn main() {
    common::run(answer);
}
