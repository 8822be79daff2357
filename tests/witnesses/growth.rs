// What the public functions of `growth` answer.
use crate::growth;
use crate::scaling::{scale, scaled_work};
use analysis::Method;
use cache::units::Ticks;
use ::{cache, table};

#[path = "common.rs"]
mod common;
#[path = "tables.rs"]
mod tables;
use common::{show, unknown, Args};

fn method(args: &mut Args) -> Method {
    Method::from_number(args.number()).expect("a method")
}

fn answer(name: &str, args: &mut Args) -> String {
    match name {
        "growth" => {
            let table = tables::read(args);
            show(growth(&table, method(args)))
        }
        "scaled_work" => show(scaled_work(Ticks(args.number()), args.number())),
        "scale" => {
            let mut table = tables::read(args);
            scale(&mut table, args.number());
            tables::shown(&table)
        }
        _ => unknown(name),
    }
}

pub fn main() {
    common::run(answer);
}
