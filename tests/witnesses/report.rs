// What the public functions of `report` answer.
use crate::verdicts::{every_verdict, verdicts, write_verdict_line};
use crate::{explanation, report};
use analysis::rows::{self, Row};
use analysis::Method;
use search::demand::Response;
use table::accepted::Accepted;
use writing::writer::Draft;
use ::{cache, table};

#[path = "common.rs"]
mod common;
#[path = "tables.rs"]
mod tables;
use cache::units::Ticks;
use common::{filled, show, text, unknown, Args};

fn method(args: &mut Args) -> Method {
    Method::from_number(args.number()).expect("a method")
}

// Rows of six responses each, 0 where there is none.
fn rows_of(args: &mut Args) -> Vec<Row> {
    let told = |n: u64| {
        if n == 0 {
            Response::Unschedulable
        } else {
            Response::Within(Ticks(n))
        }
    };
    let numbers = args.list();
    numbers
        .chunks(6)
        .map(|row| Row {
            responses: std::array::from_fn(|m| told(row[m])),
        })
        .collect()
}

fn answer(name: &str, args: &mut Args) -> String {
    match name {
        "report" => {
            let table = tables::read(args);
            let mut out = args.buffer();
            filled(report(&table, &rows::responses(Accepted { table: &table }), &mut out), &out)
        }
        "explain" => {
            let table = tables::read(args);
            let (method, i, mut out) = (method(args), args.size(), args.buffer());
            let pending = Accepted { table: &table }.pending(i);
            filled(explanation::explain(pending, method, &mut out), &out)
        }
        "every_verdict" => show(every_verdict(&rows_of(args))),
        "verdicts" => show(verdicts(&rows_of(args))),
        "verdict_line" => {
            let mut draft = Draft::new();
            write_verdict_line(&mut draft, &rows_of(args));
            text(draft.text())
        }
        _ => unknown(name),
    }
}

pub fn main() {
    common::run(answer);
}
