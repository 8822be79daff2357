// What the public functions of `edf` answer.
use crate::bound::{bound_within, last_overrun};
use crate::charges::{charged_tasks, ChargedTask};
use crate::multiples::{gcd, lcm};
use crate::{decide, first_overrun, hyperperiod};
use cache::units::Ticks;
use table::accepted::Accepted;
use ::{cache, table};

#[path = "common.rs"]
mod common;
#[path = "tables.rs"]
mod tables;
use common::{number, show, unknown, Args};

// Charged tasks: charged time, deadline and period of each, as `2/4/6,3/5/10`, or `-` for none.
fn tasks(args: &mut Args) -> Vec<ChargedTask> {
    let word = args.word();
    if word == "-" {
        return vec![];
    }
    word.split(',').map(task).collect()
}

fn task(word: &str) -> ChargedTask {
    let fields: Vec<u64> = word.split('/').map(number).collect();
    ChargedTask {
        time: Ticks(fields[0]),
        deadline: Ticks(fields[1]),
        period: Ticks(fields[2]),
    }
}

fn answer(name: &str, args: &mut Args) -> String {
    match name {
        "gcd" => show(gcd(args.number(), args.number())),
        "lcm" => show(lcm(args.number(), args.number())),
        "charged_tasks" => {
            let table = tables::read(args);
            let all = charged_tasks(Accepted { table: &table });
            show(all.map(|it| (it.time, it.deadline, it.period)))
        }
        "jobs" => show(task(args.word()).jobs(args.number())),
        "bound_within" => show(bound_within(&tasks(args), args.number())),
        "last_overrun" => show(last_overrun(&tasks(args), args.number(), args.number())),
        "hyperperiod" => show(hyperperiod(&tasks(args))),
        "decide" => show(decide(&tasks(args), Ticks(args.number()))),
        "first_overrun" => show(first_overrun(&tasks(args), Ticks(args.number()))),
        _ => unknown(name),
    }
}

pub fn main() {
    common::run(answer);
}
