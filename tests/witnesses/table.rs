// What the public functions of `table` answer.
use crate as table;
use crate::accepted::Accepted;
use crate::accesses::Access;
use crate::tasks::{is_known, position_of, Head, Name, Task};
use crate::Table;
use ::cache;
use ::texts;
use cache::units::Ticks;
use cache::useful::Useful;

#[path = "common.rs"]
mod common;
#[path = "tables.rs"]
mod tables;
use common::{show, text, unknown, Args};

// A name of any twelve bytes.
fn name_of(args: &mut Args) -> Name {
    let mut name = Name { bytes: [0; 12] };
    for (k, b) in args.bytes().into_iter().enumerate() {
        name.bytes[k] = b;
    }
    name
}

fn answer(name: &str, args: &mut Args) -> String {
    match name {
        "empty" => tables::shown(&Table::empty()),
        "read" => {
            let mut table = Table::empty();
            let read = table.read(&args.bytes());
            format!("{:?} {}", read, tables::shown(&table))
        }
        "accepted" => {
            let mut table = Table::empty();
            match Accepted::read(&args.bytes(), &mut table) {
                Ok(accepted) => tables::shown(accepted.table),
                Err(refusal) => show(refusal),
            }
        }
        "pending" => {
            let table = tables::changed(args);
            let pending = Accepted { table: &table }.pending(args.size());
            show((pending.i, pending.task(), pending.limit()))
        }
        "tasks" => show(tables::changed(args).tasks()),
        "task" => show(tables::changed(args).task(args.size())),
        "accesses" => show(tables::changed(args).accesses()),
        "name_of" => show(Name::of(&args.bytes())),
        "name_len" => show(name_of(args).len()),
        "ways" => show(tables::changed(args).ways()),
        "name_text" => text(name_of(args).text()),
        "is_filled" => show(name_of(args).is_filled()),
        "position_of" => show(position_of(name_of(args), tables::changed(args).tasks())),
        "is_known" => show(is_known(name_of(args), tables::changed(args).tasks())),
        "may_block" => {
            let access = Access {
                task: args.size(),
                ceiling: args.size(),
                lasts: Ticks(1),
                ucb: Useful::NONE,
            };
            show(access.may_block(args.size()))
        }
        "head" => show(Head::read(&args.bytes())),
        "head_in_range" => show(
            Head {
                sets: args.number(),
                brt: Ticks(args.number()),
                form: tables::form(args),
            }
            .in_range(),
        ),
        "task_line" => show(Task::read(
            &args.bytes(),
            tables::form(args),
            args.number(),
            tables::changed(args).tasks(),
        )),
        "is_timely" => show(tables::changed(args).task(args.size()).is_timely()),
        "access_line" => show(Access::read(
            &args.bytes(),
            tables::form(args),
            args.number(),
            tables::changed(args).tasks(),
        )),
        _ => unknown(name),
    }
}

pub fn main() {
    common::run(answer);
}
