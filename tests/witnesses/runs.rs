// What the public functions of `runs` answer.
use crate::{goes_to, latest_end, may_lose, may_take, most_releases, must_reload, Held};
use cache::units::Ticks;
use ::cache;

#[path = "common.rs"]
mod common;
use common::{number, show, unknown, Args};

// A number, or `-` for none.
fn option(args: &mut Args) -> Option<u64> {
    match args.word() {
        "-" => None,
        word => Some(number(word)),
    }
}

// The task and the ceiling of an access that is held, or `-` for none.
fn held(args: &mut Args) -> Option<Held> {
    let task = option(args)?;
    let ceiling = args.number();
    Some(Held { task, ceiling })
}

fn answer(name: &str, args: &mut Args) -> String {
    match name {
        "latest_end" => show(latest_end(args.number(), Ticks(args.number()))),
        "most_releases" => show(most_releases(
            args.number(),
            Ticks(args.number()),
            Ticks(args.number()),
        )),
        "may_lose" => show(may_lose(
            args.number(),
            args.number(),
            args.number(),
            args.number(),
        )),
        "may_take" => show(may_take(args.number(), args.number())),
        "must_reload" => show(must_reload(args.number() == 1, args.number() == 1)),
        "goes_to" => show(goes_to(option(args), held(args))),
        _ => unknown(name),
    }
}

pub fn main() {
    common::run(answer);
}
