// What the public functions of `endings` answer.
use crate as endings;
use crate::Ending;
use ::cache;
use ::search;
use ::table;
use cache::units::Ticks;
use search::demand::Response;
use texts::refusals::Reason;

#[path = "common.rs"]
mod common;
use common::{show, unknown, Args};

fn ending(args: &mut Args) -> Ending {
    match args.number() {
        0 => Ending::Given,
        1 => Ending::NoResponse,
        2 => Ending::Refused,
        3 => Ending::WrongUse,
        _ => Ending::Failed,
    }
}

// A response in ticks, or `-` for none.
fn response(word: &str) -> Response {
    match word {
        "-" => Response::Unschedulable,
        ticks => Response::Within(Ticks(common::number(ticks))),
    }
}

fn answer(name: &str, args: &mut Args) -> String {
    match name {
        "status" => show(ending(args).status()),
        "of_response" => show(endings::Ending::of_response(response(args.word()))),
        "of_answer" => show(Ending::of_answer(match args.word() {
            "e" => Err(Reason::NotEnded.alone().on(7)),
            word => Ok(response(word)),
        })),
        "of_responses" => show(Ending::of_responses(args.number() == 1)),
        "worse" => show(ending(args).worse(ending(args))),
        _ => unknown(name),
    }
}

pub fn main() {
    common::run(answer);
}
