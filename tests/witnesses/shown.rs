// What the public functions of `shown` answer.
use crate::{show, Unshown};
use ::heap::{AllocError, Global};

#[path = "common.rs"]
mod common;
use common::{text, unknown, Args};

fn answer(name: &str, args: &mut Args) -> String {
    match name {
        "show" => {
            let (bytes, mut out) = (args.bytes(), vec![]);
            match show(Global, &bytes, args.number() == 1, &mut out) {
                Ok(answered) => format!("{} {} {}", text(&out), common::show(answered.ending), answered.written.is_ok()),
                Err(error) => common::show(error),
            }
        }
        "no_memory" => common::show(Unshown::from(AllocError)),
        _ => unknown(name),
    }
}

pub fn main() {
    common::run(answer);
}
