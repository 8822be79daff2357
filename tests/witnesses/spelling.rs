// What the public functions of `spelling` answer.
use crate::{cleaned, is_clean, spelled_out};
use ::heap::Global;

#[path = "common.rs"]
mod common;
use common::{text, unknown, Args};

fn answer(name: &str, args: &mut Args) -> String {
    let bytes = args.bytes();
    match name {
        "spelled_out" => text(&spelled_out(Global, &bytes).unwrap()),
        "cleaned" => text(&cleaned(Global, &bytes).unwrap()),
        "is_clean" => common::show(is_clean(&bytes)),
        _ => unknown(name),
    }
}

pub fn main() {
    common::run(answer);
}
