// What the public function of `every_run` answers.
use crate::answer;

#[path = "common.rs"]
mod common;
use common::{show, unknown, Args};

fn told(name: &str, args: &mut Args) -> String {
    match name {
        "answer" => show(answer(&args.bytes(), args.number(), args.number())),
        _ => unknown(name),
    }
}

pub fn main() {
    common::run(told);
}
