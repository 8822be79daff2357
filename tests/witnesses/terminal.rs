// What `terminal` writes.
use crate::{print, tell};
use ::heap::Global;

#[path = "common.rs"]
mod common;
use common::{text, unknown, Args};

fn answer(name: &str, args: &mut Args) -> String {
    let bytes = args.bytes();
    let mut out = vec![];
    let written = match name {
        "print" => print(Global, &bytes, &mut out),
        "tell" => tell(Global, &bytes, &mut out),
        _ => return unknown(name),
    };
    format!("{} {}", text(&out), written.is_ok())
}

pub fn main() {
    common::run(answer);
}
