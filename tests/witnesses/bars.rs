// What `bars` draws.
use crate::{picture, top_of, Undrawn};
use ::heap::{AllocError, Global};

#[path = "common.rs"]
mod common;
use common::{text, unknown, Args};

fn words(args: &mut Args) -> String {
    String::from_utf8(args.bytes()).expect("a text")
}

fn answer(name: &str, args: &mut Args) -> String {
    match name {
        "picture" => match picture(Global, &words(args), &args.bytes()) {
            Ok(drawn) => format!("{} {}", text(drawn.text.as_str().as_bytes()), drawn.passes),
            Err(why) => common::show(why),
        },
        "no_memory" => common::show(Undrawn::from(AllocError)),
        "top_of" => top_of(args.size()).to_string(),
        _ => unknown(name),
    }
}

pub fn main() {
    common::run(answer);
}
