// What the public functions of `texts` answer.
use crate::fields::{is_name, is_within, read_number, same_bytes};
use crate::lines::{first_field, next_line, Fields, Lines};
use crate::refusals::{Reason, Refusal};

#[path = "common.rs"]
mod common;
use common::{show, text, unknown, Args};
#[path = "reasons.rs"]
mod reasons;
use reasons::REASONS;

fn answer(name: &str, args: &mut Args) -> String {
    match name {
        "next_line" => {
            let whole = args.bytes();
            let (line, below) = next_line(&whole);
            format!("{} | {}", text(line), text(below))
        }
        "lines" => show(Lines::of(&args.bytes()).map(text).collect::<Vec<_>>()),
        "first_field" => text(first_field(&args.bytes())),
        "fields" => show(Fields::of(&args.bytes()).map(text).collect::<Vec<_>>()),
        "is_done" => {
            let line = args.bytes();
            let mut fields = Fields::of(&line);
            for _ in 0..args.number() {
                fields.next();
            }
            show(fields.is_done())
        }
        "read_number" => show(read_number(&args.bytes())),
        "is_name" => show(is_name(&args.bytes())),
        "is_within" => show(is_within(args.number(), args.number(), args.number())),
        "same_bytes" => show(same_bytes(&args.bytes(), &args.bytes())),
        "number" => show(REASONS[args.size()].number()),
        "at" => show(REASONS[args.size()].at(args.size())),
        "alone" => show(REASONS[args.size()].alone()),
        "on" => {
            let fault = REASONS[args.size()].at(args.size());
            show(fault.on(args.number()))
        }
        "untold" => show(Refusal::untold(REASONS[args.size()])),
        _ => unknown(name),
    }
}

pub fn main() {
    common::run(answer);
}
