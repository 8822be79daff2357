// What the functions of `bench_parts` answer.
use crate::{bench_answers, bench_read, bench_rewrite, bench_write};

#[path = "common.rs"]
mod common;
use common::{filled, show, unknown, Args};

fn answer(name: &str, args: &mut Args) -> String {
    match name {
        "bench_read" => show(bench_read(&args.bytes())),
        "bench_answers" => show(bench_answers(&args.bytes(), args.number())),
        "bench_write" => {
            let (text, times, mut out) = (args.bytes(), args.number(), args.buffer());
            filled(bench_write(&text, times, &mut out), &out)
        }
        "bench_rewrite" => {
            let (text, times, mut out) = (args.bytes(), args.number(), args.buffer());
            filled(bench_rewrite(&text, times, &mut out), &out)
        }
        _ => unknown(name),
    }
}

pub fn main() {
    common::run(answer);
}
