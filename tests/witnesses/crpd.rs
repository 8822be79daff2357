// What the public functions of `crpd` answer.
use crate::codes::code;
use crate::{
    answer, check, edf, explain, growth, print, replay, report, rewrite, scaled, ticks, write,
};
use cache::units::Ticks;
use deadlines::Verdict;
use search::demand::Response;
use texts::refusals::{Reason, Refusal};
use ::{cache, edf as deadlines, table};

#[path = "common.rs"]
mod common;
#[path = "tables.rs"]
mod tables;
use common::{filled, show, unknown, Args};

fn refusal(args: &mut Args) -> Refusal {
    Refusal {
        reason: [
            Reason::TooLong,
            Reason::Shape,
            Reason::Order,
            Reason::NoText,
        ][args.size()],
        line: args.number(),
        field: None,
    }
}

fn told(name: &str, args: &mut Args) -> String {
    match name {
        "answer" => show(answer(&args.bytes(), args.number(), args.number())),
        "report" => {
            let (text, mut out) = (args.bytes(), args.buffer());
            filled(report(&text, &mut out), &out)
        }
        "explain" => {
            let (text, method, position, mut out) =
                (args.bytes(), args.number(), args.number(), args.buffer());
            filled(explain(&text, method, position, &mut out), &out)
        }
        "write" => {
            let (table, mut out) = (tables::changed(args), args.buffer());
            filled(write(&table, &mut out), &out)
        }
        "rewrite" => {
            let (text, mut out) = (args.bytes(), args.buffer());
            filled(rewrite(&text, &mut out), &out)
        }
        "growth" => show(growth(&args.bytes(), args.number())),
        "scaled" => {
            let (text, method, mut out) = (args.bytes(), args.number(), args.buffer());
            filled(scaled(&text, method, &mut out), &out)
        }
        "edf" => show(edf(&args.bytes())),
        "check" => {
            let (text, list, method, mut out) =
                (args.bytes(), args.bytes(), args.number(), args.buffer());
            filled(check(&text, &list, method, &mut out), &out)
        }
        "replay" => show(replay(&args.bytes(), args.number())),
        "ticks" => {
            let (text, from, mut out) = (args.bytes(), args.number(), args.buffer());
            filled(ticks(&text, from, &mut out), &out)
        }
        "print" => {
            let mut out = [b'~'; 2746];
            let len = print(&args.bytes(), &mut out);
            let end = out.iter().rposition(|b| *b != b'~').map_or(0, |k| k + 1);
            filled(len, &out[..end])
        }
        "code_number" => show(code(Ok::<u64, Refusal>(args.number()))),
        "code_length" => show(code(Ok::<usize, Refusal>(args.size()))),
        "code_within" => show(code(Ok::<Response, Refusal>(Response::Within(Ticks(
            args.number(),
        ))))),
        "code_end" => show(code(Ok::<Option<Ticks>, Refusal>(Some(Ticks(
            args.number(),
        ))))),
        "code_unfinished" => show(code(Ok::<Option<Ticks>, Refusal>(None))),
        "code_none" => show(code(Ok::<Response, Refusal>(Response::Unschedulable))),
        "code_yes" => show(code(Ok::<Verdict, Refusal>(Verdict::Yes))),
        "code_no" => show(code(Ok::<Verdict, Refusal>(Verdict::No))),
        "code_refusal" => show(code(Err::<u64, Refusal>(refusal(args)))),
        _ => unknown(name),
    }
}

pub fn main() {
    common::run(told);
}
