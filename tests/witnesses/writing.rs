// What the public functions of `writing` answer.
use crate::delivery::{deliver, put, put_at, write_error};
use crate::marks::{marks_fit, useful_fits, write_marks, write_useful};
use crate::writer::{digits_in, Draft};
use cache::sets::CacheSet;
use cache::useful::Useful;
use texts::refusals::{Reason, Refusal};
use ::{cache, table};

#[path = "common.rs"]
mod common;
#[path = "reasons.rs"]
mod reasons;
#[path = "tables.rs"]
mod tables;
use reasons::REASONS;
use common::{filled, show, text, unknown, Args};

// The words of each level, from the first on: those that are not told are 0.
fn useful(args: &mut Args) -> Useful {
    let mut words = args.list();
    words.resize(32, 0);
    Useful::from_words(&words)
}

// A draft with what each of these words appends to it.
fn drafted(args: &mut Args) -> Draft {
    let mut draft = Draft::new();
    while !args.is_done() {
        match args.word() {
            "push" => draft.push(args.number() as u8),
            "bytes" => draft.bytes(&args.bytes()),
            "hex" => draft.hex(args.number(), args.size()),
            "write" => draft.write(&args.number()),
            "write_bool" => draft.write(&(args.number() == 1)),
            "write_bytes" => draft.write(&args.bytes().as_slice()),
            "field" => draft.field(&args.number()),
            "field_bool" => draft.field(&(args.number() == 1)),
            "field_bytes" => draft.field(&args.bytes().as_slice()),
            "fields" => draft.fields(&args.list()),
            "fields_bool" => draft.fields(&args.list().iter().map(|n| *n == 1).collect::<Vec<_>>()),
            "marks" => write_marks(
                &mut draft,
                args.number(),
                CacheSet::from_words(&args.list(), 0),
            ),
            "useful" => {
                let (form, sets) = (tables::form(args), args.number());
                write_useful(&mut draft, form, sets, &useful(args));
            }
            "error" => write_error(
                &mut draft,
                Refusal {
                    reason: REASONS[args.size()],
                    line: args.number(),
                    field: None,
                },
            ),
            other => panic!("nothing appends {}", other),
        }
    }
    draft
}

fn answer(name: &str, args: &mut Args) -> String {
    match name {
        "draft" => text(drafted(args).text()),
        "put" => {
            let (text, mut out) = (args.bytes(), args.buffer());
            filled(put(&text, &mut out), &out)
        }
        "deliver" => {
            let (text, mut out) = (args.bytes(), args.buffer());
            filled(deliver(&text, &mut out), &out)
        }
        "put_at" => {
            let (text, at, mut out) = (args.bytes(), args.size(), args.buffer());
            let end = put_at(&text, at, &mut out);
            filled(Ok::<usize, Refusal>(end), &out)
        }
        "digits_in" => show(digits_in(args.number())),
        "useful_fits" => show(useful_fits(
            tables::form(args),
            args.number(),
            &useful(args),
        )),
        "marks_fit" => show(marks_fit(
            args.number(),
            CacheSet::from_words(&args.list(), 0),
        )),
        _ => unknown(name),
    }
}

pub fn main() {
    common::run(answer);
}
