// What the public functions of `cache` answer.
use crate::hex_digits::read_words;
use crate::sets::CacheSet;
use crate::units::{Reloads, Ticks};
use crate::useful::{is_within, Form, Useful};

#[path = "common.rs"]
mod common;
use common::{show, unknown, Args};

fn set(args: &mut Args) -> CacheSet {
    CacheSet::from_words(&args.list(), 0)
}

// How useful blocks are written: 0 for hex digits, or the ways.
fn form(args: &mut Args) -> Form {
    match args.number() {
        0 => Form::Hex,
        ways => Form::Digits(ways),
    }
}

// Useful blocks by their digits, with so many ways, and these.
fn useful(args: &mut Args) -> (Useful, u64) {
    let (field, ways) = (args.bytes(), args.number());
    let sets = field.len() as u64;
    let useful = Useful::from_field(&field, sets, Form::Digits(ways));
    (useful.expect("digits"), ways)
}

fn answer(name: &str, args: &mut Args) -> String {
    match name {
        "union" => show(set(args).union(set(args))),
        "intersection" => show(set(args).intersection(set(args))),
        "size" => show(set(args).size()),
        "from_words" => show(CacheSet::from_words(&args.list(), args.size())),
        "put_words" => {
            let own = set(args);
            let mut words = args.list();
            own.put_words(&mut words, args.size());
            show(words)
        }
        "of_words" => show(CacheSet::of_words(
            args.number(),
            args.number(),
            args.number(),
            args.number(),
        )),
        "has" => show(set(args).has(args.number())),
        "is_empty" => show(set(args).is_empty()),
        "is_in" => show(set(args).is_in(set(args))),
        "ways" => show(form(args).ways()),
        "marked" => show(Useful::marked(set(args))),
        "useful_from_words" => show(Useful::from_words(&args.list())),
        "useful_from_field" => show(Useful::from_field(&args.bytes(), args.number(), form(args))),
        "is_within" => show(is_within(&args.bytes(), form(args))),
        "useful_size" => {
            let (useful, ways) = useful(args);
            show(useful.size(ways))
        }
        "size_in" => {
            let (useful, ways) = useful(args);
            show(useful.size_in(set(args), ways))
        }
        "shared_size" => {
            let (useful, ways) = useful(args);
            show(useful.shared_size(useful.size(ways), set(args), ways))
        }
        "joined_size_in" => {
            let (useful, other) = (self::useful(args), self::useful(args));
            show(useful.0.joined_size_in(&other.0, set(args), useful.1))
        }
        "join" => {
            let (mut useful, other) = (self::useful(args), self::useful(args));
            useful.0.join(&other.0, useful.1);
            show(useful.0)
        }
        "join_words" => {
            let (own, other) = (Useful::from_words(&args.list()), Useful::from_words(&args.list()));
            let (mut joined, ways) = (own, args.number());
            joined.join(&other, ways);
            show(joined.count(args.number(), ways))
        }
        "count" => {
            let (useful, ways) = useful(args);
            show(useful.count(args.number(), ways))
        }
        "marks" => show(useful(args).0.marks()),
        "level" => show(useful(args).0.level(args.size())),
        "from_field" => show(CacheSet::from_field(&args.bytes(), args.number())),
        "read_words" => show(read_words(&args.bytes())),
        "time" => show(Reloads(args.number()).time(Ticks(args.number()))),
        _ => unknown(name),
    }
}

pub fn main() {
    common::run(answer);
}
