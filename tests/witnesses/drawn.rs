// What `drawn` draws.
use crate::svg::{put, Picture, Place, Tenths};
use ::heap::Global;

#[path = "common.rs"]
mod common;
use common::{text, unknown, Args};

fn words(args: &mut Args) -> String {
    String::from_utf8(args.bytes()).expect("a text")
}

fn tenths(args: &mut Args) -> Tenths {
    args.word().parse().expect("a length")
}

fn place(args: &mut Args) -> Place {
    Place::new(tenths(args), tenths(args))
}

// What a shape adds to a picture.
fn shape(name: &str, args: &mut Args) -> String {
    let mut it = Picture::new(Global, 8, 9, "").unwrap();
    let style = words(args);
    match name {
        "raw" => it.raw(&style),
        "text" => it.text(place(args), &style, &words(args)),
        "line" => it.line(place(args), place(args), &style),
        "rectangle" => it.rectangle(place(args), tenths(args), tenths(args), &style),
        _ => return unknown(name),
    }
    .unwrap();
    text(it.finished().unwrap().as_str().as_bytes())
}

fn answer(name: &str, args: &mut Args) -> String {
    match name {
        "put" => {
            let mut out = ::heap::String::new(Global);
            put(&mut out, words(args).chars().next().unwrap()).unwrap();
            text(out.as_str().as_bytes())
        }
        "new" => {
            let it = Picture::new(Global, tenths(args), tenths(args), &words(args)).unwrap();
            text(it.finished().unwrap().as_str().as_bytes())
        }
        _ => shape(name, args),
    }
}

pub fn main() {
    common::run(answer);
}
