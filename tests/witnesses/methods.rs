// The names and the colours of `methods`.
use crate::{colour_by_number, method_name, name_by_number, names, single_name};
use ::analysis::Method;

#[path = "common.rs"]
mod common;
use common::{unknown, Args};

fn method(args: &mut Args) -> Method {
    Method::from_number(args.number()).expect("a method")
}

fn answer(name: &str, args: &mut Args) -> String {
    match name {
        "single_name" => match method(args) {
            Method::Of(single) => single_name(single).to_string(),
            Method::Combined => unknown(name),
        },
        "method_name" => method_name(method(args)).to_string(),
        "name_by_number" => name_by_number(args.size()).to_string(),
        "names" => names().join(" "),
        "colour_by_number" => colour_by_number(args.size()).to_string(),
        _ => unknown(name),
    }
}

pub fn main() {
    common::run(answer);
}
