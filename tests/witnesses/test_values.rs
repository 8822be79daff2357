// What the function of `test_values` answers.
use crate::test_write;

#[path = "common.rs"]
mod common;
use common::{filled, number, unknown, Args};

fn answer(name: &str, args: &mut Args) -> String {
    match name {
        // so many numbers, 0 but at the places that are given, as 0=4;2=1
        "test_write" => {
            let mut numbers = vec![0u64; args.size()];
            for change in args.word().split(';').filter(|it| *it != "-") {
                let (place, value) = change.split_once('=').unwrap();
                numbers[number(place) as usize] = number(value);
            }
            let mut out = args.buffer();
            filled(test_write(&numbers, &mut out), &out)
        }
        _ => unknown(name),
    }
}

pub fn main() {
    common::run(answer);
}
