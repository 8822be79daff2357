// Terms and responses of the cases.
use super::cache::units::Ticks;
use super::common::{number, Args};
use super::search::demand::{Response, Term};

// PERIOD/JITTER/WEIGHT
pub fn term_of(word: &str) -> Term {
    let numbers: Vec<u64> = word.split('/').map(number).collect();
    Term {
        period: Ticks(numbers[0]),
        jitter: Ticks(numbers[1]),
        weight: Ticks(numbers[2]),
    }
}

pub fn terms(args: &mut Args) -> Vec<Term> {
    let word = args.word();
    if word == "-" {
        vec![]
    } else {
        word.split(',').map(term_of).collect()
    }
}

pub fn response(args: &mut Args) -> Response {
    let word = args.word();
    if word == "-" {
        Response::Unschedulable
    } else {
        Response::Within(Ticks(number(word)))
    }
}
