// What the public functions of `search` answer, as far as their promises leave one answer.
use crate as search;
use crate::demand::{demand_at, Response};
use crate::hasten::hasten;
use crate::response::{firsts, least, least_beyond, Count};
use crate::rounds::{window_at, WINDOWS};
use crate::shares::{left_by, listed, share};
use ::cache;
use cache::units::Ticks;

#[path = "common.rs"]
mod common;
#[path = "terms.rs"]
mod terms;
use common::{show, unknown, Args};
use terms::{response, term_of, terms};

fn answer(name: &str, args: &mut Args) -> String {
    match name {
        "work" => show(term_of(args.word()).work(args.number())),
        "demand_at" => show(demand_at(args.number(), &terms(args), args.number())),
        "sooner" => show(response(args).sooner(response(args))),
        "later" => show(response(args).later(response(args))),
        "share" => show(share(term_of(args.word()))),
        "left_by" => show(left_by(&terms(args))),
        "listed" => show(listed(&terms(args))),
        "once" => show(Count::once(term_of(args.word()))),
        "firsts" => show(firsts(&terms(args))),
        // to one limit after the other, each gone on to from what the one before left
        "least" => {
            let (own, terms, limits) = (args.number(), terms(args), args.list());
            let mut counts = firsts(&terms);
            show(
                limits
                    .iter()
                    .map(|limit| least(Ticks(own), &terms, Ticks(*limit), &mut counts))
                    .collect::<Vec<_>>(),
            )
        }
        "least_beyond" => {
            let (own, terms, limit, known) =
                (args.number(), terms(args), args.number(), args.number());
            let mut counts = firsts(&terms);
            let found = least_beyond(Ticks(own), &terms, Ticks(limit), Ticks(known), &mut counts);
            show(match found {
                Response::Within(time) => Some(time.0.max(known)),
                Response::Unschedulable => None,
            })
        }
        "hasten" => {
            let (own, terms, limit) = (args.number(), terms(args), args.number());
            show(hasten(own, &terms, limit, own))
        }
        // the windows are 0, 1, 2 and so on
        "window_at" => {
            let mut entries = [0u64; WINDOWS];
            for (k, entry) in entries.iter_mut().enumerate() {
                *entry = k as u64;
            }
            show(window_at(
                &entries,
                args.size(),
                args.number(),
                args.size(),
                args.number(),
            ))
        }
        _ => unknown(name),
    }
}

pub fn main() {
    common::run(answer);
}
