// What the functions of `laws` answer, as far as their promises leave one answer.
use crate::solutions::{Alone, Demand};
use crate::{
    added, any_order, any_text, any_worker, claimed, dominance, explanations, figures, orders, solutions,
};
use analysis::costs::Single;
use analysis::Method;
use cache::sets::CacheSet;
use cache::useful::Useful;
use search::demand::{Response, Term};
use table::accepted::{Accepted, Pending};
use table::Table;
use ::{cache, search, table};

#[path = "common.rs"]
mod common;
#[path = "tables.rs"]
mod tables;
#[path = "terms.rs"]
mod terms;
use cache::units::Ticks;
use common::{filled, show, unknown, Args};
use terms::{response, terms};

fn set(args: &mut Args) -> CacheSet {
    CacheSet::from_words(&args.list(), 0)
}

fn method(args: &mut Args) -> Method {
    Method::from_number(args.number()).expect("a method")
}

fn single(args: &mut Args) -> Single {
    match method(args) {
        Method::Of(single) => single,
        Method::Combined => panic!("a single method"),
    }
}

fn pending(table: &Table, i: usize) -> Pending<'_> {
    Accepted { table }.pending(i)
}

// The demand of a task that waits for others.
struct UnderTerms {
    own: u64,
    terms: Vec<Term>,
}

impl Demand for UnderTerms {
    fn asked(&self, r: u64) -> u64 {
        self.own + self.terms.iter().map(|term| term.work(r)).sum::<u64>()
    }
}

fn answer(name: &str, args: &mut Args) -> String {
    match name {
        "added_answers" => show(added::answers(
            &args.bytes(),
            &args.bytes(),
            args.number(),
            args.number(),
            args.number(),
        )),
        "put_in" => {
            let (table, added) = (tables::read(args), args.size());
            let task = tables::read(args).tasks[args.size()];
            tables::shown(&added::put_in(&table, added, task))
        }
        "under_all" => {
            let table = tables::read(args);
            show(dominance::under_all(pending(&table, args.size())))
        }
        "are_in_order" => {
            let table = tables::read(args);
            show(dominance::are_in_order(pending(&table, args.size())))
        }
        "two_needs" => {
            let (first, second) = (tables::read(args), tables::read(args));
            show(explanations::two_needs(
                Accepted { table: &first },
                Accepted { table: &second },
                method(args),
                args.size(),
            ))
        }
        "two_explanations" => {
            let (first, second) = (args.bytes(), args.bytes());
            let (method, position) = (args.number(), args.number());
            let (mut own, mut others) = (args.buffer(), args.buffer());
            let told = explanations::two_explanations(
                &first,
                &second,
                method,
                position,
                &mut own,
                &mut others,
            );
            format!("{} {}", filled(told, &own), common::text(&others))
        }
        "either_way_round" => show(any_order::either_way_round(set(args), set(args))),
        "either_grouping" => show(any_order::either_grouping(set(args), set(args), set(args))),
        "with_itself" => show(any_order::with_itself(set(args))),
        "shared_sizes" => show(any_order::shared_sizes(
            &Useful::marked(set(args)),
            set(args),
            set(args),
            1,
        )),
        "answered_twice" => show(any_worker::answered_twice(
            &args.bytes(),
            args.number(),
            args.number(),
        )),
        "reported_twice" => {
            let (text, mut own, mut others) = (args.bytes(), args.buffer(), args.buffer());
            let reports = any_worker::reported_twice(&text, &mut own, &mut others);
            format!("{} {}", filled(reports, &own), common::text(&others))
        }
        "need_and_response" => {
            let table = tables::read(args);
            let method = method(args);
            show(explanations::need_and_response(
                pending(&table, args.size()),
                method,
            ))
        }
        "figure_response" => {
            let table = tables::read(args);
            let method = method(args);
            show(figures::response(pending(&table, args.size()), method))
        }
        "figure_finding" => {
            let table = tables::read(args);
            let (method, i) = (method(args), args.size());
            show(figures::finding(pending(&table, i), method, response(args)))
        }
        "beside_ours" => {
            let table = tables::read(args);
            let (method, i) = (method(args), args.size());
            show(claimed::beside_ours(pending(&table, i), method, response(args)))
        }
        "our_own" => {
            let table = tables::read(args);
            let (method, i) = (method(args), args.size());
            show(claimed::our_own(pending(&table, i), method))
        }
        "figure_charge" => {
            let table = tables::read(args);
            let single = single(args);
            show(figures::charge(
                pending(&table, args.size()),
                single,
                args.size(),
            ))
        }
        "in_two_tables" => {
            let (first, i, second, k) = (
                tables::read(args),
                args.size(),
                tables::read(args),
                args.size(),
            );
            show(orders::in_two_tables(
                pending(&first, i),
                pending(&second, k),
                method(args),
            ))
        }
        "in_any_order" => {
            let table = tables::read(args);
            let method = method(args);
            show(orders::in_any_order(pending(&table, args.size()), method))
        }
        "demand_in_order" => {
            let (own, terms) = (Ticks(args.number()), terms(args));
            let order: Vec<usize> = args.list().iter().map(|k| *k as usize).collect();
            show(orders::demand_in_order(own, &terms, &order, args.number()))
        }
        "alone" => show(
            Alone {
                work: Ticks(args.number()),
            }
            .asked(args.number()),
        ),
        "smallest" => {
            let demand = UnderTerms {
                own: args.number(),
                terms: terms(args),
            };
            show(solutions::smallest(&demand, Ticks(args.number())))
        }
        "of_two_texts" => show(any_text::of_two_texts(
            &args.bytes(),
            &args.bytes(),
            args.number(),
            args.number(),
        )),
        "read_then_written" => {
            let mut out = [b'~'; 16384];
            let read = any_text::read_then_written(&args.bytes(), &mut out);
            let end = out.iter().rposition(|b| *b != b'~').map_or(0, |k| k + 1);
            filled(read, &out[..end])
        }
        "written_then_read" => {
            let table = tables::changed(args);
            let mut again = Table::empty();
            let read = any_text::written_then_read(&table, &mut again);
            format!("{:?} {}", read, tables::shown(&again))
        }
        _ => unknown(name),
    }
}

pub fn main() {
    common::run(answer);
}
