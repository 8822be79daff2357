// What the public functions of `analysis` answer.
use crate::blockers::{are_several, longest, Blockers, Blocking};
use crate::carried::{weigh_access, weigh_row, Column, Terms};
use crate::costs::{cleared, term, Charge, Hit, Single};
use crate::{blocked_row, covering, need, one_row, respond, rows, Method};
use cache::units::{Reloads, Ticks};
use table::accesses::Access;
use table::accepted::{Accepted, Pending};
use table::Table;
use ::{cache, search, table};

#[path = "common.rs"]
mod common;
#[path = "tables.rs"]
mod tables;
#[path = "terms.rs"]
mod terms;
use common::{show, unknown, Args};
use terms::response;

const SINGLES: [Single; 5] = [
    Single::None,
    Single::EcbOnly,
    Single::UcbOnly,
    Single::UcbUnion,
    Single::EcbUnion,
];

fn single(args: &mut Args) -> Single {
    SINGLES[args.size()]
}

fn method(args: &mut Args) -> Method {
    match args.size() {
        5 => Method::Combined,
        n => Method::Of(SINGLES[n]),
    }
}

// The access at a place, or one that takes no time where there is none there.
fn access(table: &Table, args: &mut Args) -> Access {
    let n = args.size();
    if n < table.access_count {
        table.accesses[n]
    } else {
        Access::NONE
    }
}

fn hit(args: &mut Args) -> Hit {
    Hit {
        reloads: Reloads(args.number()),
        victim: args.size(),
    }
}

// The task at a position.
fn pending(table: &Table, i: usize) -> Pending<'_> {
    Pending { table, i }
}

fn carried(table: &Table, i: usize) -> ([Column; 32], Terms) {
    let (mut ledger, mut terms) = ([Column::NONE; 32], Terms::NONE);
    for k in 0..i + 1 {
        weigh_row(Pending { table, i: k }, &mut ledger, &mut terms);
    }
    (ledger, terms)
}

fn shown(terms: &Terms, i: usize) -> String {
    show([
        &terms.none[..i],
        &terms.ecb_only[..i],
        &terms.ucb_only[..i],
        &terms.ucb_union[..i],
        &terms.ecb_union[..i],
    ])
}

fn answer(name: &str, args: &mut Args) -> String {
    match name {
        "from_number" => show(Method::from_number(args.number())),
        "hit_none" => show(Hit::none(args.size())),
        "larger" => show(hit(args).larger(hit(args))),
        "count_of_victim" => show(Charge::Victim(hit(args)).count()),
        "count_of_no_victim" => show(Charge::NoVictim(Reloads(args.number())).count()),
        "victim_with" => show(Charge::Victim(hit(args)).with(hit(args))),
        "no_victim_with" => show(Charge::NoVictim(Reloads(args.number())).with(hit(args))),
        "cleared" => {
            let table = tables::read(args);
            let j = args.size();
            show(cleared(pending(&table, j), j))
        }
        "term" => {
            let table = tables::read(args);
            let j = args.size();
            show(term(pending(&table, j), j, Reloads(args.number())))
        }
        "respond" => {
            let table = tables::read(args);
            let method = method(args);
            show(respond(pending(&table, args.size()), method))
        }
        "responses" => {
            let table = tables::read(args);
            show(rows::responses(Accepted { table: &table }))
        }
        "explained" => {
            let table = tables::read(args);
            let method = method(args);
            show(need::explained(pending(&table, args.size()), method))
        }
        "evictors" => {
            let table = tables::read(args);
            let i = args.size();
            show(&one_row::evictors(pending(&table, i))[..i])
        }
        // under UCB-Union the row is gathered with the access
        "charged" => {
            let table = tables::read(args);
            let (method, i) = (single(args), args.size());
            match method {
                Single::UcbUnion => panic!("the row is left empty"),
                _ => show(&one_row::charged(pending(&table, i), method)[..i]),
            }
        }
        "join" => {
            let table = tables::read(args);
            let (method, i) = (single(args), args.size());
            let mut row = one_row::charged(pending(&table, i), method);
            let access = access(&table, args);
            blocked_row::join(pending(&table, i), method, &access, &mut row);
            show(&row[..i])
        }
        "terms" => {
            let table = tables::read(args);
            let (method, i) = (single(args), args.size());
            let mut row = one_row::charged(pending(&table, i), method);
            let access = access(&table, args);
            blocked_row::join(pending(&table, i), method, &access, &mut row);
            show(&blocked_row::terms(pending(&table, i), &row)[..i])
        }
        "later_under" => {
            let table = tables::read(args);
            let (method, i, limit) = (single(args), args.size(), args.number());
            let row = one_row::charged(pending(&table, i), method);
            let access = access(&table, args);
            let so_far = response(args);
            show(crate::later_under(
                pending(&table, i),
                method,
                Ticks(limit),
                &row,
                &access,
                so_far,
            ))
        }
        // which of those that may block the task is left open
        "longest" => {
            let table = tables::read(args);
            let i = args.size();
            let told = longest(table.accesses(), i);
            show(told.map(|n| n < table.access_count && table.accesses[n].may_block(i)))
        }
        "are_several" => {
            let table = tables::read(args);
            show(are_several(table.accesses(), args.size()))
        }
        "is_covered" => {
            let table = tables::read(args);
            let (method, i) = (single(args), args.size());
            let time = Ticks(args.number());
            show(covering::is_covered(pending(&table, i), method, time))
        }
        "blocking" => {
            let table = tables::read(args);
            show(Blocking::of(table.accesses(), args.size()).collect::<Vec<_>>())
        }
        // which of them stands in front is left open
        "blockers" => {
            let table = tables::read(args);
            let i = args.size();
            let mut told: Vec<String> = Blockers::of(&table, i, &Access::NONE).map(show).collect();
            told.sort();
            show(told)
        }
        "weigh_row" => {
            let table = tables::read(args);
            let i = args.size();
            let (ledger, terms) = carried(&table, i);
            format!("{:?} {}", &ledger[..i + 1], shown(&terms, i))
        }
        "weigh_access" => {
            let table = tables::read(args);
            let i = args.size();
            let (ledger, mut terms) = carried(&table, i);
            let access = access(&table, args);
            weigh_access(pending(&table, i), &ledger, &access, &mut terms);
            shown(&terms, i)
        }
        _ => unknown(name),
    }
}

pub fn main() {
    common::run(answer);
}
