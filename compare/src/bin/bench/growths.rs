//! The times of growths and scaled tables.

use super::{in_words, time_both, time_repeated, timed, Options, Rates, ROOM};
use crpd_compare::{library, model, plain};
use std::time::Duration;

/// Growths and scaled tables, and how many reports of the same tables a growth takes.
pub fn time(texts: &[Vec<u8>], options: &Options, reports: Rates) {
    let (mut out, mut plain_out) = (ROOM, ROOM);
    let all = time_repeated(
        "growths",
        model::METHODS,
        texts,
        options,
        &mut |text| by_all_methods(|method| library::growth(text, method)),
        &mut |text| by_all_methods(|method| plain::growth(text, method)),
    );
    let mut rates = vec![("all methods", all)];
    for (what, method) in [("growth by 4", 4), ("growth by 5", 5)] {
        let by_one = time_both(
            what,
            texts,
            options,
            &mut |text| library::growth(text, method),
            &mut |text| plain::growth(text, method),
        );
        rates.push((&what["growth by ".len()..], by_one));
    }
    time_repeated(
        "scaled tables",
        model::METHODS,
        texts,
        options,
        &mut |text| by_all_methods(|method| library::scaled(text, method, &mut out)),
        &mut |text| by_all_methods(|method| plain::scaled(text, method, &mut plain_out)),
    );
    for (which, growths) in rates {
        println!(
            "  a growth by {which} takes {:.1} reports {}, {:.1} plain",
            reports.library / growths.library,
            library::NAME,
            reports.plain / growths.plain
        );
    }
}

fn by_all_methods(work: impl FnMut(u64) -> u64) -> u64 {
    (0..model::METHODS).map(work).sum()
}

pub fn see_same(text: &[u8]) {
    let (mut out, mut plain_out) = (ROOM, ROOM);
    for method in 0..model::METHODS {
        let growths = (library::growth(text, method), plain::growth(text, method));
        let codes = (
            library::scaled(text, method, &mut out),
            plain::scaled(text, method, &mut plain_out),
        );
        let same = growths.0 == growths.1 && codes.0 == codes.1 && out == plain_out;
        assert!(same, "the growths differ: {}", text.escape_ascii());
    }
}

/// The growths by every method, which have to look at tables that are nearly as bad.
pub fn time_on_bad_table(text: &[u8]) {
    let (mut all, mut slowest, mut plain_all) = (Duration::ZERO, Duration::ZERO, Duration::ZERO);
    for method in 0..model::METHODS {
        let (time, k) = timed(|_| library::growth(text, method));
        let (plain_time, plain_k) = timed(|_| plain::growth(text, method));
        assert_eq!(k, plain_k, "the growths differ");
        all += time;
        slowest = slowest.max(time);
        plain_all += plain_time;
    }
    println!(
        "    all growths: {} (slowest {}) {}, {} plain",
        in_words(all),
        in_words(slowest),
        library::NAME,
        in_words(plain_all)
    );
}
