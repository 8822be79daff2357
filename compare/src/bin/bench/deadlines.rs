//! The times of verdicts by earliest deadline first, on the tables that take longest: hardly a tick is left, and the common
//! multiple of the periods is near its limit.

use super::{in_words, timed};
use crpd_compare::{library, plain};

/// C, T and D of the tasks.
type Tasks = &'static [(u64, u64, u64)];

const TABLES: [(&str, Tasks); 4] = [
    (
        "periods 2 and 250,000,000",
        &[(1, 2, 2), (125_000_000, 250_000_000, 250_000_000)],
    ),
    (
        "periods 2, 3, 7, 43, 1807",
        &[(1, 2, 2), (1, 3, 3), (1, 7, 7), (1, 43, 43), (1, 1807, 1807)],
    ),
    (
        "periods 2, 3, 8, 27, 219, 15769",
        &[
            (1, 2, 2),
            (1, 3, 3),
            (1, 8, 8),
            (1, 27, 27),
            (1, 219, 219),
            (1, 15_769, 15_766),
        ],
    ),
    (
        "the same, the last due at half its period",
        &[
            (1, 2, 2),
            (1, 3, 3),
            (1, 8, 8),
            (1, 27, 27),
            (1, 219, 219),
            (1, 15_769, 8000),
        ],
    ),
];

pub fn time() {
    println!("verdicts by earliest deadline first");
    for (title, tasks) in TABLES {
        let text = table(tasks);
        let (time, verdict) = timed(|_| library::edf(&text));
        let (plain_time, plain_verdict) = timed(|_| plain::edf(&text));
        assert!(verdict <= 1 && verdict == plain_verdict, "{title}");
        println!(
            "  {title}: {} {}, {} plain",
            in_words(time),
            library::NAME,
            in_words(plain_time)
        );
    }
}

fn table(tasks: Tasks) -> Vec<u8> {
    let mut text = "K\t4\t0\n".to_string();
    for (name, (own, period, deadline)) in ('a'..).zip(tasks) {
        text += &format!("T\t{name}\t{own}\t{period}\t{deadline}\t0\t0\t0\t0\n");
    }
    text.into_bytes()
}
