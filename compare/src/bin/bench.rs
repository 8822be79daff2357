//! Times the library against the plain version. See README.md.

#![no_main]

use crpd_compare::generate::{self, Table, TIME_MOST};
use crpd_compare::plain::{self, Turns};
use crpd_compare::random::Random;
use crpd_compare::{library, model};
use std::os::raw::c_long;
use std::time::Duration;

#[path = "bench/deadlines.rs"]
mod deadlines;
#[path = "bench/growths.rs"]
mod growths;

crpd_compare::entry!(run);

const USAGE: &str = "usage: bench [--seconds S] [--tables N]";
const SEED: u64 = 0xbe7c4;

/// Turns after which the plain version is given up on a bad table.
const PLAIN_TURNS: u64 = 5_000_000;

/// The fastest of so many rounds counts.
const ROUNDS: u32 = 40;

/// Room for every report, every explanation and every table.
const ROOM: [u8; 16_384] = [0; 16_384];

/// So often a table that was read is written, so that the reading hardly counts.
const WRITINGS: u64 = 100;

/// What the library would take longer for is left out.
const LONGEST: Duration = Duration::from_secs(20);

struct Options {
    /// For each measurement.
    time: Duration,
    tables: usize,
}

impl Options {
    fn parse(words: &[String]) -> Option<Options> {
        let mut options = Options {
            time: Duration::from_secs(1),
            tables: 195,
        };
        for pair in words.chunks(2) {
            match (pair[0].as_str(), pair.get(1)?.as_str()) {
                ("--seconds", number) => {
                    let seconds: u64 = number.parse().ok()?;
                    options.time = Duration::from_secs(seconds);
                }
                ("--tables", number) => options.tables = number.parse().ok()?,
                _ => return None,
            }
        }
        (options.tables > 0).then_some(options)
    }
}

fn run(words: &[String]) -> i32 {
    let options = match Options::parse(words) {
        Some(options) => options,
        None => {
            eprintln!("{USAGE}");
            return 2;
        }
    };
    println!("the {} code against the plain version", library::NAME);
    let base = published(10, 1.0, options.tables);
    time_tables(
        "10 tasks, 256 sets, the base configuration",
        &base,
        &options,
    );
    let largest = published(32, 500.0, options.tables);
    time_tables("32 tasks, 256 sets, the largest tables", &largest, &options);
    time_accesses(&options);
    time_ways(&options);
    time_bad_table("31 tasks of C = T = 1 above a long deadline", &|longest| {
        generate::no_tick_left(31, longest)
    });
    time_bad_table("a task of C = T = 1 above 31 long deadlines", &|longest| {
        generate::no_tick_left(1, longest)
    });
    time_bad_table(
        "periods 2, 3, 7, 43, 1807 of C = 1 above 27 long deadlines",
        &|longest| generate::hardly_a_tick_left(27, longest),
    );
    deadlines::time();
    0
}

/// Tables of the published evaluation, with its utilisations from 0.025 to 0.975 in turn.
fn published(tasks: usize, fineness: f64, count: usize) -> Vec<Vec<u8>> {
    with_accesses(tasks, fineness, count, 0)
}

/// The same tables with accesses. Those with more have other accesses, but the same tasks.
fn with_accesses(tasks: usize, fineness: f64, count: usize, accesses: usize) -> Vec<Vec<u8>> {
    let mut random = Random::new(SEED);
    let mut of_accesses = Random::new(SEED + accesses as u64);
    let texts = (0..count).map(|index| {
        let utilisation = (index % 39 + 1) as f64 * 0.025;
        let mut table = generate::published(&mut random, tasks, fineness, utilisation);
        generate::share_as_published(&mut of_accesses, &mut table, accesses);
        table.text()
    });
    texts.collect()
}

/// The tables of 32 tasks with so many ways, and accesses that there is room for.
fn with_ways(count: usize, accesses: usize, ways: u64) -> Vec<Vec<u8>> {
    let mut random = Random::new(SEED);
    let mut of_counts = Random::new(SEED + ways);
    let texts = (0..count).map(|index| {
        let utilisation = (index % 39 + 1) as f64 * 0.025;
        let mut table = generate::published(&mut random, 32, 500.0, utilisation);
        generate::share_as_published(&mut of_counts, &mut table, accesses);
        generate::count_as_published(&mut of_counts, &mut table, ways);
        table.text()
    });
    texts.collect()
}

extern "C" {
    fn clock() -> c_long;
}

/// What this process has used: the machine may do other things as well.
fn processor_time() -> Duration {
    // SAFETY: it takes nothing and reads only a clock of the system; the unit is fixed on Linux
    Duration::from_micros(unsafe { clock() } as u64)
}

// ---- tables as they come

/// Something done with a text; the number it gives is added up, so that the work is not left out.
type Work<'a> = &'a mut dyn FnMut(&[u8]) -> u64;

fn time_tables(title: &str, texts: &[Vec<u8>], options: &Options) {
    println!("{title} ({} tables)", texts.len());
    let reports = time_reports("reports", texts, options);
    let explained = explained_of(&texts[0]);
    let (mut out, mut plain_out) = (ROOM, ROOM);
    time_both(
        "single answers",
        texts,
        options,
        &mut |text| {
            let (method, position) = question(text);
            library::answer(text, method, position)
        },
        &mut |text| {
            let (method, position) = question(text);
            plain::answer(text, method, position)
        },
    );
    for (what, method) in [("explained by 4", 4), ("explained by 5", 5)] {
        time_both(
            what,
            texts,
            options,
            &mut |text| library::explain(text, method, explained, &mut out),
            &mut |text| plain::explain(text, method, explained, &mut plain_out),
        );
    }
    time_both(
        "rewritten texts",
        texts,
        options,
        &mut |text| library::rewrite(text, &mut out),
        &mut |text| plain::rewrite(text, &mut plain_out),
    );
    growths::time(texts, options, reports);
    time_writing(texts, options);
    time_parts(texts, options);
}

/// The reports of these tables, which are the same by both.
fn time_reports(what: &str, texts: &[Vec<u8>], options: &Options) -> Rates {
    texts.iter().for_each(|text| see_same(text));
    let (mut out, mut plain_out) = (ROOM, ROOM);
    time_both(
        what,
        texts,
        options,
        &mut |text| library::report(text, &mut out),
        &mut |text| plain::report(text, &mut plain_out),
    )
}

/// How the time of a report grows with the accesses, and for 32 of them all that is timed of other
/// tables.
fn time_accesses(options: &Options) {
    println!(
        "32 tasks, 256 sets, with accesses ({} tables)",
        options.tables
    );
    for accesses in [0, 1, 4, 16, 32] {
        let texts = with_accesses(32, 500.0, options.tables, accesses);
        time_reports(&format!("reports, {accesses}"), &texts, options);
    }
    let most = with_accesses(32, 500.0, options.tables, 32);
    time_tables("32 tasks, 256 sets, 32 accesses", &most, options);
}

/// How the time of a report grows with the ways, and for 8 of them all that is timed of other tables.
fn time_ways(options: &Options) {
    println!("32 tasks, 256 sets, with ways ({} tables)", options.tables);
    for ways in [1, 2, 4, 8] {
        let texts = with_ways(options.tables, 0, ways);
        time_reports(&format!("reports, {ways}"), &texts, options);
    }
    let most = with_ways(options.tables, 0, 8);
    time_tables("32 tasks, 256 sets, 8 ways", &most, options);
    let shared = with_ways(options.tables, 10, 8);
    time_tables("32 tasks, 256 sets, 8 ways, 10 accesses", &shared, options);
}

fn tasks_of(text: &[u8]) -> u64 {
    model::read(text).expect("a valid table").tasks.len() as u64
}

/// The task whose explanations are timed: the last, or the middle one of a table with accesses, as
/// nothing may block the last.
fn explained_of(text: &[u8]) -> u64 {
    let table = model::read(text).expect("a valid table");
    match table.accesses.len() {
        0 => table.tasks.len() as u64 - 1,
        _ => table.tasks.len() as u64 / 2,
    }
}

fn see_same(text: &[u8]) {
    let (mut out, mut plain_out) = (ROOM, ROOM);
    let codes = (
        library::report(text, &mut out),
        plain::report(text, &mut plain_out),
    );
    let same = codes.0 == codes.1 && out == plain_out;
    assert!(same, "the reports differ: {}", text.escape_ascii());
    let explained = explained_of(text);
    for method in 0..model::METHODS {
        let codes = (
            library::explain(text, method, explained, &mut out),
            plain::explain(text, method, explained, &mut plain_out),
        );
        let same = codes.0 == codes.1 && out == plain_out;
        assert!(same, "the explanations differ: {}", text.escape_ascii());
    }
    let codes = (
        library::rewrite(text, &mut out),
        plain::rewrite(text, &mut plain_out),
    );
    let same = codes.0 == codes.1 && out == plain_out && out.starts_with(text);
    assert!(same, "the tables differ: {}", text.escape_ascii());
    growths::see_same(text);
    if let Some(write) = LIBRARY_WRITING {
        out = ROOM;
        let same = write(text, 1, &mut out) == codes.0 && out.starts_with(text);
        assert!(same, "another table is timed: {}", text.escape_ascii());
    }
}

/// A method and a position that differ from text to text.
fn question(text: &[u8]) -> (u64, u64) {
    let length = text.len() as u64;
    (length % 6, length / 6 % 10)
}

/// How often something was done in a second.
#[derive(Clone, Copy)]
struct Rates {
    library: f64,
    plain: f64,
}

fn time_both(what: &str, texts: &[Vec<u8>], options: &Options, one: Work, other: Work) -> Rates {
    time_repeated(what, 1, texts, options, one, other)
}

/// Each call does its work `times` times.
fn time_repeated(
    what: &str,
    times: u64,
    texts: &[Vec<u8>],
    options: &Options,
    one: Work,
    other: Work,
) -> Rates {
    let (mut fastest, mut fastest_plain) = (0f64, 0f64);
    // in turn, so that what else the machine does meets both
    for _ in 0..ROUNDS {
        fastest = fastest.max(rate(texts, options.time / ROUNDS, one));
        fastest_plain = fastest_plain.max(rate(texts, options.time / ROUNDS, other));
    }
    let rates = Rates {
        library: fastest * times as f64,
        plain: fastest_plain * times as f64,
    };
    println!(
        "  {what:<15} {:>10.0}/s {}, {:>10.0}/s plain, ratio {:.2}",
        rates.library,
        library::NAME,
        rates.plain,
        rates.library / rates.plain
    );
    rates
}

/// How many texts are done in a second. The work on all of them is repeated until `time` is over.
fn rate(texts: &[Vec<u8>], time: Duration, work: Work) -> f64 {
    let start = processor_time();
    let mut done = 0u64;
    let mut sum = 0u64;
    while done == 0 || processor_time() - start < time {
        for text in texts {
            sum = sum.wrapping_add(work(text));
        }
        done += texts.len() as u64;
    }
    let seconds = (processor_time() - start).as_secs_f64();
    assert_ne!(sum, 1, "no work gives this");
    done as f64 / seconds
}

// ---- writing tables

/// Reads a table once and writes it some times into a buffer.
type WriteTable = fn(&[u8], u64, &mut [u8]) -> u64;

#[cfg(feature = "parts")]
const LIBRARY_WRITING: Option<WriteTable> = Some(library::parts::rewrite);
#[cfg(not(feature = "parts"))]
const LIBRARY_WRITING: Option<WriteTable> = None;

fn time_writing(texts: &[Vec<u8>], options: &Options) {
    match LIBRARY_WRITING {
        Some(write) => time_written(write, texts, options),
        None => println!("  {:<15} has no writing alone to time", library::NAME),
    }
}

/// The plain version only spells the tables; the library also looks whether a text gives them.
fn time_written(write: WriteTable, texts: &[Vec<u8>], options: &Options) {
    let (mut out, mut spelled) = (ROOM, String::with_capacity(ROOM.len()));
    time_repeated(
        "written tables",
        WRITINGS,
        texts,
        options,
        &mut |text| write(text, WRITINGS, &mut out),
        &mut |text| {
            let table = plain::read(text).expect("a valid table");
            for _ in 0..WRITINGS {
                spelled.clear();
                plain::spell(&table, &mut spelled).expect("memory takes every byte");
            }
            spelled.len() as u64
        },
    );
}

// ---- reading, answering and writing apart

/// Reading, reading and answering, and all three.
type Stages = [Box<dyn FnMut(&[u8]) -> u64>; 3];

fn time_parts(texts: &[Vec<u8>], options: &Options) {
    let mut coded: Vec<(&str, Stages)> = vec![("plain", plain_stages())];
    match library_stages() {
        Some(stages) => coded.insert(0, (library::NAME, stages)),
        None => println!("  {:<15} has no parts to time", library::NAME),
    }
    let mut fastest = vec![[f64::INFINITY; 3]; coded.len()];
    for _ in 0..ROUNDS {
        for ((_, stages), fastest) in coded.iter_mut().zip(&mut fastest) {
            for (stage, fastest) in stages.iter_mut().zip(fastest) {
                let seconds = 1.0 / rate(texts, options.time / ROUNDS, stage);
                *fastest = fastest.min(seconds);
            }
        }
    }
    for ((whose, _), [read, answered, written]) in coded.iter().zip(&fastest) {
        println!(
            "  {whose:<15} {:.2} us reading, {:.2} us answering, {:.2} us writing",
            read * 1e6,
            (answered - read) * 1e6,
            (written - answered) * 1e6
        );
    }
}

#[cfg(feature = "parts")]
fn library_stages() -> Option<Stages> {
    use library::parts;
    let mut out = ROOM;
    Some([
        Box::new(parts::read),
        Box::new(|text| parts::answers(text, 1)),
        Box::new(move |text| parts::write(text, 1, &mut out)),
    ])
}

#[cfg(not(feature = "parts"))]
fn library_stages() -> Option<Stages> {
    None
}

fn plain_stages() -> Stages {
    let mut out = ROOM;
    [
        Box::new(|text| plain::read(text).map_or(0, |table| table.tasks() as u64)),
        Box::new(|text| {
            let answers = |table| plain::answers(&table, &mut Turns::unbounded())[0][0];
            plain::read(text).map_or(0, answers)
        }),
        Box::new(move |text| plain::report(text, &mut out)),
    ]
}

// ---- bad tables

/// One report for growing deadlines, and the explanations of every task by every method.
fn time_bad_table(title: &str, table: &dyn Fn(u64) -> Table) {
    println!("{title}");
    let mut last: Option<(u64, Duration)> = None;
    for longest in [10_000, 1_000_000, TIME_MOST] {
        let text = table(longest).text();
        let expected = last.map(|(limit, time)| time * (longest / limit) as u32);
        let taken = match expected {
            Some(expected) if expected > LONGEST => {
                format!("left out, some {} s", expected.as_secs())
            }
            _ => {
                let (time, code) = timed(|out| library::report(&text, out));
                assert!(code >> 32 == 0 && model::read(&text).is_ok());
                last = Some((longest, time));
                in_words(time)
            }
        };
        let mut turns = Turns::at_most(PLAIN_TURNS);
        let (time, _) = timed(|out| plain::report_within(&text, out, &mut turns));
        println!(
            "  deadline {longest:>9}: {taken} {}, {} plain",
            library::NAME,
            plain_in_words(time, &turns)
        );
        time_explanations(&text);
        growths::time_on_bad_table(&text);
    }
}

fn time_explanations(text: &[u8]) {
    let (mut all, mut slowest) = (Duration::ZERO, Duration::ZERO);
    let (mut plain_all, mut turns) = (Duration::ZERO, Turns::at_most(PLAIN_TURNS));
    let mut left_out = 0;
    for position in 0..tasks_of(text) {
        for method in 0..model::METHODS {
            if all < LONGEST {
                let explain = |out: &mut [u8]| library::explain(text, method, position, out);
                let (time, code) = timed(explain);
                assert!(code >> 32 == 0);
                all += time;
                slowest = slowest.max(time);
            } else {
                left_out += 1;
            }
            let explain =
                |out: &mut [u8]| plain::explain_within(text, method, position, out, &mut turns);
            plain_all += timed(explain).0;
        }
    }
    let left_out = match left_out {
        0 => String::new(),
        count => format!(", {count} left out"),
    };
    println!(
        "    all explained: {} (slowest {}{left_out}) {}, {} plain",
        in_words(all),
        in_words(slowest),
        library::NAME,
        plain_in_words(plain_all, &turns)
    );
}

fn timed(work: impl FnOnce(&mut [u8]) -> u64) -> (Duration, u64) {
    let mut out = ROOM;
    let start = processor_time();
    let code = work(&mut out);
    (processor_time() - start, code)
}

fn plain_in_words(time: Duration, turns: &Turns) -> String {
    if turns.used_up() {
        format!("given up after {PLAIN_TURNS} turns, {}", in_words(time))
    } else {
        in_words(time)
    }
}

fn in_words(time: Duration) -> String {
    format!("{:.3} ms", time.as_secs_f64() * 1e3)
}
