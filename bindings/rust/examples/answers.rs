//! Prints the response of every task of a table under every method, then the report, and then why
//! combined (method 5) answers for the last task what it does, and after that the table itself, read and
//! written again. Then comes how much growth is left under every method, and the table with the growth that
//! combined leaves, whether it is schedulable by earliest deadline first, when the first job of the last task
//! ends in a replay, and the last three ticks of it. The table is read from standard input. Then comes the same
//! explanation for a task that an access to a shared device may block, and last what is found of a list of
//! responses of that table.
use std::io::{Read, Write};

/// b and c share a device. While c has it, for 2 ticks, b waits, and a may pre-empt c.
const SHARED: &[u8] = b"K\t4\t1\n\
    T\ta\t1\t20\t20\t0\t0\t0\t3\n\
    T\tb\t2\t40\t40\t0\t0\t0\t0\n\
    T\tc\t3\t60\t60\t0\t0\t3\t3\n\
    A\tc\tb\t2\t3\n";

/// Responses that a partner claims of these tasks: b needs 7 ticks, and so far nothing is said of c.
const CLAIMED: &[u8] = b"R\ta\t1\nR\tb\t6\nR\tc\t-\n";

fn main() -> std::io::Result<()> {
    let mut text = Vec::new();
    std::io::stdin().take(16_385).read_to_end(&mut text)?;
    let mut position = 0;
    loop {
        match crpd::answer(&text, 0, position) {
            Err(refusal) if refusal.number == 13 => break,
            Err(refusal) => {
                eprintln!("refused: number {}, line {}", refusal.number, refusal.line);
                std::process::exit(1);
            }
            Ok(_) => print!("task {position}:"),
        }
        for method in 0..6 {
            match crpd::answer(&text, method, position) {
                Ok(Some(ticks)) => print!(" {ticks}"),
                _ => print!(" none"),
            }
        }
        println!();
        position += 1;
    }
    let mut out = [0; crpd::TABLE_MOST];
    let length =
        crpd::report(&text, &mut out).expect("an accepted table has a report, and it fits");
    assert_eq!(crpd::print(&text), out[..length]);
    std::io::stdout().write_all(&out[..length])?;
    let length = crpd::explain(&text, 5, position - 1, &mut out)
        .expect("an accepted table has a last task, and its explanation fits");
    assert!(length <= crpd::EXPLANATION_MOST);
    std::io::stdout().write_all(&out[..length])?;
    let length = crpd::rewrite(&text, &mut out).expect("an accepted table comes back, and it fits");
    std::io::stdout().write_all(&out[..length])?;
    print!("growth:");
    for method in 0..6 {
        let k = crpd::growth(&text, method).expect("an accepted table has a growth");
        print!(" {k}");
    }
    println!();
    let length =
        crpd::scaled(&text, 5, &mut out).expect("an accepted table is scaled, and it fits");
    std::io::stdout().write_all(&out[..length])?;
    let schedulable = crpd::edf(&text).expect("it has no jitter and no access line");
    println!(
        "earliest deadline first: {}",
        if schedulable { "yes" } else { "no" }
    );
    match crpd::replay(&text, position - 1).expect("it has no jitter and no access") {
        Some(end) => println!("replay: {end}"),
        None => println!("replay: 0"),
    }
    let length = crpd::ticks(&text, 99_997, &mut out).expect("it is replayed, and the page fits");
    assert!(length <= crpd::TICKS_MOST);
    std::io::stdout().write_all(&out[..length])?;
    let length = crpd::explain(SHARED, 5, 1, &mut out)
        .expect("it has a second task, whose explanation fits");
    std::io::stdout().write_all(&out[..length])?;
    let length = crpd::check(SHARED, CLAIMED, 5, &mut out)
        .expect("the list has a line for each task, and what is found fits");
    assert!(length <= crpd::FINDINGS_MOST);
    std::io::stdout().write_all(&out[..length])
}
