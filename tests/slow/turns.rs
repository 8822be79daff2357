// How many turns of searches the operations take on a table, without accesses and with 32 of rising and of falling lengths: a line for each, `TABLE ACCESSES OPERATION TURNS`, the most
// of one call. It is compiled by tests/turns.py over sources in which turns are counted.
use std::sync::atomic::Ordering::Relaxed;

fn turns() -> u64 {
    search::hasten::MADE.load(Relaxed)
}

// The turns that a call takes.
fn of(call: impl FnOnce()) -> u64 {
    let before = turns();
    call();
    turns() - before
}

// The table with so many accesses of its last task, which the first may have to wait for.
fn with_accesses(text: &str, lengths: impl Iterator<Item = u64>) -> String {
    let mut last = "";
    let mut table = String::new();
    for line in text.lines() {
        let fields: Vec<&str> = line.split('\t').collect();
        if fields[0] == "T" {
            last = fields[1];
        }
        table += &fields.join("\t");
        table.push('\n');
    }
    for length in lengths {
        table += &format!("A\t{last}\tt0\t{length}\t0\n");
    }
    table
}

fn main() {
    for path in std::env::args().skip(1) {
        let text = std::fs::read_to_string(&path).unwrap();
        let name = path.rsplit('/').next().unwrap().trim_end_matches(".table");
        let count = text.lines().filter(|line| line.starts_with('T')).count() as u64;
        let tables = [
            ("none", text.clone()),
            ("rising", with_accesses(&text, 1..33)),
            ("falling", with_accesses(&text, (1..33).rev())),
        ];
        for (accesses, table) in &tables {
            let table = table.as_bytes();
            let mut out = vec![0; 10_000];
            let report = of(|| drop(crpd::report(table, &mut out).unwrap()));
            let (mut answer, mut explain, mut growth) = (0, 0, 0);
            for method in [0, 5] {
                for task in 0..count {
                    answer = answer.max(of(|| drop(crpd::answer(table, method, task).unwrap())));
                }
                growth = growth.max(of(|| drop(crpd::growth(table, method).unwrap())));
            }
            for method in 0..6 {
                for task in 0..count {
                    explain = explain.max(of(|| drop(crpd::explain(table, method, task, &mut out).unwrap())));
                }
            }
            for (operation, turns) in [("report", report), ("answer", answer), ("explanation", explain), ("growth", growth)] {
                println!("{name} {accesses} {operation} {turns}");
            }
        }
    }
}
