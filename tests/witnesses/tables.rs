// Tables of the cases: the text that one is read from, and values put in places of it, as `count=33;t0.work=5;a2.ucb=1:0:0:0`, or `-` for none.
use super::cache::sets::CacheSet;
use super::cache::units::Ticks;
use super::cache::useful::{Form, Useful};
use super::common::{number, Args};
use super::table::accesses::Access;
use super::table::tasks::{Name, Task};
use super::table::Table;

// How useful blocks are written: 0 for hex digits, or the ways.
fn form_of(number: u64) -> Form {
    match number {
        0 => Form::Hex,
        ways => Form::Digits(ways),
    }
}

pub fn form(args: &mut Args) -> Form {
    form_of(args.number())
}

pub fn read(args: &mut Args) -> Table {
    let mut table = Table::empty();
    table.read(&args.bytes()).expect("a text that is accepted");
    table
}

fn set(value: &str) -> CacheSet {
    let words: Vec<u64> = value.split(':').map(number).collect();
    CacheSet::from_words(&words, 0)
}

// Four words are marks; 32 are those of the levels.
fn useful(value: &str) -> Useful {
    let words: Vec<u64> = value.split(':').map(number).collect();
    if words.len() == 32 {
        Useful::from_words(&words)
    } else {
        Useful::marked(set(value))
    }
}

pub fn changed(args: &mut Args) -> Table {
    let mut table = read(args);
    let changes = args.word();
    if changes == "-" {
        return table;
    }
    for change in changes.split(';') {
        let (place, value) = change.split_once('=').unwrap();
        match place {
            "sets" => table.sets = number(value),
            "brt" => table.brt = Ticks(number(value)),
            "form" => table.form = form_of(number(value)),
            "count" => table.count = number(value) as usize,
            "access_count" => table.access_count = number(value) as usize,
            _ => {
                let (at, field) = place.split_once('.').unwrap();
                let k = number(&at[1..]) as usize;
                if at.starts_with('t') {
                    let task = &mut table.tasks[k];
                    match field {
                        "name" => {
                            task.name = Name { bytes: [0; 12] };
                            for (n, b) in value.split(':').enumerate() {
                                task.name.bytes[n] = number(b) as u8;
                            }
                        }
                        "work" => task.work = Ticks(number(value)),
                        "period" => task.period = Ticks(number(value)),
                        "deadline" => task.deadline = Ticks(number(value)),
                        "jitter" => task.jitter = Ticks(number(value)),
                        "ucb" => task.ucb = useful(value),
                        "ecb" => task.ecb = set(value),
                        _ => panic!("a field of a task"),
                    }
                } else {
                    let access = &mut table.accesses[k];
                    match field {
                        "task" => access.task = number(value) as usize,
                        "ceiling" => access.ceiling = number(value) as usize,
                        "lasts" => access.lasts = Ticks(number(value)),
                        "ucb" => access.ucb = useful(value),
                        _ => panic!("a field of an access"),
                    }
                }
            }
        }
    }
    table
}

// A table: its numbers, the tasks and accesses that it has, and what stands in the places behind them.
pub fn shown(table: &Table) -> String {
    let tasks: Vec<(usize, &Task)> = table
        .tasks
        .iter()
        .enumerate()
        .filter(|(k, task)| *k < table.count || !is_empty(task))
        .collect();
    let accesses: Vec<(usize, &Access)> = table
        .accesses
        .iter()
        .enumerate()
        .filter(|(k, access)| *k < table.access_count || !is_unused(access))
        .collect();
    format!(
        "{} {:?} {:?} {} {} {:?} {:?}",
        table.sets, table.brt, table.form, table.count, table.access_count, tasks, accesses
    )
}

fn is_empty(task: &Task) -> bool {
    let none = [task.work, task.period, task.deadline, task.jitter]
        .iter()
        .all(|it| it.0 == 0);
    none && task.name.bytes == [0; 12] && task.ucb.size(8).0 == 0 && no_words(task.ecb)
}

fn is_unused(access: &Access) -> bool {
    access.task == 0 && access.ceiling == 0 && access.lasts.0 == 0 && access.ucb.size(8).0 == 0
}

fn no_words(set: CacheSet) -> bool {
    let mut words = [0; 4];
    set.put_words(&mut words, 0);
    words == [0; 4]
}
