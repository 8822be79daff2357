//! A good plain version, written for speed: what the proved code is timed against, and what stands
//! in for it where it is not linked.

mod blocks;
mod check;
mod edf;
mod explain;
mod growth;
mod reading;
mod replay;
mod table;

pub use check::check;
pub use edf::edf;
pub use explain::{explain, explain_within};
pub use growth::{growth, scaled};
pub use reading::read;
pub use replay::replay;
pub use table::{rewrite, spell, write_value};

use blocks::{Blocks, Counted, Counts, Marked, Words};
use std::io::Write;

const TASKS_MOST: usize = 32;
const ACCESSES_MOST: usize = 32;
const REPORT_MOST: usize = 2_746;
const METHODS: usize = 6;

/// C, T, D and J.
type Times = [u64; 4];

/// A refusal's number and line.
pub type Refused = (u64, u64);

/// For each task and method the response, 0 for none.
pub type Answers = Vec<[u64; METHODS]>;

struct Task {
    name: [u8; 12],
    name_len: usize,
    execution: u64,
    period: u64,
    deadline: u64,
    jitter: u64,
    /// Of a table in hex.
    useful: Words,
    evicting: Words,
}

impl Task {
    fn new(name: &[u8], times: Times, useful: Words, evicting: Words) -> Task {
        let [execution, period, deadline, jitter] = times;
        let mut padded = [0; 12];
        padded[..name.len()].copy_from_slice(name);
        Task {
            name: padded,
            name_len: name.len(),
            execution,
            period,
            deadline,
            jitter,
            useful,
            evicting,
        }
    }

    fn name(&self) -> &[u8] {
        &self.name[..self.name_len]
    }

    fn activations(&self, response: u64) -> u64 {
        (response + self.jitter + self.period - 1) / self.period
    }
}

struct Access {
    /// Positions.
    task: usize,
    ceiling: usize,
    length: u64,
    /// Of a table in hex.
    useful: Words,
    /// Where its counts stand among those of the table.
    counts: usize,
}

impl Access {
    fn may_block(&self, i: usize) -> bool {
        self.ceiling <= i && i < self.task
    }
}

pub struct Table {
    sets: usize,
    reload_time: u64,
    /// The ways of a table with counts; 0 of one in hex.
    ways: u8,
    tasks: Vec<Task>,
    accesses: Vec<Access>,
    /// The useful blocks of the tasks and then of the accesses; nothing of a table in hex.
    counts: Vec<Counts>,
}

impl Table {
    /// How many tasks it has.
    pub fn tasks(&self) -> usize {
        self.tasks.len()
    }

    fn position(&self, name: &[u8]) -> Option<usize> {
        self.tasks.iter().position(|task| task.name() == name)
    }
}

/// How often a demand may be worked out before the search is given up.
pub struct Turns {
    left: u64,
}

impl Turns {
    pub fn unbounded() -> Turns {
        Turns { left: u64::MAX }
    }

    pub fn at_most(turns: u64) -> Turns {
        Turns { left: turns }
    }

    /// True if the bound was reached: the answers are then not to be used.
    pub fn used_up(&self) -> bool {
        self.left == 0
    }

    fn take(&mut self) -> bool {
        self.left = self.left.saturating_sub(1);
        self.left != 0
    }
}

pub fn answer(text: &[u8], method: u64, position: u64) -> u64 {
    match asked(text, method, position) {
        Err(refused) => code(refused),
        Ok((table, i)) => single(&table, method as usize, i, &mut Turns::unbounded()),
    }
}

/// The table of a text, and the position of a task of it that is asked for under a method.
fn asked(text: &[u8], method: u64, position: u64) -> Result<(Table, usize), Refused> {
    if method >= METHODS as u64 {
        return Err((12, 0));
    }
    let table = read(text)?;
    if position >= table.tasks.len() as u64 {
        return Err((13, 0));
    }
    Ok((table, position as usize))
}

pub fn report(text: &[u8], out: &mut [u8]) -> u64 {
    report_within(text, out, &mut Turns::unbounded())
}

pub fn report_within(text: &[u8], out: &mut [u8], turns: &mut Turns) -> u64 {
    match read(text) {
        Err(refused) => code(refused),
        Ok(table) => write(&table, &answers(&table, turns), out),
    }
}

pub fn print(text: &[u8], out: &mut [u8]) -> u64 {
    match read(text) {
        Err((number, line)) => give(format!("E\t{number}\t{line}\n").as_bytes(), out),
        Ok(table) => write(&table, &answers(&table, &mut Turns::unbounded()), out),
    }
}

fn code((number, line): Refused) -> u64 {
    number << 32 | line
}

// ---- answering

pub fn answers(table: &Table, turns: &mut Turns) -> Answers {
    match table.ways {
        0 => rows(table, &Marked(table), turns),
        ways => rows(table, &Counted::new(table, ways), turns),
    }
}

fn rows(table: &Table, blocks: &impl Blocks, turns: &mut Turns) -> Answers {
    (0..table.tasks.len())
        .map(|i| row(table, blocks, i, turns))
        .collect()
}

/// For each access a number that the response with it is not below.
type Starts = [u64; ACCESSES_MOST];

fn row(table: &Table, blocks: &impl Blocks, i: usize, turns: &mut Turns) -> [u64; METHODS] {
    let mut row = [0; METHODS];
    // without costs the demand is least, so each other response is at least this one
    let mut starts = [0; ACCESSES_MOST];
    row[0] = respond(table, blocks, i, 0, &mut starts, turns);
    if row[0] != 0 {
        for (method, answer) in row.iter_mut().enumerate().take(5).skip(1) {
            *answer = respond(table, blocks, i, method, &mut starts, turns);
        }
        row[5] = combined(row[3], row[4]);
    }
    row
}

fn single(table: &Table, method: usize, i: usize, turns: &mut Turns) -> u64 {
    match table.ways {
        0 => single_of(table, &Marked(table), method, i, turns),
        ways => single_of(table, &Counted::new(table, ways), method, i, turns),
    }
}

fn single_of(
    table: &Table,
    blocks: &impl Blocks,
    method: usize,
    i: usize,
    turns: &mut Turns,
) -> u64 {
    let mut respond = |method| respond(table, blocks, i, method, &mut [0; ACCESSES_MOST], turns);
    if method < 5 {
        return respond(method);
    }
    let useful_union = respond(3);
    let evicting_union = respond(4);
    combined(useful_union, evicting_union)
}

fn combined(one: u64, other: u64) -> u64 {
    if one == 0 || other == 0 {
        one + other
    } else {
        one.min(other)
    }
}

/// The response of `i` by one of the methods 0 to 4, 0 for none: the largest over the accesses that
/// may block it, or the plain one. Method 0 leaves its responses as starts for the others.
fn respond(
    table: &Table,
    blocks: &impl Blocks,
    i: usize,
    method: usize,
    starts: &mut Starts,
    turns: &mut Turns,
) -> u64 {
    let task = &table.tasks[i];
    let limit = task.deadline - task.jitter;
    let mut reloads = [0; TASKS_MOST];
    for (j, reloads) in reloads.iter_mut().enumerate().take(i) {
        *reloads = reload_count(blocks, method, i, j);
    }
    let mut search_from = |own: u64, reloads: &[u32; TASKS_MOST], start: &mut u64| {
        let each = costs(table, i, reloads);
        let response = search(table, i, own, &each, own.max(*start), limit, turns);
        if method == 0 {
            *start = response;
        }
        response
    };
    let mut largest = None;
    for (access, start) in table.accesses.iter().zip(&mut *starts) {
        if access.may_block(i) {
            let own = task.execution + access.length;
            let reloads = with_access(blocks, method, i, access, reloads);
            let response = search_from(own, &reloads, start);
            if response == 0 {
                return 0;
            }
            largest = largest.max(Some(response));
        }
    }
    match largest {
        Some(response) => response,
        None => search_from(task.execution, &reloads, &mut starts[0]),
    }
}

/// What one activation of each task above costs.
fn costs(table: &Table, i: usize, reloads: &[u32; TASKS_MOST]) -> [u64; TASKS_MOST] {
    let mut each = [0; TASKS_MOST];
    let above = table.tasks[..i].iter().zip(reloads);
    for (each, (task, reloads)) in each.iter_mut().zip(above) {
        *each = task.execution + table.reload_time * u64::from(*reloads);
    }
    each
}

/// The least number up to `limit` that equals its demand, 0 for none. `own` is what the task itself
/// and what blocks it take; `start` is not above the number.
fn search(
    table: &Table,
    i: usize,
    own: u64,
    each: &[u64; TASKS_MOST],
    start: u64,
    limit: u64,
    turns: &mut Turns,
) -> u64 {
    let mut response = start;
    while response <= limit && turns.take() {
        let mut demand = own;
        for (above, each) in table.tasks[..i].iter().zip(each) {
            demand += above.activations(response) * each;
        }
        if demand == response {
            return response;
        }
        response = demand;
    }
    0
}

fn reload_count(blocks: &impl Blocks, method: usize, i: usize, j: usize) -> u32 {
    let affected = j + 1..=i;
    match method {
        0 => 0,
        1 => blocks.evicted(j),
        2 => {
            let sizes = affected.map(|task| blocks.size(blocks.useful(task)));
            sizes.max().unwrap_or(0)
        }
        3 => {
            let each = affected.map(|task| blocks.useful(task));
            let all = together(blocks, each);
            blocks.lost(all, blocks.evicting(j))
        }
        _ => {
            let all = union(blocks, (0..=j).map(|task| blocks.evicting(task)));
            let sizes = affected.map(|task| blocks.lost(blocks.useful(task), all));
            sizes.max().unwrap_or(0)
        }
    }
}

fn together<B: Blocks>(blocks: &B, each: impl Iterator<Item = B::Useful>) -> B::Useful {
    each.fold(B::NOTHING_USEFUL, |all, one| blocks.together(all, one))
}

fn union<B: Blocks>(blocks: &B, each: impl Iterator<Item = B::Evicting>) -> B::Evicting {
    each.fold(B::NOTHING_EVICTING, |all, one| blocks.union(all, one))
}

/// The counts with an access that may block `i` among those whom the tasks above its ceiling affect.
/// The unions are carried along: up from `i` in method 3, down to the ceiling in method 4.
fn with_access<B: Blocks>(
    blocks: &B,
    method: usize,
    i: usize,
    access: &Access,
    mut reloads: [u32; TASKS_MOST],
) -> [u32; TASKS_MOST] {
    let own = blocks.useful_in(access);
    match method {
        2 => {
            let value = blocks.size(own);
            for reloads in &mut reloads[..access.ceiling] {
                *reloads = value.max(*reloads);
            }
        }
        3 => {
            let affected = (access.ceiling + 1..=i).map(|task| blocks.useful(task));
            let mut useful = blocks.together(own, together(blocks, affected));
            for j in (0..access.ceiling).rev() {
                useful = blocks.together(useful, blocks.useful(j + 1));
                reloads[j] = blocks.lost(useful, blocks.evicting(j));
            }
        }
        4 => {
            let mut evicting = B::NOTHING_EVICTING;
            for (j, reloads) in reloads.iter_mut().enumerate().take(access.ceiling) {
                evicting = blocks.union(evicting, blocks.evicting(j));
                let value = blocks.lost(own, evicting);
                *reloads = value.max(*reloads);
            }
        }
        _ => {}
    }
    reloads
}

// ---- writing

pub fn write(table: &Table, answers: &Answers, out: &mut [u8]) -> u64 {
    let mut report = Vec::with_capacity(REPORT_MOST);
    write_rows(table, answers, &mut report).expect("memory takes every byte");
    give(&report, out)
}

fn write_rows(table: &Table, answers: &Answers, to: &mut Vec<u8>) -> std::io::Result<()> {
    let mut all = [true; METHODS];
    for (task, row) in table.tasks.iter().zip(answers) {
        to.write_all(b"R\t")?;
        to.write_all(task.name())?;
        write!(to, "\t{}", task.deadline - task.jitter)?;
        for (answer, all) in row.iter().zip(&mut all) {
            if *answer == 0 {
                *all = false;
                to.write_all(b"\t-")?;
            } else {
                write!(to, "\t{answer}")?;
            }
        }
        to.write_all(b"\n")?;
    }
    to.write_all(b"V")?;
    for all in all {
        to.write_all(if all { b"\tyes" } else { b"\tno" })?;
    }
    to.write_all(b"\n")
}

fn give(written: &[u8], out: &mut [u8]) -> u64 {
    match out.get_mut(..written.len()) {
        None => code((14, 0)),
        Some(place) => {
            place.copy_from_slice(written);
            written.len() as u64
        }
    }
}
