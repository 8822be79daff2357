//! The plain version's growths, and its tables with scaled execution times.

use super::explain::nothing_below;
use super::reading::{read, TEXT_MOST, TIME_MOST};
use super::table::write;
use super::{code, give, search};
use super::{Access, Blocks, Counted, Marked, Refused, Table, Turns, METHODS, TASKS_MOST};

const GROWTH_MOST: u64 = 4_000;

pub fn growth(text: &[u8], method: u64) -> u64 {
    match grown(text, method) {
        Err(refused) => code(refused),
        Ok((_, k)) => k,
    }
}

pub fn scaled(text: &[u8], method: u64, out: &mut [u8]) -> u64 {
    match grown(text, method) {
        Err(refused) => code(refused),
        Ok((_, 0)) => give(text, out),
        Ok((mut table, k)) => {
            for task in &mut table.tasks {
                task.execution = times(task.execution, k);
            }
            write(&table, out)
        }
    }
}

/// The table of a text, and its growth under a method.
fn grown(text: &[u8], method: u64) -> Result<(Table, u64), Refused> {
    if method >= METHODS as u64 {
        return Err((12, 0));
    }
    let table = read(text)?;
    let k = growth_of(&table, method as usize, text.len());
    Ok((table, k))
}

fn times(execution: u64, k: u64) -> u64 {
    (execution * k + 999) / 1_000
}

/// A task that is in time with one k is so with every smaller one. So each task has a growth of its
/// own, and the table's is the smallest of these: only a task that is not in time with the smallest so
/// far is looked at more closely. The lowest task comes first, as it is the likeliest to have it.
fn growth_of(table: &Table, method: usize, length: usize) -> u64 {
    let executions = table.tasks.iter().map(|task| task.execution);
    let longest = executions.max().unwrap_or(1);
    // with a larger k the table would be refused
    let mut most = GROWTH_MOST.min(TIME_MOST * 1_000 / longest);
    let fits = |k| scaled_length(table, length, k) <= TEXT_MOST;
    if !fits(most) {
        most = bisected(most, fits);
    }
    let methods: &[usize] = match &method {
        5 => &[4, 3],
        _ => std::slice::from_ref(&method),
    };
    let of_each = methods.iter().map(|method| all_cases(table, *method));
    let of_each: Vec<Vec<Vec<Case>>> = of_each.collect();
    for i in (0..table.tasks.len()).rev() {
        let in_time = |k| {
            let executions = Executions::new(table, i, k);
            of_each.iter().any(|cases| executions.in_time(&cases[i]))
        };
        if !in_time(most) {
            most = bisected(most, in_time);
        }
        if most == 0 {
            break;
        }
    }
    most
}

/// How long the text is with scaled execution times.
fn scaled_length(table: &Table, length: usize, k: u64) -> usize {
    let executions = table.tasks.iter().map(|task| task.execution);
    let digits: usize = executions.clone().map(digits_of).sum();
    let scaled: usize = executions.map(|ticks| digits_of(times(ticks, k))).sum();
    length - digits + scaled
}

fn digits_of(mut number: u64) -> usize {
    let mut digits = 1;
    while number > 9 {
        number /= 10;
        digits += 1;
    }
    digits
}

/// The greatest number below `failing` that passes, 0 for none.
fn bisected(mut failing: u64, passes: impl Fn(u64) -> bool) -> u64 {
    let mut passing = 0;
    while failing - passing > 1 {
        let middle = (passing + failing) / 2;
        if passes(middle) {
            passing = middle;
        } else {
            failing = middle;
        }
    }
    passing
}

/// What k makes of a task and those above it.
struct Executions<'a> {
    table: &'a Table,
    i: usize,
    scaled: [u64; TASKS_MOST],
}

impl Executions<'_> {
    fn new(table: &Table, i: usize, k: u64) -> Executions<'_> {
        let mut scaled = [0; TASKS_MOST];
        for (scaled, task) in scaled.iter_mut().zip(&table.tasks[..=i]) {
            *scaled = times(task.execution, k);
        }
        Executions { table, i, scaled }
    }

    /// Whether there is a response with everything that may block the task.
    fn in_time(&self, cases: &[Case]) -> bool {
        let task = &self.table.tasks[self.i];
        let limit = task.deadline - task.jitter;
        cases.iter().all(|case| {
            let own = self.scaled[self.i] + case.blocking;
            let mut each = [0; TASKS_MOST];
            let above = self.scaled[..self.i].iter().zip(&case.reloads);
            for (each, (scaled, reloads)) in each.iter_mut().zip(above) {
                *each = scaled + self.table.reload_time * u64::from(*reloads);
            }
            let start = nothing_below(self.table, self.i, own, &each);
            start.map_or(false, |start| {
                let turns = &mut Turns::unbounded();
                search(self.table, self.i, own, &each, start, limit, turns) != 0
            })
        })
    }
}

/// One thing that may block a task, and what the tasks above then reload; k changes neither.
struct Case {
    blocking: u64,
    reloads: [u32; TASKS_MOST],
}

/// The cases of each task by one of the methods 0 to 4.
///
/// The tasks are gone through from the highest on. Each is one more that those above it affect, so
/// that their counts and unions are carried along.
fn all_cases(table: &Table, method: usize) -> Vec<Vec<Case>> {
    match table.ways {
        0 => cases_of(table, &Marked(table), method),
        ways => cases_of(table, &Counted::new(table, ways), method),
    }
}

fn cases_of(table: &Table, blocks: &impl Blocks, method: usize) -> Vec<Vec<Case>> {
    let mut carried = Carried::new(table, blocks, method);
    let of_each = (0..table.tasks.len()).map(|i| {
        carried.go_down_to(i);
        let blocking = table.accesses.iter().filter(|access| access.may_block(i));
        let with = |access: &Access| Case {
            blocking: access.length,
            reloads: carried.with(access),
        };
        let mut cases: Vec<Case> = blocking.map(with).collect();
        if cases.is_empty() {
            cases.push(Case {
                blocking: 0,
                reloads: carried.reloads,
            });
        }
        cases
    });
    of_each.collect()
}

/// By the task that pre-empts: what those affected so far have to reload.
struct Carried<'a, B: Blocks> {
    blocks: &'a B,
    method: usize,
    reloads: [u32; TASKS_MOST],
    /// What they have together, for method 3.
    useful: Vec<B::Useful>,
    /// The union of the ECBs down to the task that pre-empts, for method 4.
    evicting: Vec<B::Evicting>,
}

impl<B: Blocks> Carried<'_, B> {
    fn new<'a>(table: &Table, blocks: &'a B, method: usize) -> Carried<'a, B> {
        let tasks = table.tasks.len();
        let mut all = B::NOTHING_EVICTING;
        let evicting = (0..tasks).map(|task| {
            all = blocks.union(all, blocks.evicting(task));
            all
        });
        Carried {
            blocks,
            method,
            reloads: [0; TASKS_MOST],
            useful: vec![B::NOTHING_USEFUL; tasks],
            evicting: evicting.collect(),
        }
    }

    fn go_down_to(&mut self, i: usize) {
        let useful = self.blocks.useful(i);
        for j in 0..i {
            self.reloads[j] = self.one_more(j, useful);
            self.useful[j] = self.blocks.together(self.useful[j], useful);
        }
    }

    /// The counts with an access among those whom the tasks above its ceiling affect.
    fn with(&self, access: &Access) -> [u32; TASKS_MOST] {
        let mut reloads = self.reloads;
        for (j, reloads) in reloads.iter_mut().enumerate().take(access.ceiling) {
            *reloads = self.one_more(j, self.blocks.useful_in(access));
        }
        reloads
    }

    /// The count of `j` with one more that it affects.
    fn one_more(&self, j: usize, useful: B::Useful) -> u32 {
        let blocks = self.blocks;
        match self.method {
            0 => 0,
            1 => blocks.evicted(j),
            2 => self.reloads[j].max(blocks.size(useful)),
            3 => {
                let all = blocks.together(self.useful[j], useful);
                blocks.lost(all, blocks.evicting(j))
            }
            _ => self.reloads[j].max(blocks.lost(useful, self.evicting[j])),
        }
    }
}
