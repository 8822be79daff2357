//! The plain version's checks of a partner's list.

use super::reading::{is_name, number, read};
use super::{code, costs, give, reload_count, with_access};
use super::{Blocks, Counted, Marked, Refused, Table, METHODS, TASKS_MOST};

const LINE_MOST: usize = "C\tlongest-name\topen\n".len();

#[derive(Clone, Copy, PartialEq, Eq)]
enum Word {
    Ok,
    Open,
    Bad,
}

pub fn check(text: &[u8], list: &[u8], method: u64, out: &mut [u8]) -> u64 {
    match checked(text, list, method) {
        Err(refused) => code(refused),
        Ok(written) => give(&written, out),
    }
}

fn checked(text: &[u8], list: &[u8], method: u64) -> Result<Vec<u8>, Refused> {
    if method >= METHODS as u64 {
        return Err((12, 0));
    }
    let table = read(text)?;
    let bounds = read_list(list, &table)?;
    Ok(match table.ways {
        0 => lines(&table, &Marked(&table), method as usize, &bounds),
        ways => lines(
            &table,
            &Counted::new(&table, ways),
            method as usize,
            &bounds,
        ),
    })
}

/// The bounds of the tasks, `None` for `-`.
fn read_list(list: &[u8], table: &Table) -> Result<[Option<u64>; TASKS_MOST], Refused> {
    let mut bounds = [None; TASKS_MOST];
    let mut rest = list;
    let mut line = 0;
    while !rest.is_empty() {
        let told = line as u64 + 1;
        let (name, bound, length) = read_line(rest).ok_or((19, told))?;
        if line == table.tasks.len() || table.tasks[line].name() != name {
            return Err((20, told));
        }
        bounds[line] = bound;
        rest = &rest[length..];
        line += 1;
    }
    if line == table.tasks.len() {
        Ok(bounds)
    } else {
        Err((20, line as u64 + 1))
    }
}

/// The longest good line.
const BOUND_LINE_MOST: usize = "R\tlongest-name\t999999999\n".len();

/// The name and the bound of the line at the start of the list, and its length.
fn read_line(rest: &[u8]) -> Option<(&[u8], Option<u64>, usize)> {
    let start = &rest[..rest.len().min(BOUND_LINE_MOST)];
    let end = start.iter().position(|byte| *byte == b'\n')?;
    let fields = start[..end].strip_prefix(b"R\t")?;
    let tab = fields.iter().position(|byte| *byte == b'\t')?;
    let (name, field) = (&fields[..tab], &fields[tab + 1..]);
    if !is_name(name) {
        return None;
    }
    let bound = match field {
        b"-" => None,
        _ => Some(number(field)?),
    };
    Some((name, bound, end + 1))
}

fn lines(
    table: &Table,
    blocks: &impl Blocks,
    method: usize,
    bounds: &[Option<u64>; TASKS_MOST],
) -> Vec<u8> {
    let mut lines = Vec::with_capacity(table.tasks.len() * LINE_MOST);
    for (i, (task, bound)) in table.tasks.iter().zip(bounds).enumerate() {
        let word = match bound {
            None => Word::Open,
            Some(number) => word(table, blocks, method, i, *number),
        };
        lines.extend(b"C\t");
        lines.extend(task.name());
        lines.extend(match word {
            Word::Ok => &b"\tok\n"[..],
            Word::Open => b"\topen\n",
            Word::Bad => b"\tbad\n",
        });
    }
    lines
}

/// What is not `ok` is `open` or `bad` by all methods alike, so that the combined method only has to ask
/// whether a number holds by either union.
fn word(table: &Table, blocks: &impl Blocks, method: usize, i: usize, number: u64) -> Word {
    let task = &table.tasks[i];
    if number > task.deadline - task.jitter {
        return Word::Bad;
    }
    let holds = match method {
        5 => holds(table, blocks, 3, i, number) || holds(table, blocks, 4, i, number),
        _ => holds(table, blocks, method, i, number),
    };
    let blocking = table.accesses.iter().filter(|access| access.may_block(i));
    match holds {
        true => Word::Ok,
        false if blocking.count() > 1 => Word::Open,
        false => Word::Bad,
    }
}

fn holds(table: &Table, blocks: &impl Blocks, method: usize, i: usize, number: u64) -> bool {
    let mut reloads = [0; TASKS_MOST];
    for (j, reloads) in reloads.iter_mut().enumerate().take(i) {
        *reloads = reload_count(blocks, method, i, j);
    }
    let holds = |own: u64, reloads: &[u32; TASKS_MOST]| {
        let each = costs(table, i, reloads);
        let above = table.tasks[..i].iter().zip(&each);
        let taken = above.map(|(above, each)| above.activations(number) * each);
        own + taken.sum::<u64>() <= number
    };
    let own = table.tasks[i].execution;
    let mut is_blocked = false;
    for access in table.accesses.iter().filter(|access| access.may_block(i)) {
        is_blocked = true;
        let reloads = with_access(blocks, method, i, access, reloads);
        if !holds(own + access.length, &reloads) {
            return false;
        }
    }
    is_blocked || holds(own, &reloads)
}
