//! The plain version's explanations.

use super::{asked, code, costs, give, search, with_access};
use super::{Access, Blocks, Counted, Marked, Table, Turns, TASKS_MOST};

const EXPLANATION_MOST: usize = 1_342;

/// Where the search for a figure ends.
const FIGURE_MOST: u64 = 250_000_000;

/// The whole processor, of which the tasks above have shares.
const WHOLE: u64 = 1 << 34;

/// What an explanation is written from.
#[derive(Clone)]
struct Reason {
    method: usize,
    /// 0 for none up to the search's end.
    figure: u64,
    /// The length of the access that blocks, or 0.
    blocking: u64,
    reloads: [u32; TASKS_MOST],
    /// Positions; of use with methods 2 and 4 only.
    victims: [usize; TASKS_MOST],
}

pub fn explain(text: &[u8], method: u64, position: u64, out: &mut [u8]) -> u64 {
    explain_within(text, method, position, out, &mut Turns::unbounded())
}

pub fn explain_within(
    text: &[u8],
    method: u64,
    position: u64,
    out: &mut [u8],
    turns: &mut Turns,
) -> u64 {
    match asked(text, method, position) {
        Err(refused) => code(refused),
        Ok((table, i)) => {
            let method = method as usize;
            let reason = match table.ways {
                0 => of_method(&table, &Marked(&table), method, i, turns),
                ways => of_method(&table, &Counted::new(&table, ways), method, i, turns),
            };
            write(&table, i, &reason, out)
        }
    }
}

fn of_method(
    table: &Table,
    blocks: &impl Blocks,
    method: usize,
    i: usize,
    turns: &mut Turns,
) -> Reason {
    match method {
        5 => of_combined(table, blocks, i, turns),
        _ => reason(table, blocks, method, i, FIGURE_MOST, turns),
    }
}

fn of_combined(table: &Table, blocks: &impl Blocks, i: usize, turns: &mut Turns) -> Reason {
    let useful_union = reason(table, blocks, 3, i, FIGURE_MOST, turns);
    // above the other figure this one is not wanted
    let end = match useful_union.figure {
        0 => FIGURE_MOST,
        figure => figure,
    };
    let evicting_union = reason(table, blocks, 4, i, end, turns);
    if evicting_union.figure != 0 || useful_union.figure == 0 {
        evicting_union
    } else {
        useful_union
    }
}

/// By one of the methods 0 to 4, with the figure if it is not above `end`: of the first access with
/// the largest one, or of the plain equation.
fn reason(
    table: &Table,
    blocks: &impl Blocks,
    method: usize,
    i: usize,
    end: u64,
    turns: &mut Turns,
) -> Reason {
    let mut plain = Reason {
        method,
        figure: 0,
        blocking: 0,
        reloads: [0; TASKS_MOST],
        victims: [0; TASKS_MOST],
    };
    fill_in_reloads(blocks, i, &mut plain);
    let mut largest: Option<Reason> = None;
    for access in table.accesses.iter().filter(|access| access.may_block(i)) {
        let mut blocked = plain.clone();
        put_access_in(blocks, i, access, &mut blocked);
        blocked.figure = figure(table, i, &blocked, end, turns);
        if blocked.figure == 0 {
            return blocked;
        }
        if largest
            .as_ref()
            .map_or(true, |largest| largest.figure < blocked.figure)
        {
            largest = Some(blocked);
        }
    }
    largest.unwrap_or_else(|| {
        plain.figure = figure(table, i, &plain, end, turns);
        plain
    })
}

/// The access is the victim only where it has more to reload than every task has.
fn put_access_in(blocks: &impl Blocks, i: usize, access: &Access, reason: &mut Reason) {
    let reloads = with_access(blocks, reason.method, i, access, reason.reloads);
    let counts = reason.reloads.iter().zip(&reloads);
    for (victim, (before, after)) in reason.victims.iter_mut().zip(counts) {
        if after > before {
            *victim = access.task;
        }
    }
    reason.reloads = reloads;
    reason.blocking = access.length;
}

fn figure(table: &Table, i: usize, reason: &Reason, end: u64, turns: &mut Turns) -> u64 {
    let own = table.tasks[i].execution + reason.blocking;
    let each = costs(table, i, &reason.reloads);
    match nothing_below(table, i, own, &each) {
        Some(start) => search(table, i, own, &each, start, end, turns),
        None => 0,
    }
}

/// A number that no solution is below, or nothing where there is none up to the search's end.
///
/// The shares are rounded down. Where they would come to the whole processor without that, so
/// little of it is left that the number is past the search's end.
pub fn nothing_below(
    table: &Table,
    i: usize,
    mut own: u64,
    each: &[u64; TASKS_MOST],
) -> Option<u64> {
    let mut left = WHOLE;
    for (task, each) in table.tasks[..i].iter().zip(each) {
        if task.activations(FIGURE_MOST) == 1 {
            own += each;
        } else {
            left = left.checked_sub(each * WHOLE / task.period)?;
        }
    }
    let own = Some(own).filter(|own| *own <= FIGURE_MOST)?;
    (own * WHOLE).checked_div(left)
}

/// Methods 2 and 3 go up from the task, so that the affected tasks grow in number; method 4 goes down
/// to it, so that the evicting sets do.
fn fill_in_reloads<B: Blocks>(blocks: &B, i: usize, reason: &mut Reason) {
    match reason.method {
        0 => {}
        1 => {
            for (j, reloads) in reason.reloads.iter_mut().enumerate().take(i) {
                *reloads = blocks.evicted(j);
            }
        }
        2 => {
            let (mut most, mut victim) = (0, i);
            for j in (0..i).rev() {
                let value = blocks.size(blocks.useful(j + 1));
                if value >= most {
                    (most, victim) = (value, j + 1);
                }
                (reason.reloads[j], reason.victims[j]) = (most, victim);
            }
        }
        3 => {
            let mut useful = B::NOTHING_USEFUL;
            for j in (0..i).rev() {
                useful = blocks.together(useful, blocks.useful(j + 1));
                reason.reloads[j] = blocks.lost(useful, blocks.evicting(j));
            }
        }
        _ => {
            let mut evicting = B::NOTHING_EVICTING;
            for j in 0..i {
                evicting = blocks.union(evicting, blocks.evicting(j));
                let (mut most, mut victim) = (0, j + 1);
                for k in j + 1..=i {
                    let value = blocks.lost(blocks.useful(k), evicting);
                    if value > most {
                        (most, victim) = (value, k);
                    }
                }
                (reason.reloads[j], reason.victims[j]) = (most, victim);
            }
        }
    }
}

fn write(table: &Table, i: usize, reason: &Reason, out: &mut [u8]) -> u64 {
    let task = &table.tasks[i];
    let mut written = Written::new();
    written.bytes(b"X\t");
    written.bytes(task.name());
    written.number(reason.method as u64);
    match reason.figure {
        0 => written.bytes(b"\tbeyond"),
        figure => written.number(figure),
    }
    for number in [task.deadline - task.jitter, task.execution, reason.blocking] {
        written.number(number);
    }
    written.bytes(b"\n");
    if reason.figure != 0 {
        for j in 0..i {
            write_interference(table, j, reason, &mut written);
        }
    }
    give(&written.text[..written.length], out)
}

fn write_interference(table: &Table, j: usize, reason: &Reason, written: &mut Written) {
    let task = &table.tasks[j];
    written.bytes(b"I\t");
    written.bytes(task.name());
    written.number(task.activations(reason.figure));
    written.number(u64::from(reason.reloads[j]));
    written.bytes(b"\t");
    written.bytes(match reason.method {
        2 | 4 => table.tasks[reason.victims[j]].name(),
        _ => b"-",
    });
    written.bytes(b"\n");
}

struct Written {
    text: [u8; EXPLANATION_MOST],
    length: usize,
}

impl Written {
    fn new() -> Written {
        Written {
            text: [0; EXPLANATION_MOST],
            length: 0,
        }
    }

    fn bytes(&mut self, bytes: &[u8]) {
        let end = self.length + bytes.len();
        self.text[self.length..end].copy_from_slice(bytes);
        self.length = end;
    }

    /// A tab and a number.
    fn number(&mut self, number: u64) {
        let mut field = [b'\t'; 21];
        let mut from = field.len();
        let mut rest = number;
        loop {
            from -= 1;
            field[from] = b'0' + (rest % 10) as u8;
            rest /= 10;
            if rest == 0 {
                break;
            }
        }
        self.bytes(&field[from - 1..]);
    }
}
