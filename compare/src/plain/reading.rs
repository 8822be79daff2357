//! The plain version's reading.

use super::{Access, Counts, Refused, Table, Task, Times, Words, ACCESSES_MOST, TASKS_MOST};

pub const TEXT_MOST: usize = 16_384;
pub const TIME_MOST: u64 = 250_000_000;
pub const WAYS_MOST: u64 = 8;

pub fn read(text: &[u8]) -> Result<Table, Refused> {
    if text.len() > TEXT_MOST {
        return Err((1, 0));
    }
    if text.last() != Some(&b'\n') {
        return Err((2, 0));
    }
    let mut table = Table {
        sets: 0,
        reload_time: 0,
        ways: 0,
        tasks: Vec::with_capacity(TASKS_MOST),
        accesses: Vec::new(),
        counts: Vec::new(),
    };
    let mut from = 0;
    let mut line = 1;
    // that of the first task with a B above 0
    let mut blocked = None;
    while from < text.len() {
        let (fields, found, end) = split_line(text, from);
        let read = match fields[0] {
            _ if line == 1 => read_cache(&fields, found, &mut table),
            b"T" => read_task(&fields, found, &mut table).map(|blocking| {
                if blocking > 0 {
                    blocked = blocked.or(Some(line));
                }
            }),
            b"A" => read_access(&fields, found, &mut table),
            _ => Err(3),
        };
        read.map_err(|number| (number, line))?;
        from = end + 1;
        line += 1;
    }
    if table.tasks.is_empty() {
        return Err((11, 1));
    }
    match blocked {
        Some(line) => Err((17, line)),
        None => Ok(table),
    }
}

/// The first nine fields of the line that starts at `from`, the number of its fields, and the
/// place of its LF.
fn split_line(text: &[u8], from: usize) -> ([&[u8]; 9], usize, usize) {
    let mut fields: [&[u8]; 9] = [&[]; 9];
    let mut found = 0;
    let mut start = from;
    let mut at = from;
    loop {
        let byte = text[at];
        if byte == b'\t' || byte == b'\n' {
            if found < fields.len() {
                fields[found] = &text[start..at];
            }
            found += 1;
            start = at + 1;
            if byte == b'\n' {
                return (fields, found, at);
            }
        }
        at += 1;
    }
}

fn read_cache(fields: &[&[u8]; 9], found: usize, table: &mut Table) -> Result<(), u64> {
    if !(3..=4).contains(&found) || fields[0] != b"K" {
        return Err(3);
    }
    let sets = number(fields[1]).ok_or(5u64)?;
    let reload_time = number(fields[2]).ok_or(5u64)?;
    if found == 4 {
        let ways = number(fields[3]).ok_or(5u64)?;
        if !(1..=WAYS_MOST).contains(&ways) {
            return Err(6);
        }
        table.ways = ways as u8;
    }
    if !is_cache(sets, reload_time) {
        return Err(6);
    }
    table.sets = sets as usize;
    table.reload_time = reload_time;
    Ok(())
}

pub fn is_cache(sets: u64, reload_time: u64) -> bool {
    (4..=256).contains(&sets) && sets % 4 == 0 && reload_time <= 100_000
}

/// Gives its B.
fn read_task(fields: &[&[u8]; 9], found: usize, table: &mut Table) -> Result<u64, u64> {
    if table.tasks.len() == TASKS_MOST {
        return Err(10);
    }
    if found != 9 || !table.accesses.is_empty() {
        return Err(3);
    }
    let name = fields[1];
    if !is_name(name) {
        return Err(4);
    }
    let mut times = [0; 4];
    for (time, field) in times.iter_mut().zip(&fields[2..6]) {
        *time = number(field).ok_or(5u64)?;
    }
    let blocking = number(fields[6]).ok_or(5u64)?;
    if !in_range(times) || blocking > TIME_MOST {
        return Err(6);
    }
    let (useful, counts) = useful(fields[7], table).ok_or(7u64)?;
    let evicting = words(fields[8], table.sets / 4).ok_or(7u64)?;
    if are_too_high(&counts, table.ways) {
        return Err(18);
    }
    if !in_order(times) {
        return Err(8);
    }
    if table.position(name).is_some() {
        return Err(9);
    }
    table.tasks.push(Task::new(name, times, useful, evicting));
    table.counts.extend(counts);
    Ok(blocking)
}

fn read_access(fields: &[&[u8]; 9], found: usize, table: &mut Table) -> Result<(), u64> {
    if table.accesses.len() == ACCESSES_MOST {
        return Err(16);
    }
    if found != 5 {
        return Err(3);
    }
    if !is_name(fields[1]) || !is_name(fields[2]) {
        return Err(4);
    }
    let length = number(fields[3]).ok_or(5u64)?;
    if !is_length(length) {
        return Err(6);
    }
    let (useful, counts) = useful(fields[4], table).ok_or(7u64)?;
    if are_too_high(&counts, table.ways) {
        return Err(18);
    }
    let task = table.position(fields[1]).ok_or(15u64)?;
    let ceiling = table.position(fields[2]).ok_or(15u64)?;
    if ceiling > task {
        return Err(15);
    }
    table.accesses.push(Access {
        task,
        ceiling,
        length,
        useful,
        counts: table.counts.len(),
    });
    table.counts.extend(counts);
    Ok(())
}

pub fn is_length(length: u64) -> bool {
    (1..=TIME_MOST).contains(&length)
}

pub fn in_range(times: Times) -> bool {
    let [execution, period, deadline, _] = times;
    let too_large = times.iter().any(|time| *time > TIME_MOST);
    !too_large && execution != 0 && period != 0 && deadline != 0
}

pub fn in_order([_, period, deadline, jitter]: Times) -> bool {
    jitter <= deadline && deadline <= period
}

pub fn is_name(field: &[u8]) -> bool {
    let good = |byte: &u8| matches!(byte, b'a'..=b'z' | b'0'..=b'9' | b'-');
    !field.is_empty() && field.len() <= 12 && field.iter().all(good)
}

pub fn number(field: &[u8]) -> Option<u64> {
    if field.is_empty() || field.len() > 9 || (field[0] == b'0' && field.len() > 1) {
        return None;
    }
    let mut value = 0;
    for byte in field {
        let digit = byte.wrapping_sub(b'0');
        if digit > 9 {
            return None;
        }
        value = value * 10 + u64::from(digit);
    }
    Some(value)
}

/// The marks of a table in hex, or the counts of another one.
fn useful(field: &[u8], table: &Table) -> Option<(Words, Option<Counts>)> {
    if table.ways == 0 {
        return Some((words(field, table.sets / 4)?, None));
    }
    if field.len() != table.sets {
        return None;
    }
    let mut counts = [0; 256];
    for (count, byte) in counts.iter_mut().zip(field.iter().rev()) {
        *count = byte.wrapping_sub(b'0');
    }
    let good = counts.iter().all(|count| *count <= 9);
    good.then_some(([0; 4], Some(counts)))
}

pub fn are_too_high(counts: &Option<Counts>, ways: u8) -> bool {
    counts.map_or(false, |counts| counts.iter().any(|count| *count > ways))
}

fn words(field: &[u8], digits: usize) -> Option<Words> {
    if field.len() != digits {
        return None;
    }
    let mut words = [0; 4];
    for (word, digits) in words.iter_mut().zip(field.rchunks(16)) {
        for byte in digits {
            let digit = match byte {
                b'0'..=b'9' => byte - b'0',
                b'a'..=b'f' => byte - b'a' + 10,
                _ => return None,
            };
            *word = *word << 4 | u64::from(digit);
        }
    }
    Some(words)
}
