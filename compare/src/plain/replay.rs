//! The plain version's replay: from one release to the next.

use super::edf::without_jitter_and_accesses;
use super::reading::read;
use super::{code, Refused, Table};

const REPLAYED_MOST: u64 = 100_000;

pub fn replay(text: &[u8], position: u64) -> u64 {
    match read(text).and_then(|table| replayed(&table, position)) {
        Err(refused) => code(refused),
        Ok(end) => end,
    }
}

fn replayed(table: &Table, position: u64) -> Result<u64, Refused> {
    without_jitter_and_accesses(table)?;
    if position >= table.tasks.len() as u64 {
        return Err((13, 0));
    }
    let (above, rest) = table.tasks.split_at(position as usize);
    let task = &rest[0];
    if task.deadline > REPLAYED_MOST {
        return Err((24, 0));
    }
    let mut releases = vec![0; above.len()];
    let (mut now, mut taken_above, mut left) = (0, 0, task.execution);
    while now < task.deadline {
        for (release, above) in releases.iter_mut().zip(above) {
            if *release == now {
                taken_above += above.execution;
                *release += above.period;
            }
        }
        let next = releases.iter().copied().min().unwrap_or(task.deadline);
        let used = taken_above.min(next - now);
        taken_above -= used;
        let free = next - now - used;
        if free >= left {
            let end = now + used + left;
            return Ok(if end <= task.deadline { end } else { 0 });
        }
        left -= free;
        now = next;
    }
    Ok(0)
}
