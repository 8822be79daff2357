//! Manners of changing the accesses of a table value.

use super::Manner;
use crate::model::value::{
    Value, ACCESS_CEILING, ACCESS_COUNT, ACCESS_LENGTH, ACCESS_TASK, ACCESS_USEFUL, USEFUL,
};
use crate::model::ACCESSES_MOST;
use crate::random::Random;

pub const MANNERS: [Manner; 15] = [
    add_access,
    fill_up,
    count_too_many,
    count_otherwise,
    take_last_out,
    take_all_out,
    leave_past_end,
    leave_gap,
    exchange,
    put_ceiling_below,
    put_ceiling_at_task,
    pass_last_task,
    take_ends_of_lengths,
    pass_ends_of_lengths,
    mark_too_high,
];

/// One of the accesses, if there are any.
fn any_access(random: &mut Random, value: &Value) -> Option<usize> {
    let taken = value.accesses_taken();
    (taken > 0).then(|| random.below(taken))
}

/// A new access of any task, or one as there is already.
fn add_access(random: &mut Random, value: &mut Value) {
    let taken = value.accesses_taken();
    if taken < ACCESSES_MOST {
        let task = random.below(value.taken());
        let (ceiling, length) = (random.below(task + 1) as u64, random.magnitude(1, 9_999));
        let words = value.place(task)[USEFUL].to_vec();
        let copied = any_access(random, value).filter(|_| random.chance(30));
        let numbers = match copied {
            Some(copied) => value.access(copied).to_vec(),
            None => [vec![task as u64, ceiling, length], words].concat(),
        };
        value.access_mut(taken).copy_from_slice(&numbers);
        value.numbers[ACCESS_COUNT] += 1;
    }
}

fn fill_up(random: &mut Random, value: &mut Value) {
    while value.accesses_taken() < ACCESSES_MOST {
        add_access(random, value);
    }
}

fn count_too_many(random: &mut Random, value: &mut Value) {
    fill_up(random, value);
    value.numbers[ACCESS_COUNT] += random.magnitude(1, 9);
}

fn count_otherwise(random: &mut Random, value: &mut Value) {
    let count = value.access_count();
    let others = [
        count.saturating_sub(1),
        count + 1,
        0,
        32,
        33,
        256 + count,
        1 << 32 | count,
    ];
    value.numbers[ACCESS_COUNT] = *random.pick(&others);
}

fn take_last_out(_: &mut Random, value: &mut Value) {
    if let Some(last) = value.accesses_taken().checked_sub(1) {
        value.access_mut(last).fill(0);
        value.numbers[ACCESS_COUNT] -= 1;
    }
}

fn take_all_out(random: &mut Random, value: &mut Value) {
    while value.accesses_taken() > 0 {
        take_last_out(random, value);
    }
}

/// The last access, or a copy of one.
fn leave_past_end(random: &mut Random, value: &mut Value) {
    if random.chance(50) {
        add_access(random, value);
    }
    let count = value.access_count();
    value.numbers[ACCESS_COUNT] = count.saturating_sub(1);
}

/// Empties the place of an access, or puts the last access one place further on.
fn leave_gap(random: &mut Random, value: &mut Value) {
    if let Some(access) = any_access(random, value) {
        let last = value.accesses_taken() - 1;
        if random.chance(50) || last + 1 == ACCESSES_MOST {
            value.access_mut(access).fill(0);
        } else {
            let moved = value.access(last).to_vec();
            value.access_mut(last).fill(0);
            value.access_mut(last + 1).copy_from_slice(&moved);
            value.numbers[ACCESS_COUNT] += random.between(0, 1);
        }
    }
}

fn exchange(random: &mut Random, value: &mut Value) {
    let any = (any_access(random, value), any_access(random, value));
    if let (Some(one), Some(other)) = any {
        let (kept, moved) = (value.access(one).to_vec(), value.access(other).to_vec());
        value.access_mut(one).copy_from_slice(&moved);
        value.access_mut(other).copy_from_slice(&kept);
    }
}

/// By one task, or by as many as there are.
fn put_ceiling_below(random: &mut Random, value: &mut Value) {
    let last = value.taken() as u64 - 1;
    if let (Some(access), true) = (any_access(random, value), last > 0) {
        let task = random.between(0, last - 1);
        let place = value.access_mut(access);
        place[ACCESS_TASK] = task;
        place[ACCESS_CEILING] = *random.pick(&[task + 1, last]);
    }
}

fn put_ceiling_at_task(random: &mut Random, value: &mut Value) {
    if let Some(access) = any_access(random, value) {
        let place = value.access_mut(access);
        place[ACCESS_CEILING] = place[ACCESS_TASK];
    }
}

/// The task, the ceiling or both.
fn pass_last_task(random: &mut Random, value: &mut Value) {
    let tasks = value.count();
    if let Some(access) = any_access(random, value) {
        let past = *random.pick(&[tasks, tasks, tasks + 1, 31, 32, 33, 1 << 32, u64::MAX]);
        let place = value.access_mut(access);
        match random.below(3) {
            0 => place[ACCESS_TASK] = past,
            1 => place[ACCESS_CEILING] = past,
            _ => place[ACCESS_TASK..=ACCESS_CEILING].fill(past),
        }
    }
}

fn take_ends_of_lengths(random: &mut Random, value: &mut Value) {
    if let Some(access) = any_access(random, value) {
        value.access_mut(access)[ACCESS_LENGTH] = *random.pick(&[1, 250_000_000]);
    }
}

fn pass_ends_of_lengths(random: &mut Random, value: &mut Value) {
    if let Some(access) = any_access(random, value) {
        let past = [0, 250_000_001, 1 << 32 | 1, u64::MAX];
        value.access_mut(access)[ACCESS_LENGTH] = *random.pick(&past);
    }
}

/// A mark at the number of sets, or anywhere above it.
fn mark_too_high(random: &mut Random, value: &mut Value) {
    let sets = value.sets();
    if let (Some(access), true) = (any_access(random, value), sets < 256) {
        let any = random.between(sets, 255);
        let set = *random.pick(&[sets, any, 255]);
        let words = &mut value.access_mut(access)[ACCESS_USEFUL];
        words[(set / 64) as usize] |= 1 << (set % 64);
    }
}
