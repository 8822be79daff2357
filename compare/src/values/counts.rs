//! Manners of changing the form and the counts of a table value.

use super::Manner;
use crate::model::value::{levels_with, Value, ACCESS_USEFUL, FORM, LEVELS, USEFUL, WORDS};
use crate::random::Random;

pub const MANNERS: [Manner; 8] = [
    change_form,
    take_other_form,
    take_as_few_ways_as_counted,
    take_too_few_ways,
    raise_count,
    raise_count_past_ways,
    lower_count,
    leave_out_level,
];

/// The levels of a task, or of an access if there is one.
fn any_useful<'a>(random: &mut Random, value: &'a mut Value) -> &'a mut [u64] {
    let accesses = value.accesses_taken();
    if accesses > 0 && random.chance(50) {
        let access = random.below(accesses);
        &mut value.access_mut(access)[ACCESS_USEFUL]
    } else {
        let task = random.below(value.taken());
        &mut value.place_mut(task)[USEFUL]
    }
}

/// One of the cache sets, mostly one with a useful block.
fn any_set(random: &mut Random, useful: &[u64], sets: u64) -> u64 {
    let with_blocks = (0..sets).filter(|set| levels_with(useful, *set) > 0);
    let with_blocks: Vec<u64> = with_blocks.collect();
    if with_blocks.is_empty() || random.chance(20) {
        random.between(0, sets - 1)
    } else {
        *random.pick(&with_blocks)
    }
}

fn flip(useful: &mut [u64], level: usize, set: u64) {
    useful[level * WORDS + (set / 64) as usize] ^= 1 << (set % 64);
}

fn most_counted(value: &Value) -> u64 {
    let of_tasks = value.places().map(|place| &place[USEFUL]);
    let of_accesses = value.access_places().map(|place| &place[ACCESS_USEFUL]);
    let most = |useful: &[u64]| {
        (0..256)
            .map(|set| levels_with(useful, set))
            .max()
            .unwrap_or(0)
    };
    let most = of_tasks.chain(of_accesses).map(most).max();
    most.unwrap_or(0) as u64
}

fn change_form(random: &mut Random, value: &mut Value) {
    value.numbers[FORM] = random.between(0, 9);
}

/// Counts in the place of hex, and the other way round.
fn take_other_form(random: &mut Random, value: &mut Value) {
    value.numbers[FORM] = match value.form() {
        0 => *random.pick(&[1, 1, 2, 8]),
        _ => 0,
    };
}

fn take_as_few_ways_as_counted(_: &mut Random, value: &mut Value) {
    value.numbers[FORM] = most_counted(value).max(1);
}

fn take_too_few_ways(_: &mut Random, value: &mut Value) {
    value.numbers[FORM] = most_counted(value).saturating_sub(1);
}

fn raise_count(random: &mut Random, value: &mut Value) {
    let sets = value.sets();
    let useful = any_useful(random, value);
    let set = any_set(random, useful, sets);
    let count = levels_with(useful, set);
    if count < LEVELS {
        flip(useful, count, set);
    }
}

/// To one more than there are ways.
fn raise_count_past_ways(random: &mut Random, value: &mut Value) {
    let (sets, ways) = (value.sets(), value.form().max(1) as usize);
    let useful = any_useful(random, value);
    let set = any_set(random, useful, sets);
    for level in levels_with(useful, set)..(ways + 1).min(LEVELS) {
        flip(useful, level, set);
    }
}

fn lower_count(random: &mut Random, value: &mut Value) {
    let sets = value.sets();
    let useful = any_useful(random, value);
    let set = any_set(random, useful, sets);
    if let Some(highest) = levels_with(useful, set).checked_sub(1) {
        flip(useful, highest, set);
    }
}

/// Takes a set out of a level below its highest one, or puts it into one above the next.
fn leave_out_level(random: &mut Random, value: &mut Value) {
    let (sets, ways) = (value.sets(), value.form().max(1) as usize);
    let useful = any_useful(random, value);
    let set = any_set(random, useful, sets);
    match levels_with(useful, set) {
        count if count > 1 => flip(useful, random.below(count - 1), set),
        count if count + 1 < ways => flip(useful, count + 1, set),
        _ => {}
    }
}
