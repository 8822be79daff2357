//! Tables whose responses tell the size of something.

use super::{count, ones, scattered, Table, Task, TIME_MOST};
use crate::model::{Form, WAYS_MOST};
use crate::random::Random;

const SETS: usize = 256;

/// Any cache sets, from none to all of them.
pub fn any_cache_sets(random: &mut Random) -> Vec<bool> {
    let percent = *random.pick(&[0, 5, 20, 50, 50, 80, 95, 100]);
    scattered(random, SETS, percent)
}

/// Any number of ways, and a useful block or more in any cache sets.
pub fn any_counts(random: &mut Random) -> (Form, Vec<usize>) {
    let form = Form::Counted(random.between(1, WAYS_MOST));
    let marks = any_cache_sets(random);
    (form, count(random, form, marks))
}

/// The highest task evicts the sets, and each of `useful` is the UCB of a task below it.
pub fn measuring_useful(evicting: &[bool], useful: &[&[bool]]) -> Table {
    let none = [false; SETS];
    let below = useful
        .iter()
        .map(|useful| (ones(useful.to_vec()), &none[..]));
    let first = (vec![0; SETS], evicting);
    table(Form::Hex, [first].into_iter().chain(below))
}

/// The sets are the UCB of the lowest task, and each of `evicting` is the ECB of a task above it.
pub fn measuring_evicting(useful: &[bool], evicting: &[&[bool]]) -> Table {
    measuring_counted(Form::Hex, &ones(useful.to_vec()), evicting)
}

/// The same with counts.
pub fn measuring_counted(form: Form, useful: &[usize], evicting: &[&[bool]]) -> Table {
    let none = [false; SETS];
    let above = evicting.iter().map(|evicting| (vec![0; SETS], *evicting));
    table(form, above.chain([(useful.to_vec(), &none[..])]))
}

/// Tasks of a tick each that have all the time there is, with their UCBs and ECBs.
fn table<'a>(form: Form, tasks: impl Iterator<Item = (Vec<usize>, &'a [bool])>) -> Table {
    let tasks = tasks
        .enumerate()
        .map(|(position, (useful, evicting))| Task {
            name: format!("t-{position}"),
            execution: 1,
            period: TIME_MOST,
            deadline: TIME_MOST,
            jitter: 0,
            useful,
            evicting: evicting.to_vec(),
        });
    Table {
        sets: SETS,
        reload_time: 1,
        form,
        tasks: tasks.collect(),
        accesses: Vec::new(),
    }
}
