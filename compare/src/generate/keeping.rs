//! Tables of which much is changed, and nothing that a task's answer depends on.

use super::accesses::any as any_access;
use super::adding::{any_line, fresh_name};
use super::{Access, Table, Task, ACCESSES_MOST, TASKS_MOST};
use crate::model::laws::Depends;
use crate::random::Random;

/// How often an access is drawn that has to be one of some only.
const TRIES: usize = 20;

/// A table that agrees on all that the task's answer depends on. Lines below are changed, named otherwise,
/// moved, taken out and put in, and so are accesses that cannot block the task.
pub fn kept(random: &mut Random, table: &Table, depends: &Depends) -> Table {
    let is_needed = |access: &Access| depends.on_access(access.task, access.ceiling);
    let needed = table.accesses.iter().filter(|access| is_needed(access));
    let needed: Vec<Access> = needed.cloned().collect();
    let mut changed = table.clone();
    changed.accesses.clear();
    change_below(random, &mut changed, depends.tasks(), &|name| {
        let names = |access: &Access| [access.task, access.ceiling].map(|at| &table.tasks[at].name);
        needed.iter().any(|access| names(access).contains(&name))
    });
    let again = |access: &Access| named_again(table, &changed, access);
    let accesses = needed.iter().filter_map(again).collect();
    let others = table.accesses.iter().filter(|access| !is_needed(access));
    let others = others.filter_map(again).collect();
    changed.accesses = accesses;
    change_others(random, &mut changed, depends, others);
    changed
}

/// The lines from the one at `kept` on; those that are named stay, under their names.
fn change_below(
    random: &mut Random,
    table: &mut Table,
    kept: usize,
    is_named: &dyn Fn(&String) -> bool,
) {
    for task in table.tasks.split_off(kept) {
        let is_named = is_named(&task.name);
        if is_named || table.tasks.is_empty() || random.chance(75) {
            table.tasks.push(task);
            let last = table.tasks.len() - 1;
            change_line(random, table, last);
        }
    }
    for position in kept..table.tasks.len() {
        if !is_named(&table.tasks[position].name) && random.chance(20) {
            table.tasks[position].name = fresh_name(random, table);
        }
    }
    let most = random.below(3);
    for _ in 0..most {
        let count = table.tasks.len();
        if (count as u64) < TASKS_MOST && has_room(table) {
            let place = kept + random.below(count - kept + 1);
            let line = any_line(random, table);
            table.tasks.insert(place, line);
        }
    }
    if random.chance(40) {
        random.shuffle(&mut table.tasks[kept..]);
    }
}

/// All of it but the name, some of it or nothing.
fn change_line(random: &mut Random, table: &mut Table, position: usize) {
    let other = any_line(random, table);
    let task = &mut table.tasks[position];
    match random.below(5) {
        0 => {
            let name = task.name.clone();
            *task = Task { name, ..other };
        }
        1 => task.execution = other.execution,
        2 => task.useful = other.useful,
        3 => task.evicting = other.evicting,
        _ => {}
    }
}

fn has_room(table: &Table) -> bool {
    table.has_room_for(table.tasks.len() + 1, ACCESSES_MOST as usize)
}

/// The access with the same names, if both are there and the ceiling is not below.
fn named_again(before: &Table, after: &Table, access: &Access) -> Option<Access> {
    let again = |at: usize| {
        let name = &before.tasks[at].name;
        after.tasks.iter().position(|task| task.name == *name)
    };
    let (task, ceiling) = (again(access.task)?, again(access.ceiling)?);
    let access = Access {
        task,
        ceiling,
        ..access.clone()
    };
    Some(access).filter(|_| ceiling <= task)
}

/// Puts accesses between those of the table that cannot block the task: some of these and some new ones.
fn change_others(random: &mut Random, table: &mut Table, depends: &Depends, others: Vec<Access>) {
    let keeps = *random.pick(&[0, 50, 50, 100]);
    for access in others {
        if random.chance(keeps) {
            put_between(random, table, depends, access);
        }
    }
    let most = random.below(4);
    for _ in 0..most {
        let free = |access: &Access| !depends.on_access(access.task, access.ceiling);
        let mut drawn = (0..TRIES).map(|_| any_access(random, table));
        if let Some(access) = drawn.find(free) {
            put_between(random, table, depends, access);
        }
    }
}

fn put_between(random: &mut Random, table: &mut Table, depends: &Depends, access: Access) {
    let count = table.accesses.len();
    let has_room = table.has_room_for(table.tasks.len(), count + 1);
    let is_free = !depends.on_access(access.task, access.ceiling);
    if is_free && has_room && (count as u64) < ACCESSES_MOST {
        table.accesses.insert(random.below(count + 1), access);
    }
}

#[cfg(test)]
mod tests {
    use super::*;
    use crate::generate::{edges, nearly_full, BASES};
    use crate::model::{self, read};

    #[test]
    fn what_the_answer_depends_on_is_kept() {
        let mut random = Random::new(62);
        for round in 0..600 {
            let table = match round % 6 {
                0 => nearly_full(&mut random),
                1 => edges(&mut random, 1_000),
                base => BASES[base - 2](&mut random),
            };
            let i = random.below(table.tasks.len());
            let depends = Depends { i, error: None };
            let text = kept(&mut random, &table, &depends).text();
            let kept = read(&text).expect("a valid table");
            let table = read(&table.text()).expect("a valid table");
            assert_eq!(kept.tasks[..=i], table.tasks[..=i]);
            assert_eq!(blocking(&kept, i), blocking(&table, i));
        }
    }

    /// What the lines of the accesses that may block the task say, in their order.
    fn blocking(table: &model::Table, i: usize) -> Vec<(&str, usize, u64, &[usize])> {
        let accesses = table.accesses.iter();
        let mut lines = Vec::new();
        for access in accesses.filter(|access| access.ceiling <= i && i < access.task) {
            let name = &table.tasks[access.task].name[..];
            lines.push((name, access.ceiling, access.length, &access.useful[..]));
        }
        lines
    }
}
