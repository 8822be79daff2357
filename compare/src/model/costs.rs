//! Reload counts: how many blocks one activation of a task may cost another.

use super::blocking::Blocker;
use super::order::Orders;
use super::{Error, Table};
use std::ops::Range;

pub const METHODS: u64 = 6;

/// The tasks and accesses of a table, seen from the cache sets.
///
/// Each cache set knows its users and how many useful blocks each of them has there, so that what
/// several of them have together is added up for a single set; no union has to be formed. A user is a
/// number: that of a task is its position, and the accesses go on from there.
pub struct Reloads<'a> {
    pub table: &'a Table,
    pub orders: Orders,
    /// For each cache set the users it is useful to, each with its count, as their sum takes them.
    useful_to: Vec<Vec<(usize, usize)>>,
    /// For each user and each j: how many of its useful blocks the tasks from 0 to j evict.
    evicted_down_to: Vec<Vec<usize>>,
    error: Option<Error>,
}

/// Whom an activation of a task may affect.
pub struct Affected {
    tasks: Range<usize>,
    /// As users, in rising order.
    accesses: Vec<usize>,
}

impl Affected {
    fn has(&self, user: &usize) -> bool {
        self.tasks.contains(user) || self.accesses.contains(user)
    }

    fn users(&self) -> impl Iterator<Item = usize> + '_ {
        self.tasks.clone().chain(self.accesses.iter().copied())
    }
}

/// Whom a pre-emption hits.
#[derive(Clone, Copy, Debug, PartialEq, Eq)]
pub struct Victim {
    /// The position of the task.
    pub task: usize,
    /// Whether it is hit in an access, and not in what else it does.
    pub in_access: bool,
}

impl<'a> Reloads<'a> {
    pub fn new(table: &'a Table, error: Option<Error>) -> Reloads<'a> {
        Reloads::in_orders(table, Orders::usual(table), error)
    }

    pub fn in_orders(table: &'a Table, orders: Orders, error: Option<Error>) -> Reloads<'a> {
        let all_evicting: Vec<&Vec<usize>> =
            table.tasks.iter().map(|task| &task.evicting).collect();
        let all_useful = all_useful(table);
        let evicted_by = users(table.sets, &orders.evicting_union, &all_evicting);
        let evicted = |useful: &[usize], j: usize| -> usize {
            let is_evicted = |set: usize| evicted_by[set].iter().any(|evicting| *evicting <= j);
            let counts = useful.iter().enumerate();
            let lost = counts.filter(|(set, _)| is_evicted(*set));
            lost.map(|(_, count)| count).sum()
        };
        let evicted_down_to = all_useful.iter().map(|useful| {
            let counts = (0..table.tasks.len()).map(|j| evicted(useful, j));
            counts.collect()
        });
        Reloads {
            table,
            evicted_down_to: evicted_down_to.collect(),
            useful_to: counts(table.sets, &orders.useful_union, &all_useful),
            orders,
            error,
        }
    }

    /// The reload count of `j` while `i` is pending and blocked, by one of the methods 0 to 4.
    pub fn count(&self, method: u64, i: usize, j: usize, blocker: &Blocker) -> usize {
        match method {
            0 => 0,
            1 => match self.error {
                Some(Error::ForgetsWays) => self.table.tasks[j].evicting.len(),
                _ => self.table.tasks[j].evicting.len() * self.table.form.ways(),
            },
            3 => self.useful_to_all(&self.affected(method, i, j, blocker), j),
            _ => {
                let values = self.values(method, i, j, blocker);
                values.into_iter().max().unwrap_or(0)
            }
        }
    }

    /// Whom an activation of `j` hits while `i` is pending and blocked, by one of the methods 0 to 4:
    /// the first of those affected that have the largest value, where an access comes after all
    /// tasks. None by a method without such values.
    pub fn victim(&self, method: u64, i: usize, j: usize, blocker: &Blocker) -> Option<Victim> {
        if !tells_values(method) {
            return None;
        }
        let most = self.count(method, i, j, blocker);
        let has_most = |user: &usize| self.value(method, *user, j) == most;
        let affected = self.affected(method, i, j, blocker);
        let mut tasks = affected.tasks.clone();
        let user = match self.error {
            Some(Error::HitsLastOfEquals) => tasks.rfind(has_most),
            Some(Error::HitsAccessOfEquals) => {
                let access = affected.accesses.iter().copied().find(has_most);
                access.or_else(|| tasks.find(has_most))
            }
            _ => tasks.find(has_most),
        };
        let user = user.or_else(|| affected.users().find(has_most))?;
        let in_access = user >= self.table.tasks.len();
        let task = match in_access {
            true => self.table.accesses[user - self.table.tasks.len()].task,
            false => user,
        };
        Some(Victim { task, in_access })
    }

    /// By method 2 or 4, what each of those affected has to reload after an activation of `j`; in the
    /// usual order an access comes last.
    pub fn values(&self, method: u64, i: usize, j: usize, blocker: &Blocker) -> Vec<usize> {
        let affected = self.affected(method, i, j, blocker);
        let users = self.orders.largest.iter().filter(|user| affected.has(user));
        users.map(|user| self.value(method, *user, j)).collect()
    }

    fn value(&self, method: u64, user: usize, j: usize) -> usize {
        match method {
            2 => all_useful(self.table)[user].iter().sum(),
            4 => self.evicted_down_to[user][j],
            _ => unreachable!("no value of a single task"),
        }
    }

    fn affected(&self, method: u64, i: usize, j: usize, blocker: &Blocker) -> Affected {
        let tasks = match self.error {
            Some(Error::LeavesOutLowest) => j + 1..i,
            Some(Error::PutsInPreempting) => j..i + 1,
            _ => j + 1..i + 1,
        };
        let left_out = matches!(
            (self.error, method),
            (Some(Error::LeavesAccessOutOf2), 2)
                | (Some(Error::LeavesAccessOutOf3), 3)
                | (Some(Error::LeavesAccessOutOf4), 4)
        );
        let is_preempted = |access: &&usize| !left_out && self.preempts(j, **access);
        let accesses = blocker.accesses.iter().filter(is_preempted);
        Affected {
            tasks,
            accesses: accesses
                .map(|access| self.table.tasks.len() + access)
                .collect(),
        }
    }

    /// Only a task above the ceiling does.
    fn preempts(&self, j: usize, access: usize) -> bool {
        let ceiling = self.table.accesses[access].ceiling;
        match self.error {
            Some(Error::PreemptsAtCeiling) => j <= ceiling,
            Some(Error::PreemptsBelowCeiling) => true,
            _ => j < ceiling,
        }
    }

    /// How many useful blocks those affected have together in the sets that `j` evicts; a set holds no
    /// more than there are ways.
    fn useful_to_all(&self, affected: &Affected, j: usize) -> usize {
        let ways = self.table.form.ways();
        let is_task = |user: usize| user < self.table.tasks.len();
        let blocks = |set: &usize| -> usize {
            let users = self.useful_to[*set].iter();
            let users = users.filter(|(user, _)| affected.has(user));
            let sum: usize = users.clone().map(|(_, count)| count).sum();
            match self.error {
                Some(Error::AddsWithoutCap) => sum,
                Some(Error::CapsEachAlone) => users.map(|(_, count)| *count.min(&ways)).sum(),
                Some(Error::CapsTasksAlone) => {
                    let of_tasks = users.filter(|(user, _)| is_task(*user));
                    let of_tasks: usize = of_tasks.map(|(_, count)| count).sum();
                    of_tasks.min(ways) + (sum - of_tasks)
                }
                _ => sum.min(ways),
            }
        };
        self.table.tasks[j].evicting.iter().map(blocks).sum()
    }
}

/// Whether the count of a method is the largest of values that those affected have each.
pub fn tells_values(method: u64) -> bool {
    matches!(method, 2 | 4)
}

/// The counts of each user, in the order of their numbers.
fn all_useful(table: &Table) -> Vec<&Vec<usize>> {
    let of_tasks = table.tasks.iter().map(|task| &task.useful);
    let of_accesses = table.accesses.iter().map(|access| &access.useful);
    of_tasks.chain(of_accesses).collect()
}

/// For each cache set its users, in the order given, each with how many useful blocks it has there.
fn counts(sets: usize, order: &[usize], of_each: &[&Vec<usize>]) -> Vec<Vec<(usize, usize)>> {
    let of_set = |set: usize| {
        let counts = order.iter().map(|user| (*user, of_each[*user][set]));
        counts.filter(|(_, count)| *count > 0).collect()
    };
    (0..sets).map(of_set).collect()
}

/// For each cache set its users, in the order given, of which each has the sets in its place.
fn users(sets: usize, order: &[usize], of_each: &[&Vec<usize>]) -> Vec<Vec<usize>> {
    let mut users = vec![Vec::new(); sets];
    for user in order {
        for set in of_each[*user] {
            users[*set].push(*user);
        }
    }
    users
}

#[cfg(test)]
mod tests {
    use super::*;
    use crate::generate::shared;
    use crate::model::blocking::blockers;
    use crate::model::read;
    use crate::random::Random;
    use std::collections::BTreeSet;

    type Sets = BTreeSet<usize>;

    fn union<'a>(sets: impl Iterator<Item = &'a Vec<usize>>) -> Sets {
        sets.flatten().copied().collect()
    }

    /// Calls `see` with made-up tables, and each j above an i with each of what may block that.
    fn each_pair(seed: u64, see: impl Fn(&Table, &Reloads, usize, usize, &Blocker)) {
        let mut random = Random::new(seed);
        for _ in 0..50 {
            let table = read(&shared(&mut random).text()).expect("a valid table");
            let reloads = Reloads::new(&table, None);
            for i in 0..table.tasks.len() {
                for blocker in blockers(&table, i, None) {
                    for j in 0..i {
                        see(&table, &reloads, i, j, &blocker);
                    }
                }
            }
        }
    }

    /// The UCBs of aff(i, j), with that of an access which `j` may pre-empt.
    fn useful_of_affected(table: &Table, i: usize, j: usize, blocker: &Blocker) -> Vec<Vec<usize>> {
        let tasks = table.tasks[j + 1..=i].iter();
        let mut counts: Vec<Vec<usize>> = tasks.map(|task| task.useful.clone()).collect();
        for access in &blocker.accesses {
            if j < table.accesses[*access].ceiling {
                counts.push(table.accesses[*access].useful.clone());
            }
        }
        counts
    }

    /// What a set of counts has in some cache sets.
    fn met(counts: &[usize], sets: &Sets) -> usize {
        sets.iter().map(|set| counts[*set]).sum()
    }

    #[test]
    fn asking_the_users_is_the_same_as_forming_the_unions() {
        each_pair(1, |table, reloads, i, j, blocker| {
            let tasks = &table.tasks;
            let each = useful_of_affected(table, i, j, blocker);
            let ways = table.form.ways();
            let mut together = vec![0; table.sets];
            for counts in &each {
                for (sum, count) in together.iter_mut().zip(counts) {
                    *sum = ways.min(*sum + count);
                }
            }
            let evicting = union(std::iter::once(&tasks[j].evicting));
            assert_eq!(reloads.count(3, i, j, blocker), met(&together, &evicting));
            assert_eq!(reloads.count(1, i, j, blocker), evicting.len() * ways);
            let evicted = union(tasks[..=j].iter().map(|task| &task.evicting));
            let largest = each.iter().map(|counts| met(counts, &evicted)).max();
            assert_eq!(Some(reloads.count(4, i, j, blocker)), largest);
            let largest = each.iter().map(|counts| counts.iter().sum()).max();
            assert_eq!(Some(reloads.count(2, i, j, blocker)), largest);
        });
    }

    #[test]
    fn no_task_is_hit_harder_than_the_victim_and_none_above_it_as_hard() {
        each_pair(2, |table, reloads, i, j, blocker| {
            for method in [2, 4] {
                let most = reloads.count(method, i, j, blocker);
                let value = |k| reloads.value(method, k, j);
                let victim = reloads.victim(method, i, j, blocker).expect("a victim");
                if victim.in_access {
                    assert!((j + 1..=i).all(|k| value(k) < most));
                    assert_eq!(victim.task, table.accesses[blocker.accesses[0]].task);
                } else {
                    assert!((j + 1..victim.task).all(|k| value(k) < most));
                    assert!((victim.task..=i).all(|k| value(k) <= most));
                    assert_eq!(value(victim.task), most);
                }
            }
        });
    }
}
