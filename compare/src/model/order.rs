//! The order in which the members of a sum, of a union or of a largest value are taken.

use super::{Error, Table};
use crate::random::Random;

/// What is worked out over several members, whatever their order.
#[derive(Clone, Copy, Debug, PartialEq, Eq)]
pub enum Sum {
    /// The demand: the terms of the tasks above.
    Demand,
    /// The union of the UCBs of those affected.
    UsefulUnion,
    /// The union of the ECBs of a task and of all above it.
    EvictingUnion,
    /// The largest value of those affected.
    Largest,
}

/// For each of these the order of its members. A task is its position; where accesses count as well,
/// their numbers go on from there.
#[derive(Clone, Debug)]
pub struct Orders {
    pub demand: Vec<usize>,
    pub useful_union: Vec<usize>,
    pub evicting_union: Vec<usize>,
    pub largest: Vec<usize>,
}

impl Orders {
    /// From the highest task down, and then the accesses in the order of their lines.
    pub fn usual(table: &Table) -> Orders {
        Orders::drawn(table, |_, members| members)
    }

    /// Each of them another one.
    pub fn shuffled(table: &Table, random: &mut Random, error: Option<Error>) -> Orders {
        Orders::drawn(table, |sum, mut members| {
            random.shuffle(&mut members);
            match error {
                Some(Error::TakesOneTwice(spoiled)) if spoiled == sum => {
                    put_one_twice(members, random)
                }
                Some(Error::LeavesOneOut(spoiled)) if spoiled == sum => {
                    members.remove(random.below(members.len()));
                    members
                }
                _ => members,
            }
        })
    }

    fn drawn(table: &Table, mut draw: impl FnMut(Sum, Vec<usize>) -> Vec<usize>) -> Orders {
        let tasks: Vec<usize> = (0..table.tasks.len()).collect();
        let all: Vec<usize> = (0..tasks.len() + table.accesses.len()).collect();
        Orders {
            demand: draw(Sum::Demand, tasks.clone()),
            useful_union: draw(Sum::UsefulUnion, all.clone()),
            evicting_union: draw(Sum::EvictingUnion, tasks),
            largest: draw(Sum::Largest, all),
        }
    }

    /// The tasks above `i`, as their terms are added.
    pub fn above(&self, i: usize) -> impl Iterator<Item = usize> + '_ {
        self.demand.iter().copied().filter(move |j| *j < i)
    }
}

/// In the place of another one, if there is another.
fn put_one_twice(mut members: Vec<usize>, random: &mut Random) -> Vec<usize> {
    let count = members.len();
    if count > 1 {
        let place = random.below(count);
        let other = (place + random.between(1, count as u64 - 1) as usize) % count;
        members[place] = members[other];
    }
    members
}

#[cfg(test)]
mod tests {
    use super::*;
    use crate::figures::table_m;
    use crate::model::read;
    use std::collections::BTreeSet;

    fn orders(error: Option<Error>) -> Orders {
        let table = read(&table_m()).expect("a valid table");
        Orders::shuffled(&table, &mut Random::new(51), error)
    }

    fn distinct(order: &[usize]) -> BTreeSet<usize> {
        order.iter().copied().collect()
    }

    #[test]
    fn a_shuffled_order_has_each_once() {
        let orders = orders(None);
        let unions = [orders.useful_union, orders.evicting_union];
        for order in unions.into_iter().chain([orders.demand, orders.largest]) {
            assert_eq!(order.len(), 3);
            assert_eq!(distinct(&order).len(), 3);
        }
    }

    #[test]
    fn an_error_spoils_the_order_of_one_sum() {
        let twice = orders(Some(Error::TakesOneTwice(Sum::Demand)));
        assert_eq!((twice.demand.len(), distinct(&twice.demand).len()), (3, 2));
        assert_eq!(distinct(&twice.largest).len(), 3);
        let without = orders(Some(Error::LeavesOneOut(Sum::Largest)));
        assert_eq!((without.largest.len(), without.demand.len()), (2, 3));
    }
}
