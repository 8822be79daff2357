//! What holds of cache sets and their unions, whatever they are. Sizes are read off responses.

use super::{answer, Compared, Difference};
use crate::generate::{measuring_counted, measuring_evicting, measuring_useful, Table};
use crate::library;
use crate::model::{Form, Outcome};

/// The laws of unions and sizes, for cache sets U, A, B and C, and once more with counts for U.
pub fn laws([sets, a, b, c]: [&[bool]; 4], (form, counts): (Form, &[usize])) -> Compared {
    let (both, either) = (joined(a, b, |a, b| a && b), joined(a, b, |a, b| a || b));
    let later = joined(b, c, |b, c| b || c);
    let mut compared = 0;
    let sizes: [&dyn Fn(&[&[bool]]) -> Compared; 3] = [
        &|others| size_by_useful(sets, others),
        &|others| size_by_evicting(others, |others| measuring_evicting(sets, others)),
        &|others| size_by_evicting(others, |others| measuring_counted(form, counts, others)),
    ];
    for of in sizes {
        let (together, all) = (of(&[a, b])?, of(&[a, b, c])?);
        let laws = [
            (
                "A ∪ B and A ∩ B as A and B",
                together + of(&[&both])?,
                of(&[a])? + of(&[b])?,
            ),
            ("A ∪ B as B ∪ A", together, of(&[b, a])?),
            ("A ∪ A as A", of(&[a, a])?, of(&[a])?),
            (
                "(A ∪ B) ∪ C as A ∪ (B ∪ C)",
                of(&[&either, c])?,
                of(&[a, &later])?,
            ),
            ("A ∪ B ∪ C at once and in turn", all, of(&[&either, c])?),
            ("A ∪ B ∪ C as C ∪ B ∪ A", all, of(&[c, b, a])?),
            ("A ∪ B ∪ C as B ∪ C ∪ A", all, of(&[b, c, a])?),
        ];
        for (law, one, other) in laws {
            compared += same(law, one, other)?;
        }
    }
    Ok(compared)
}

fn joined(one: &[bool], other: &[bool], join: fn(bool, bool) -> bool) -> Vec<bool> {
    let pairs = one.iter().zip(other);
    pairs.map(|(one, other)| join(*one, *other)).collect()
}

fn same(law: &str, one: u64, other: u64) -> Compared {
    if one == other {
        return Ok(1);
    }
    let sizes = format!("{one} and {other}");
    Err(Difference {
        asked: format!("sizes of what U shares with {law}"),
        model: sizes.clone(),
        library: sizes,
    })
}

/// How many of the sets lie in the union of the others, which is that of UCBs by UCB-Union. The highest
/// task evicts the sets, and the others are useful to one task each below it. A task takes a tick, and so
/// does a reload.
fn size_by_useful(sets: &[bool], others: &[&[bool]]) -> Compared {
    let ticks = last_response(&measuring_useful(sets, others), 3)?;
    Ok(ticks - 1 - others.len() as u64)
}

/// The same with the union of ECBs, by ECB-Union. The sets are useful to the lowest task, and the others
/// are evicted by one task each above it. For the last of these all of them count, and what the tasks
/// before it cost is left without it.
fn size_by_evicting(others: &[&[bool]], table: impl Fn(&[&[bool]]) -> Table) -> Compared {
    let without_last = &others[..others.len() - 1];
    let ticks = last_response(&table(others), 4)?;
    let before = last_response(&table(without_last), 4)?;
    Ok(ticks - 1 - before)
}

/// On which the model and the library have to agree.
fn last_response(table: &Table, method: u64) -> Compared {
    let (text, last) = (table.text(), table.tasks.len() as u64 - 1);
    answer(&text, &Outcome::of(&text, None), method, last)?;
    Ok(library::answer(&text, method, last))
}

#[cfg(test)]
mod tests {
    use super::*;

    /// Of 256.
    fn sets(members: &[usize]) -> Vec<bool> {
        (0..256).map(|set| members.contains(&set)).collect()
    }

    #[test]
    fn responses_tell_sizes() {
        let (one, other) = (sets(&[0, 63, 64, 200]), sets(&[63, 64, 65, 255]));
        let all = sets(&[0, 63, 65, 254, 255]);
        let sizes: [&dyn Fn(&[&[bool]]) -> Compared; 2] =
            [&|others| size_by_useful(&all, others), &|others| {
                size_by_evicting(others, |others| measuring_evicting(&all, others))
            }];
        for size in sizes {
            let of = |others: &[&[bool]]| size(others).ok();
            assert_eq!(of(&[&one]), Some(2));
            assert_eq!(of(&[&other]), Some(3));
            assert_eq!(of(&[&one, &other]), Some(4));
            assert_eq!(of(&[&one, &other, &all]), Some(5));
        }
    }

    #[test]
    fn responses_tell_sums_of_counts() {
        let (one, other) = (sets(&[0, 63, 64, 200]), sets(&[63, 64, 65, 255]));
        let mut counts = vec![0; 256];
        (counts[0], counts[63], counts[65], counts[254]) = (3, 1, 2, 7);
        let table = |others: &[&[bool]]| measuring_counted(Form::Counted(7), &counts, others);
        let of = |others: &[&[bool]]| size_by_evicting(others, table).ok();
        assert_eq!(of(&[&one]), Some(4));
        assert_eq!(of(&[&other]), Some(3));
        assert_eq!(of(&[&one, &other]), Some(6));
    }
}
