//! The plain version's cache sets: words of marks for tables in hex, arrays of counts for the others.

use super::{Access, Table};

/// Of each cache set whether it is meant.
pub type Words = [u64; 4];

/// A number for each cache set.
pub type Counts = [u8; 256];

const NO_MARK: Words = [0; 4];
const NO_COUNT: Counts = [0; 256];

/// What the methods ask of a table's cache sets.
pub trait Blocks {
    type Useful: Copy;
    type Evicting: Copy;
    const NOTHING_USEFUL: Self::Useful;
    const NOTHING_EVICTING: Self::Evicting;

    fn useful(&self, task: usize) -> Self::Useful;
    fn useful_in(&self, access: &Access) -> Self::Useful;
    fn evicting(&self, task: usize) -> Self::Evicting;
    /// What two have together.
    fn together(&self, one: Self::Useful, other: Self::Useful) -> Self::Useful;
    fn union(&self, one: Self::Evicting, other: Self::Evicting) -> Self::Evicting;
    fn size(&self, useful: Self::Useful) -> u32;
    /// How many of the useful blocks are evicted.
    fn lost(&self, useful: Self::Useful, evicting: Self::Evicting) -> u32;
    /// How many blocks there are in the evicting sets of a task.
    fn evicted(&self, task: usize) -> u32;
}

/// Of a table in hex.
pub struct Marked<'a>(pub &'a Table);

impl Blocks for Marked<'_> {
    type Useful = Words;
    type Evicting = Words;
    const NOTHING_USEFUL: Words = NO_MARK;
    const NOTHING_EVICTING: Words = NO_MARK;

    fn useful(&self, task: usize) -> Words {
        self.0.tasks[task].useful
    }

    fn useful_in(&self, access: &Access) -> Words {
        access.useful
    }

    fn evicting(&self, task: usize) -> Words {
        self.0.tasks[task].evicting
    }

    fn together(&self, a: Words, b: Words) -> Words {
        self.union(a, b)
    }

    fn union(&self, a: Words, b: Words) -> Words {
        [a[0] | b[0], a[1] | b[1], a[2] | b[2], a[3] | b[3]]
    }

    fn size(&self, words: Words) -> u32 {
        words.iter().map(|word| word.count_ones()).sum()
    }

    fn lost(&self, a: Words, b: Words) -> u32 {
        self.size([a[0] & b[0], a[1] & b[1], a[2] & b[2], a[3] & b[3]])
    }

    fn evicted(&self, task: usize) -> u32 {
        self.size(self.0.tasks[task].evicting)
    }
}

/// Of a table with counts. An evicting set has all ones in its byte, so that a count is kept or left out
/// by a mask.
pub struct Counted<'a> {
    table: &'a Table,
    ways: u8,
    evicting: Vec<Counts>,
}

impl Counted<'_> {
    pub fn new(table: &Table, ways: u8) -> Counted<'_> {
        let evicting = table.tasks.iter().map(|task| masks(task.evicting));
        Counted {
            table,
            ways,
            evicting: evicting.collect(),
        }
    }
}

fn masks(words: Words) -> Counts {
    let mut masks = NO_COUNT;
    for (word, masks) in words.iter().zip(masks.chunks_exact_mut(64)) {
        for (set, mask) in masks.iter_mut().enumerate() {
            *mask = 0u8.wrapping_sub((word >> set & 1) as u8);
        }
    }
    masks
}

fn sum(counts: impl Iterator<Item = u8>) -> u32 {
    counts.map(u32::from).sum()
}

impl Blocks for Counted<'_> {
    type Useful = Counts;
    type Evicting = Counts;
    const NOTHING_USEFUL: Counts = NO_COUNT;
    const NOTHING_EVICTING: Counts = NO_COUNT;

    fn useful(&self, task: usize) -> Counts {
        self.table.counts[task]
    }

    fn useful_in(&self, access: &Access) -> Counts {
        self.table.counts[access.counts]
    }

    fn evicting(&self, task: usize) -> Counts {
        self.evicting[task]
    }

    fn together(&self, mut one: Counts, other: Counts) -> Counts {
        for (count, other) in one.iter_mut().zip(&other) {
            *count = (*count + other).min(self.ways);
        }
        one
    }

    fn union(&self, mut one: Counts, other: Counts) -> Counts {
        for (mask, other) in one.iter_mut().zip(&other) {
            *mask |= other;
        }
        one
    }

    fn size(&self, counts: Counts) -> u32 {
        sum(counts.iter().copied())
    }

    fn lost(&self, counts: Counts, masks: Counts) -> u32 {
        let pairs = counts.iter().zip(&masks);
        sum(pairs.map(|(count, mask)| count & mask))
    }

    fn evicted(&self, task: usize) -> u32 {
        let words = self.table.tasks[task].evicting;
        let sets: u32 = words.iter().map(|word| word.count_ones()).sum();
        sets * u32::from(self.ways)
    }
}
