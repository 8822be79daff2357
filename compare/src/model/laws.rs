//! What the rules say of two answers beside each other: by two methods, with a task line more, and where
//! lines are changed on which the answer does not depend.

use super::Error;

/// A response; none of a task that is unschedulable.
pub type Answer = Option<u64>;

/// Two methods of which the first never exceeds the second.
pub type Pair = (usize, usize);

pub fn pairs(error: Option<Error>) -> [Pair; 4] {
    let least_of_four = match error {
        Some(Error::HoldsFourAgainstOne) => (4, 1),
        _ => (4, 2),
    };
    [(3, 1), least_of_four, (5, 3), (5, 4)]
}

/// No answer is larger than any number.
pub fn exceeds(one: Answer, other: Answer, error: Option<Error>) -> bool {
    let size = |answer: Answer| match error {
        Some(Error::TakesNoneForLeast) => answer.unwrap_or(0),
        _ => answer.unwrap_or(u64::MAX),
    };
    size(one) > size(other)
}

/// What is said of an answer, by what it was before.
#[derive(Clone, Copy, Debug, PartialEq, Eq)]
pub enum Said {
    Same,
    NoSmaller,
    /// By an error.
    Another,
}

impl Said {
    pub fn holds(self, before: Answer, after: Answer, error: Option<Error>) -> bool {
        match self {
            Said::Same => after == before,
            Said::NoSmaller => !exceeds(before, after, error),
            Said::Another => after != before,
        }
    }
}

/// A task line that a table has more than another one.
#[derive(Clone, Copy)]
pub struct Added {
    /// Its position.
    pub place: usize,
    pub error: Option<Error>,
}

impl Added {
    /// Where a task stands with the line, by its position without.
    pub fn moved(&self, position: usize) -> usize {
        match self.error {
            Some(Error::ForgetsToMove) => position,
            _ if position < self.place => position,
            _ => position + 1,
        }
    }

    /// What is said of a task's answer with the line, by its position without.
    pub fn says(&self, position: usize) -> Said {
        let is_above = match self.error {
            Some(Error::TakesNextForAbove) => position <= self.place,
            _ => position < self.place,
        };
        match self.error {
            Some(Error::ChangesAbove) if is_above => Said::Another,
            _ if is_above => Said::Same,
            _ => Said::NoSmaller,
        }
    }
}

/// What the answer of the task at `i` depends on, beside line 1.
#[derive(Clone, Copy)]
pub struct Depends {
    pub i: usize,
    pub error: Option<Error>,
}

impl Depends {
    /// On so many task lines, from the highest on.
    pub fn tasks(&self) -> usize {
        match self.error {
            Some(Error::LeavesOwnLineOut) => self.i,
            _ => self.i + 1,
        }
    }

    /// Whether on the access line of the task at `task` with that ceiling.
    pub fn on_access(&self, task: usize, ceiling: usize) -> bool {
        let reaches_up = match self.error {
            Some(Error::LeavesOwnCeilingOut) => ceiling < self.i,
            _ => ceiling <= self.i,
        };
        task > self.i && reaches_up
    }
}

#[cfg(test)]
mod tests {
    use super::*;

    #[test]
    fn none_exceeds_every_number() {
        assert!(exceeds(None, Some(u64::from(u32::MAX)), None));
        assert!(exceeds(Some(6), Some(5), None));
        for (one, other) in [(Some(5), None), (None, None), (Some(5), Some(5))] {
            assert!(!exceeds(one, other, None));
        }
    }

    #[test]
    fn an_added_line_moves_those_below_it() {
        let added = Added {
            place: 1,
            error: None,
        };
        assert_eq!([0, 1, 2].map(|position| added.moved(position)), [0, 2, 3]);
        let said = [0, 1, 2].map(|position| added.says(position));
        assert_eq!(said, [Said::Same, Said::NoSmaller, Said::NoSmaller]);
        assert!(Said::NoSmaller.holds(Some(5), None, None));
        assert!(!Said::NoSmaller.holds(None, Some(5), None));
        assert!(!Said::Same.holds(Some(5), Some(6), None));
    }

    #[test]
    fn a_task_depends_on_what_may_block_it() {
        let depends = Depends { i: 1, error: None };
        assert_eq!(depends.tasks(), 2);
        assert!(depends.on_access(2, 1) && depends.on_access(3, 0));
        assert!(!depends.on_access(1, 0) && !depends.on_access(3, 2));
    }
}
