//! The independent implementation of the rules.
//!
//! It shares nothing with the proved code but the rules: evicting sets are sorted lists of numbers,
//! useful ones a number for each cache set, unions and sums are asked member by member, the text is taken apart by the standard library, a response
//! is found by trying every number where the limit is small, each access that may block a task has an
//! equation of its own, whether a text gives a table value is found by reading what the value spells,
//! and a growth by reading the table of every k. The members of a sum or of a union may be taken in any
//! order. A bound that somebody else gives is put into the equations, and nothing is searched for. Where the earliest deadline comes first the demand
//! bound is asked at every whole time, or at every deadline where there are too many. A replay goes from tick to tick.

mod blocking;
mod check;
mod costs;
mod edf;
mod error;
mod explain;
mod growth;
pub mod laws;
mod order;
mod read;
mod replay;
mod report;
mod response;
pub mod value;
mod worker;
mod write;

pub use check::{Checked, Checks, Word};
pub use costs::METHODS;
pub use edf::{Product, MULTIPLE_MOST};
pub use error::{Error, Part};
pub use explain::{Case, Explanation, Interference, FIGURE_MOST};
pub use growth::{Growing, Growths, GROWTH_MOST};
pub use order::Sum;
pub use read::{read, Access, Form, Table, Task, ACCESSES_MOST, TASKS_MOST, TEXT_MOST, WAYS_MOST};
pub use replay::{Replay, REPLAYED_MOST};
pub use report::{analyse, Analysis, Row};
pub use worker::Worker;
pub use write::Writing;

use crate::random::Random;
use explain::Explainer;
use order::Orders;
use read::read_with;
use report::analyse_in;
use value::Value;

/// Why something was not given: the refusal's number and the line told.
#[derive(Clone, Copy, Debug, PartialEq, Eq, PartialOrd, Ord)]
pub struct Refusal {
    pub number: u64,
    pub line: u64,
}

impl Refusal {
    pub fn new(number: u64, line: u64) -> Refusal {
        Refusal { number, line }
    }

    /// As the library returns it.
    pub fn code(self) -> u64 {
        self.number << 32 | self.line
    }
}

/// All that the model has to say of one text.
pub struct Outcome {
    text: Vec<u8>,
    accepted: Result<(Table, Analysis), Refusal>,
    printed: Vec<u8>,
    error: Option<Error>,
}

impl Outcome {
    pub fn of(text: &[u8], error: Option<Error>) -> Outcome {
        Outcome::answered(text, error, |table| analyse(table, error))
    }

    /// The same, with the members of every sum, union and largest value of its equations in any order.
    pub fn in_any_order(text: &[u8], random: &mut Random, error: Option<Error>) -> Outcome {
        Outcome::answered(text, error, |table| {
            let orders = Orders::shuffled(table, random, error);
            analyse_in(table, orders, error)
        })
    }

    fn answered(
        text: &[u8],
        error: Option<Error>,
        analyse: impl FnOnce(&Table) -> Analysis,
    ) -> Outcome {
        let accepted = read_with(text, error).map(|table| {
            let analysis = analyse(&table);
            (table, analysis)
        });
        let printed = match &accepted {
            Ok((_, analysis)) => analysis.report(),
            Err(refusal) => format!("E\t{}\t{}\n", refusal.number, refusal.line),
        };
        Outcome {
            text: text.to_vec(),
            accepted,
            printed: printed.into_bytes(),
            error,
        }
    }

    pub fn table(&self) -> Option<&Table> {
        self.accepted.as_ref().ok().map(|(table, _)| table)
    }

    /// The answers of each task; none of a text that is refused.
    pub fn rows(&self) -> &[Row] {
        match &self.accepted {
            Ok((_, analysis)) => &analysis.rows,
            Err(_) => &[],
        }
    }

    pub fn refusal(&self) -> Option<Refusal> {
        self.accepted.as_ref().err().copied()
    }

    /// The response in ticks, 0 for unschedulable, or a refusal's code.
    pub fn answer(&self, method: u64, position: u64) -> u64 {
        if method >= METHODS {
            return Refusal::new(12, 0).code();
        }
        if let Some(refusal) = self.refusal() {
            return refusal.code();
        }
        match self.rows().iter().zip(0..).find(|row| row.1 == position) {
            Some((row, _)) => row.answers[method as usize].unwrap_or(0),
            None => Refusal::new(13, 0).code(),
        }
    }

    /// The report if it fits into `room` bytes.
    pub fn report(&self, room: usize) -> Result<&[u8], Refusal> {
        match self.refusal() {
            Some(refusal) => Err(refusal),
            None => self.print(room),
        }
    }

    /// What the program prints if it fits into `room` bytes.
    pub fn print(&self, room: usize) -> Result<&[u8], Refusal> {
        fitting(&self.printed, room)
    }

    /// The table written again.
    pub fn writing(&self) -> Result<Writing, Refusal> {
        match &self.accepted {
            Ok((table, _)) => Ok(Writing::of(&Value::of(table), self.error)),
            Err(refusal) => Err(*refusal),
        }
    }

    /// All growths, which takes a while.
    pub fn growths(&self) -> Growths<'_> {
        let read = self.accepted.as_ref().map_err(|refusal| *refusal);
        Growths::new(&self.text, read.map(|(table, _)| table), self.error)
    }

    /// The table as it grows; none of a text that is refused.
    pub fn growing(&self) -> Option<Growing<'_>> {
        let table = self.table()?;
        Some(Growing::new(&self.text, table, self.error))
    }

    /// What is said of a partner's list of bounds.
    pub fn checks(&self) -> Checks<'_> {
        let accepted = self.accepted.as_ref().map_err(|refusal| *refusal);
        Checks::new(accepted.map(|(table, _)| table), self.error)
    }

    /// What the verdict rests on where the earliest deadline comes first.
    pub fn product(&self) -> Result<Product<'_>, Refusal> {
        let accepted = self.accepted.as_ref().map_err(|refusal| *refusal);
        Product::of(&accepted?.0, self.error)
    }

    /// The verdict where the earliest deadline comes first.
    pub fn edf(&self) -> Result<bool, Refusal> {
        self.product().map(|product| product.verdict())
    }

    /// The replay of the first job of the task at a position.
    pub fn replay(&self, position: u64) -> Result<Replay, Refusal> {
        let accepted = self.accepted.as_ref().map_err(|refusal| *refusal);
        replay::replay(&accepted?.0, position, self.error)
    }

    pub fn explanations(&self) -> Explanations<'_> {
        let accepted = self.accepted.as_ref().map_err(|refusal| *refusal);
        Explanations {
            accepted: accepted.map(|(table, _)| Explainer::new(table, self.error)),
        }
    }
}

/// The explanations of one text, each worked out when it is asked for.
pub struct Explanations<'a> {
    accepted: Result<Explainer<'a>, Refusal>,
}

impl Explanations<'_> {
    pub fn explain(&self, method: u64, position: u64) -> Result<Explanation, Refusal> {
        if method >= METHODS {
            return Err(Refusal::new(12, 0));
        }
        let explainer = self.accepted.as_ref().map_err(|refusal| *refusal)?;
        match (0..explainer.tasks()).find(|i| *i as u64 == position) {
            Some(i) => Ok(explainer.explain(method, i)),
            None => Err(Refusal::new(13, 0)),
        }
    }
}

/// A text if it fits into `room` bytes.
pub fn fitting(text: &[u8], room: usize) -> Result<&[u8], Refusal> {
    if text.len() <= room {
        Ok(text)
    } else {
        Err(Refusal::new(14, 0))
    }
}

#[cfg(test)]
mod tests {
    use super::*;
    use crate::figures::{table_m, table_p};

    fn answer(text: &[u8], error: Error, method: u64, position: u64) -> u64 {
        Outcome::of(text, Some(error)).answer(method, position)
    }

    #[test]
    fn the_errors_do_what_the_rules_say_of_them() {
        assert_eq!(answer(&table_m(), Error::CombinesPerPair, 5, 2), 9);
        assert_eq!(answer(&table_p(), Error::StartsFromGuess, 0, 1), 7);
    }

    #[test]
    fn the_method_is_refused_before_the_text_and_the_text_before_the_position() {
        let outcome = Outcome::of(b"", None);
        assert_eq!(outcome.answer(6, 9), 12 << 32);
        assert_eq!(outcome.answer(5, 9), 2 << 32);
        assert_eq!(Outcome::of(&table_p(), None).answer(5, 2), 13 << 32);
        let refused = |text: &[u8], method, position| {
            let outcome = Outcome::of(text, None);
            let explained = outcome.explanations().explain(method, position);
            explained.err().map(|refusal| refusal.number)
        };
        assert_eq!(refused(b"", 6, 9), Some(12));
        assert_eq!(refused(b"", 5, 9), Some(2));
        assert_eq!(refused(&table_p(), 5, 2), Some(13));
        assert_eq!(refused(&table_p(), 5, 1), None);
    }
}
