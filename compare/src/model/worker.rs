//! Workers that answer one table after another.

use super::report::analyse_after;
use super::{Error, Outcome, Row};

/// One of them. It keeps nothing of a table that it had, unless an error is built in.
#[derive(Clone)]
pub struct Worker {
    error: Option<Error>,
    /// By an error, the answers of the last table.
    rows: Vec<Row>,
    /// By an error, what it printed last.
    printed: Vec<u8>,
}

impl Worker {
    pub fn new(error: Option<Error>) -> Worker {
        Worker {
            error,
            rows: Vec::new(),
            printed: Vec::new(),
        }
    }

    /// What it has to say of the next text.
    pub fn outcome(&mut self, text: &[u8]) -> Outcome {
        let mut outcome = Outcome::answered(text, self.error, |table| {
            analyse_after(table, &self.rows, self.error)
        });
        match self.error {
            Some(Error::HandsAnswersOn) if outcome.table().is_some() => {
                self.rows = outcome.rows().to_vec();
            }
            Some(Error::LeavesLastText) => {
                let last = self.printed.get(outcome.printed.len()..);
                outcome.printed.extend(last.unwrap_or(&[]));
                self.printed = outcome.printed.clone();
            }
            _ => {}
        }
        outcome
    }
}

#[cfg(test)]
mod tests {
    use super::*;
    use crate::figures::table_p;

    /// With an execution time of 4 in the place of 3: the response of the second task is 8.
    const P_LONGER: &[u8] = b"K\t4\t0\nT\ta\t2\t5\t5\t0\t0\t0\t0\nT\tb\t4\t8\t8\t0\t0\t0\t0\n";

    fn second_answer(worker: &mut Worker, text: &[u8]) -> u64 {
        worker.outcome(text).answer(0, 1)
    }

    #[test]
    fn a_worker_keeps_nothing() {
        let mut worker = Worker::new(None);
        assert_eq!(second_answer(&mut worker, P_LONGER), 8);
        assert_eq!(second_answer(&mut worker, &table_p()), 5);
    }

    #[test]
    fn an_answer_that_is_handed_on_leads_to_a_later_solution() {
        let mut worker = Worker::new(Some(Error::HandsAnswersOn));
        assert_eq!(second_answer(&mut worker, &table_p()), 5);
        assert_eq!(second_answer(&mut worker, P_LONGER), 8);
        assert_eq!(second_answer(&mut worker, b""), 2 << 32);
        assert_eq!(second_answer(&mut worker, &table_p()), 7);
    }

    #[test]
    fn what_was_printed_may_be_left_behind_it() {
        let mut worker = Worker::new(Some(Error::LeavesLastText));
        let printed = worker.outcome(&table_p()).printed;
        let refused = worker.outcome(b"").printed;
        assert_eq!(refused[..6], *b"E\t2\t0\n");
        assert_eq!(refused[6..], printed[6..]);
    }
}
