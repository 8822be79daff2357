//! A partner's list of bounds, held against the equations.
//!
//! Each number is put into the equation of everything that may block its task. Nothing is searched for,
//! and nothing is known of the responses.

use super::blocking::{blockers, worst, Blocker};
use super::costs::Reloads;
use super::read::{name, number, split};
use super::report::equation;
use super::response::Equation;
use super::{Error, Refusal, Table, METHODS};

/// What is said of a bound.
#[derive(Clone, Copy, Debug, PartialEq, Eq, PartialOrd, Ord)]
pub enum Word {
    Ok,
    Open,
    Bad,
}

impl Word {
    pub const ALL: [Word; 3] = [Word::Ok, Word::Open, Word::Bad];

    pub fn spelled(self) -> &'static str {
        match self {
            Word::Ok => "ok",
            Word::Open => "open",
            Word::Bad => "bad",
        }
    }
}

/// A list with a good line for each task, and what is said of it.
#[derive(Clone, Debug, PartialEq, Eq)]
pub struct Checked {
    /// `None` for `-`.
    pub bounds: Vec<Option<u64>>,
    pub words: Vec<Word>,
    pub text: String,
}

/// The checks of lists for one text.
pub struct Checks<'a> {
    accepted: Result<Reloads<'a>, Refusal>,
    error: Option<Error>,
}

impl<'a> Checks<'a> {
    pub fn new(read: Result<&'a Table, Refusal>, error: Option<Error>) -> Checks<'a> {
        Checks {
            accepted: read.map(|table| Reloads::new(table, error)),
            error,
        }
    }

    pub fn check(&self, list: &[u8], method: u64) -> Result<Checked, Refusal> {
        if self.error == Some(Error::LooksAtListFirst) {
            malformed(list, self.error).map_or(Ok(()), Err)?;
        }
        if method >= METHODS {
            return Err(Refusal::new(12, 0));
        }
        let reloads = self.accepted.as_ref().map_err(|refusal| *refusal)?;
        let tasks = &reloads.table.tasks;
        let bounds = bounds(list, reloads.table, self.error)?;
        let words = bounds.iter().enumerate();
        let words: Vec<Word> = words
            .map(|(i, bound)| self.word(reloads, method, i, *bound))
            .collect();
        let lines = tasks.iter().zip(&words);
        let lines = lines.map(|(task, word)| format!("C\t{}\t{}\n", task.name, word.spelled()));
        Ok(Checked {
            text: lines.collect(),
            bounds,
            words,
        })
    }

    /// The words of the two unions for a bound, of an accepted text.
    pub fn of_unions(&self, i: usize, bound: Option<u64>) -> Option<[Word; 2]> {
        let reloads = self.accepted.as_ref().ok()?;
        Some([3, 4].map(|method| self.word(reloads, method, i, bound)))
    }

    /// The demands of a number, one for each thing that may block the task, by one of the methods 0 to 4.
    pub fn demands(&self, method: u64, i: usize, bound: u64) -> Vec<u64> {
        let reloads = match &self.accepted {
            Ok(reloads) => reloads,
            Err(_) => return Vec::new(),
        };
        let blockers = blockers(reloads.table, i, self.error);
        let demands = blockers
            .iter()
            .map(|blocker| self.equation(reloads, method, i, blocker).demand(bound));
        demands.collect()
    }

    fn equation(&self, reloads: &Reloads, method: u64, i: usize, blocker: &Blocker) -> Equation {
        let count = |j: usize| reloads.count(method, i, j, blocker);
        equation(reloads.table, i, 0..i, blocker, &count, self.error)
    }

    fn word(&self, reloads: &Reloads, method: u64, i: usize, bound: Option<u64>) -> Word {
        if method == 5 {
            let of_unions = [3, 4].map(|method| self.word(reloads, method, i, bound));
            return self.combined(of_unions);
        }
        let number = match bound {
            None if self.error == Some(Error::CallsNoneBad) => return Word::Bad,
            None => return Word::Open,
            Some(0) if self.error == Some(Error::TakesZeroForNone) => return Word::Open,
            Some(number) => number,
        };
        let task = &reloads.table.tasks[i];
        let limit = match self.error {
            Some(Error::HoldsBoundAgainstDeadline) => task.deadline,
            _ => task.deadline - task.jitter,
        };
        let is_within = number <= limit;
        let blockers = blockers(reloads.table, i, self.error);
        if is_within && self.holds(reloads, method, i, number, &blockers) {
            return Word::Ok;
        }
        let accesses = blockers.iter().map(|blocker| blocker.accesses.len());
        let accesses: usize = accesses.sum();
        let may_be_open = match self.error {
            Some(Error::NeverOpens) => false,
            Some(Error::OpensForOneAccess) => is_within && accesses > 0,
            Some(Error::OpensPastLimit) => accesses > 1,
            _ => is_within && accesses > 1,
        };
        match may_be_open {
            true => Word::Open,
            false => Word::Bad,
        }
    }

    /// Whether the demand at a number is no larger than the number, whatever blocks the task.
    fn holds(
        &self,
        reloads: &Reloads,
        method: u64,
        i: usize,
        number: u64,
        blockers: &[Blocker],
    ) -> bool {
        let equation = |blocker: &Blocker| self.equation(reloads, method, i, blocker);
        let holds = |blocker: &Blocker| equation(blocker).demand(number) <= number;
        match self.error {
            Some(Error::TakesLargerForOk) => {
                let least = |blocker| equation(blocker).least_response(number);
                let responses = blockers.iter().map(least).collect();
                worst(responses, self.error).is_some()
            }
            Some(Error::WantsSmallerDemand) => {
                let is_smaller = |blocker| equation(blocker).demand(number) < number;
                blockers.iter().all(is_smaller)
            }
            Some(Error::AsksOneAccess) => blockers.iter().any(holds),
            Some(Error::AsksPlainEquation) => holds(&Blocker {
                length: 0,
                accesses: Vec::new(),
            }),
            _ => blockers.iter().all(holds),
        }
    }

    /// `ok` if either says so, `bad` if both say so, and else `open`. What makes a number `open` does not
    /// depend on the method, so that one never says `open` where the other says `bad`.
    fn combined(&self, words: [Word; 2]) -> Word {
        let [one, other] = words;
        match (one, other) {
            (Word::Ok, Word::Ok) => Word::Ok,
            (Word::Ok, _) | (_, Word::Ok) if self.error != Some(Error::WantsBothUnions) => Word::Ok,
            (Word::Bad, Word::Bad) => Word::Bad,
            _ if self.error == Some(Error::CombinesToBad) => Word::Bad,
            _ => Word::Open,
        }
    }
}

/// The bounds of a list that has a good line for each task, in their order, and no other.
fn bounds(list: &[u8], table: &Table, error: Option<Error>) -> Result<Vec<Option<u64>>, Refusal> {
    if error == Some(Error::LooksAtFormsFirst) {
        malformed(list, error).map_or(Ok(()), Err)?;
    }
    let mut bounds = Vec::new();
    for (line, told) in lines_of(list).zip(1..) {
        let task = table.tasks.get(bounds.len());
        let is_named = |name: &str| match error {
            Some(Error::PassesAnyOrder) => table.tasks.iter().any(|task| task.name == name),
            _ => task.map_or(false, |task| task.name == name),
        };
        match error {
            Some(Error::PassesSurplus) if task.is_none() => break,
            Some(Error::LooksAtNameFirst) => {
                let fields = split(line.strip_suffix(b"\n").unwrap_or(line));
                let name = fields.get(1).map(|field| String::from_utf8_lossy(field));
                if !name.map_or(true, |name| is_named(&name)) {
                    return Err(Refusal::new(20, told));
                }
            }
            _ => {}
        }
        let (name, bound) = bound_line(line, error).ok_or(Refusal::new(19, told))?;
        if task.is_none() || !is_named(&name) {
            return Err(Refusal::new(20, told));
        }
        bounds.push(bound);
    }
    if bounds.len() == table.tasks.len() {
        return Ok(bounds);
    }
    let last = bounds.len() as u64;
    Err(Refusal::new(
        20,
        match error {
            Some(Error::TellsLastForMissing) => last,
            _ => last + 1,
        },
    ))
}

/// The lines of a list, each with its LF if it has one.
fn lines_of(list: &[u8]) -> impl Iterator<Item = &[u8]> {
    list.split_inclusive(|byte| *byte == b'\n')
}

/// By an error, the refusal of the first line that is malformed.
fn malformed(list: &[u8], error: Option<Error>) -> Option<Refusal> {
    let mut lines = lines_of(list).zip(1..);
    let bad = lines.find(|(line, _)| bound_line(line, error).is_none());
    bad.map(|(_, told)| Refusal::new(19, told))
}

/// The name and the bound of a good line.
fn bound_line(line: &[u8], error: Option<Error>) -> Option<(String, Option<u64>)> {
    let line = match line.strip_suffix(b"\n") {
        None if error == Some(Error::PassesUnended) => line,
        ended => ended?,
    };
    let fields = split(line);
    if fields.len() != 3 || fields[0] != b"R" {
        return None;
    }
    let name = name(fields[1])?;
    match fields[2] {
        b"-" => Some((name, None)),
        field => Some((name, Some(number(field)?))),
    }
}

#[cfg(test)]
mod tests {
    use super::*;
    use crate::figures::table_p;
    use crate::generate::{self, Family};
    use crate::model::Outcome;
    use crate::random::Random;

    fn checked(list: &[u8], method: u64, error: Option<Error>) -> Result<String, (u64, u64)> {
        let outcome = Outcome::of(&table_p(), error);
        let checked = outcome.checks().check(list, method);
        checked
            .map(|checked| checked.text)
            .map_err(|refusal| (refusal.number, refusal.line))
    }

    #[test]
    fn a_line_is_looked_at_for_its_form_and_then_for_its_name() {
        let rows: [(&[u8], u64, u64); 14] = [
            (b"", 20, 1),
            (b"\n", 19, 1),
            (b"R\ta\t2", 19, 1),
            (b"R\ta\t2\n", 20, 2),
            (b"R\ta\t2\nR\tb\t5", 19, 2),
            (b"R\tb\t2\nR\ta\t5\n", 20, 1),
            (b"R\tB\t2\nR\tb\t5\n", 19, 1),
            (b"R\tb\t02\n", 19, 1),
            (b"R\tb\t2\n\n", 20, 1),
            (b"R\ta\t2\nR\tb\t5\n\n", 19, 3),
            (b"R\ta\t2\nR\tb\t5\nR\tc\t5\n", 20, 3),
            (b"R\ta\t2\t\n", 19, 1),
            (b"R\ta\n", 19, 1),
            (b"V\ta\t2\n", 19, 1),
        ];
        for (list, number, line) in rows {
            let refused = checked(list, 0, None);
            assert_eq!(refused, Err((number, line)), "{}", list.escape_ascii());
        }
        assert_eq!(checked(b"", 6, None), Err((12, 0)));
    }

    #[test]
    fn the_errors_do_what_they_say() {
        use Error::*;
        let (ok_bad, both_ok) = ("C\ta\tok\nC\tb\tbad\n", "C\ta\tok\nC\tb\tok\n");
        let rows: [(Error, &[u8], Result<&str, u64>, Result<&str, u64>); 9] = [
            (
                TakesLargerForOk,
                b"R\ta\t2\nR\tb\t6\n",
                Ok(ok_bad),
                Ok(both_ok),
            ),
            (
                WantsSmallerDemand,
                b"R\ta\t3\nR\tb\t7\n",
                Ok(both_ok),
                Ok(ok_bad),
            ),
            (
                CallsNoneBad,
                b"R\ta\t2\nR\tb\t-\n",
                Ok("C\ta\tok\nC\tb\topen\n"),
                Ok(ok_bad),
            ),
            (
                PassesAnyOrder,
                b"R\tb\t2\nR\ta\t5\n",
                Err(20 << 32 | 1),
                Ok(both_ok),
            ),
            (
                LooksAtNameFirst,
                b"R\tb\t\n",
                Err(19 << 32 | 1),
                Err(20 << 32 | 1),
            ),
            (
                TellsLastForMissing,
                b"R\ta\t2\n",
                Err(20 << 32 | 2),
                Err(20 << 32 | 1),
            ),
            (
                PassesUnended,
                b"R\ta\t2\nR\tb\t5",
                Err(19 << 32 | 2),
                Ok(both_ok),
            ),
            (
                LooksAtFormsFirst,
                b"R\tb\t2\n\n",
                Err(20 << 32 | 1),
                Err(19 << 32 | 2),
            ),
            (
                PassesSurplus,
                b"R\ta\t2\nR\tb\t5\n\n",
                Err(19 << 32 | 3),
                Ok(both_ok),
            ),
        ];
        for (error, list, right, wrong) in rows {
            let code = |refused: (u64, u64)| refused.0 << 32 | refused.1;
            let given = |error| checked(list, 0, error).map_err(code);
            assert_eq!(given(None), right.map(String::from), "{error:?}");
            assert_eq!(given(Some(error)), wrong.map(String::from), "{error:?}");
        }
        assert_eq!(checked(b"", 6, Some(LooksAtListFirst)), Err((12, 0)));
        assert_eq!(checked(b"\n", 6, Some(LooksAtListFirst)), Err((19, 1)));
    }

    /// What has to be so of every word: an `ok` number is no smaller than the response, the response is
    /// never `bad` and is `ok` where no more than one access may block the task, and one union says
    /// `open` only where the other does not say `bad`.
    #[test]
    fn words_and_responses_go_together() {
        const FAMILIES: [Family; 4] = [
            generate::small,
            generate::unions,
            generate::shared,
            generate::near_limit,
        ];
        let mut random = Random::new(71);
        let mut seen = [0; 3];
        for _ in 0..150 {
            for family in FAMILIES {
                let outcome = Outcome::of(&family(&mut random).text(), None);
                let table = outcome.table().expect("a valid table");
                let checks = outcome.checks();
                let reloads = Reloads::new(table, None);
                for (i, row) in outcome.rows().iter().enumerate() {
                    let accesses = blockers(table, i, None);
                    for method in 0..METHODS {
                        let own = row.answers[method as usize];
                        let word = |number| checks.word(&reloads, method, i, Some(number));
                        if let Some(own) = own {
                            assert_ne!(word(own), Word::Bad);
                            assert!(accesses.len() > 1 || word(own) == Word::Ok);
                        }
                        for _ in 0..4 {
                            let number = random.between(0, row.limit + 2);
                            let word = word(number);
                            seen[word as usize] += 1;
                            assert!(word != Word::Ok || own.map_or(false, |own| own <= number));
                            let unions = checks.of_unions(i, Some(number)).expect("accepted");
                            assert!(!unions.contains(&Word::Bad) || !unions.contains(&Word::Open));
                        }
                    }
                }
            }
        }
        assert!(seen.iter().all(|count| *count > 500), "{seen:?}");
    }
}
