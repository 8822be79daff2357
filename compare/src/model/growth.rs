//! How far the execution times of a table may grow.
//!
//! For each k the table's text is spelled with the scaled execution times, read again as any other
//! text, and asked for the verdict. The growth is the greatest k that passes. That is found by looking
//! at all of them: nothing is taken to be known of one k from another, but the reload counts, which do
//! not depend on execution times, and the verdict on a text that is the same byte for byte.

use super::blocking::blockers;
use super::costs::{Reloads, METHODS};
use super::read::{read_of_any_length, read_with};
use super::report::equation;
use super::{fitting, Error, Refusal, Table};

/// The greatest k that is tried.
pub const GROWTH_MOST: u64 = 4_000;

/// For each method whether a table passes.
type Passing = [bool; METHODS as usize];

/// An accepted text, and what becomes of it with each k.
pub struct Growing<'a> {
    text: &'a [u8],
    table: &'a Table,
    lines: Vec<Vec<Field>>,
    /// The reload counts, which do not depend on execution times: by task, by what may block it, by
    /// one of the methods 0 to 4, and by the task that pre-empts.
    counts: Vec<Vec<[Vec<usize>; 5]>>,
    error: Option<Error>,
}

/// A field of a line.
enum Field {
    Kept(Vec<u8>),
    Scaled(u64),
}

impl<'a> Growing<'a> {
    /// Of a text and the table that it reads as.
    pub fn new(text: &'a [u8], table: &'a Table, error: Option<Error>) -> Growing<'a> {
        let lines = text.split_inclusive(|byte| *byte == b'\n');
        let lines = lines.map(|line| fields_of(&line[..line.len() - 1], error));
        let reloads = Reloads::new(table, error);
        let counts = (0..table.tasks.len()).map(|i| counts_of(table, &reloads, i, error));
        Growing {
            text,
            table,
            lines: lines.collect(),
            counts: counts.collect(),
            error,
        }
    }

    /// The table with each C replaced.
    pub fn table(&self, k: u64) -> Table {
        let mut table = self.table.clone();
        for task in &mut table.tasks {
            task.execution = times(task.execution, k, self.error);
        }
        table
    }

    /// Its text, whether or not that would be accepted.
    pub fn text(&self, k: u64) -> Vec<u8> {
        let mut text = Vec::with_capacity(self.text.len() + 100);
        for fields in &self.lines {
            for (place, field) in fields.iter().enumerate() {
                if place > 0 {
                    text.push(b'\t');
                }
                match field {
                    Field::Kept(bytes) => text.extend(bytes),
                    Field::Scaled(number) => {
                        text.extend(times(*number, k, self.error).to_string().bytes());
                    }
                }
            }
            text.push(b'\n');
        }
        text
    }

    /// Why its text is refused, if it is.
    pub fn refusal(&self, k: u64) -> Option<Refusal> {
        self.read(&self.text(k)).err()
    }

    fn read(&self, scaled: &[u8]) -> Result<Table, Refusal> {
        match self.error {
            Some(Error::LetsLongPass) => read_of_any_length(scaled, self.error),
            _ => read_with(scaled, self.error),
        }
    }

    /// Whether k passes: the text is accepted, and every task has a response.
    pub fn passes(&self, method: u64, k: u64) -> bool {
        match self.read(&self.text(k)) {
            Ok(scaled) => self.verdict(&scaled, method),
            Err(_) => self.error == Some(Error::LetsRefusedPass),
        }
    }

    /// The positions of the tasks that have no response with an accepted k.
    pub fn late(&self, method: u64, k: u64) -> Vec<usize> {
        let scaled = match self.read(&self.text(k)) {
            Ok(scaled) => scaled,
            Err(_) => return Vec::new(),
        };
        let tasks = 0..scaled.tasks.len();
        tasks
            .filter(|i| !self.responds(&scaled, method, *i))
            .collect()
    }

    /// For each k from 1 on whether it passes.
    fn scan(&self) -> Vec<Passing> {
        let most = match self.error {
            Some(Error::TriesOneMore) => GROWTH_MOST + 1,
            _ => GROWTH_MOST,
        };
        // small numbers grow in steps, so that many k in a row have the very same text
        let mut last: (Vec<u8>, Passing) = (Vec::new(), Default::default());
        let passing = (1..=most).map(|k| {
            let text = self.text(k);
            if text != last.0 {
                let passing = self.passing(&text);
                last = (text, passing);
            }
            last.1
        });
        passing.collect()
    }

    fn passing(&self, text: &[u8]) -> Passing {
        let mut passing = Passing::default();
        match self.read(text) {
            Ok(scaled) => {
                for (passes, method) in passing.iter_mut().zip(0..) {
                    *passes = self.verdict(&scaled, method);
                }
            }
            Err(_) => passing.fill(self.error == Some(Error::LetsRefusedPass)),
        }
        passing
    }

    fn verdict(&self, scaled: &Table, method: u64) -> bool {
        let by = |method| {
            let mut tasks = match self.error {
                Some(Error::LooksAtLastTask) => scaled.tasks.len() - 1..scaled.tasks.len(),
                _ => 0..scaled.tasks.len(),
            };
            tasks.all(|i| self.responds(scaled, method, i))
        };
        match self.error {
            Some(Error::TakesVerdictWithoutCosts) => by(0),
            Some(Error::TakesVerdictOfUsefulUnion) if method == 5 => by(3),
            Some(Error::CombinesVerdicts) if method == 5 => by(3) || by(4),
            _ => by(method),
        }
    }

    fn responds(&self, scaled: &Table, method: u64, i: usize) -> bool {
        if method == 5 {
            return self.responds(scaled, 3, i) || self.responds(scaled, 4, i);
        }
        let task = &scaled.tasks[i];
        let blockers = blockers(scaled, i, self.error);
        let mut cases = blockers.iter().zip(&self.counts[i]);
        cases.all(|(blocker, counts)| {
            let count = |j: usize| counts[method as usize][j];
            let equation = equation(scaled, i, 0..i, blocker, &count, self.error);
            let response = equation.least_response(task.deadline - task.jitter);
            response.is_some()
        })
    }
}

/// The fields of a line of an accepted text.
fn fields_of(line: &[u8], error: Option<Error>) -> Vec<Field> {
    let fields = line.split(|byte| *byte == b'\t');
    let fields: Vec<&[u8]> = fields.collect();
    let field = |(place, bytes): (usize, &&[u8])| {
        if !is_scaled(fields[0], place, error) {
            return Field::Kept(bytes.to_vec());
        }
        let spelled = String::from_utf8_lossy(bytes);
        Field::Scaled(spelled.parse().expect("a number of an accepted text"))
    };
    fields.iter().enumerate().map(field).collect()
}

/// Whether a field of a line that starts with `first` is scaled: C of a task, and nothing else.
fn is_scaled(first: &[u8], place: usize, error: Option<Error>) -> bool {
    let (period, deadline, length) = (3, 4, 3);
    match (first, error) {
        (b"T", _) if place == 2 => true,
        (b"T", Some(Error::ScalesPeriods)) => place == period || place == deadline,
        (b"A", Some(Error::ScalesLengths)) => place == length,
        _ => false,
    }
}

/// A number times k / 1000, rounded up.
fn times(number: u64, k: u64, error: Option<Error>) -> u64 {
    let thousandfold = number * k;
    match error {
        Some(Error::RoundsDown) => thousandfold / 1_000,
        Some(Error::RoundsToNearest) => (thousandfold + 500) / 1_000,
        Some(Error::MultipliesIn32Bits) => (thousandfold % (1 << 32) + 999) / 1_000,
        _ => thousandfold / 1_000 + u64::from(thousandfold % 1_000 > 0),
    }
}

fn counts_of(
    table: &Table,
    reloads: &Reloads,
    i: usize,
    error: Option<Error>,
) -> Vec<[Vec<usize>; 5]> {
    let blockers = blockers(table, i, error);
    let counts = blockers.iter().map(|blocker| {
        [0, 1, 2, 3, 4].map(|method| {
            let above = (0..i).map(|j| reloads.count(method, i, j, blocker));
            above.collect()
        })
    });
    counts.collect()
}

/// The growths of one text, all k having been looked at.
pub struct Growths<'a> {
    accepted: Result<Grown<'a>, Refusal>,
    text: &'a [u8],
    error: Option<Error>,
}

struct Grown<'a> {
    growing: Growing<'a>,
    /// By method.
    growths: [u64; METHODS as usize],
    /// By method how many k pass.
    passing: [u64; METHODS as usize],
}

impl<'a> Grown<'a> {
    fn new(growing: Growing<'a>) -> Grown<'a> {
        let scan = growing.scan();
        let error = growing.error;
        let by_method = |method: usize| scan.iter().map(move |passing| passing[method]);
        let methods = [0, 1, 2, 3, 4, 5];
        let growths = methods.map(|method| greatest(by_method(method), error));
        let passing =
            methods.map(|method| by_method(method).filter(|passes| *passes).count() as u64);
        Grown {
            growing,
            growths,
            passing,
        }
    }
}

/// The greatest k that passes, 0 if none does.
fn greatest(passing: impl Iterator<Item = bool> + Clone, error: Option<Error>) -> u64 {
    let each = (1..).zip(passing);
    let failing = each.clone().find(|(_, passes)| !passes);
    let passing = each.filter(|(_, passes)| *passes).map(|(k, _)| k);
    let greatest: u64 = passing.max().unwrap_or(0);
    match error {
        Some(Error::StartsFromWhole) if greatest < 1_000 => 0,
        Some(Error::TellsOneForNone) if greatest == 0 => 1,
        Some(Error::TellsFirstFailing) => failing.map_or(GROWTH_MOST, |(k, _)| k),
        _ => greatest,
    }
}

impl<'a> Growths<'a> {
    pub fn new(
        text: &'a [u8],
        read: Result<&'a Table, Refusal>,
        error: Option<Error>,
    ) -> Growths<'a> {
        let grown = |table| Grown::new(Growing::new(text, table, error));
        Growths {
            accepted: read.map(grown),
            text,
            error,
        }
    }

    /// None of a text that is refused.
    pub fn growing(&self) -> Option<&Growing<'a>> {
        self.accepted.as_ref().ok().map(|grown| &grown.growing)
    }

    pub fn growth(&self, method: u64) -> Result<u64, Refusal> {
        let grown = self.asked(method)?;
        Ok(grown.growths[method as usize])
    }

    /// How many k pass.
    pub fn passing(&self, method: u64) -> Result<u64, Refusal> {
        let grown = self.asked(method)?;
        Ok(grown.passing[method as usize])
    }

    /// The scaled table's text; the text itself where no k passes.
    pub fn scaled(&self, method: u64) -> Result<Vec<u8>, Refusal> {
        let growing = &self.asked(method)?.growing;
        Ok(match (self.growth(method)?, self.error) {
            (0, Some(Error::WritesScaledByOne)) => growing.text(1),
            (0, Some(Error::WritesScaledByNone)) => growing.text(0),
            (0, _) => self.text.to_vec(),
            (k, _) => growing.text(k),
        })
    }

    /// The same if it fits into `room` bytes.
    pub fn scaled_in(&self, method: u64, room: usize) -> Result<Vec<u8>, Refusal> {
        if self.error == Some(Error::LooksForRoomOfText) {
            fitting(self.text, room)?;
        }
        let text = self.scaled(method)?;
        fitting(&text, room).map(<[u8]>::to_vec)
    }

    fn asked(&self, method: u64) -> Result<&Grown<'a>, Refusal> {
        let accepted = self.accepted.as_ref().map_err(|refusal| *refusal);
        match self.error {
            Some(Error::ReadsBeforeMethod) if accepted.is_err() => accepted,
            _ if method >= METHODS => Err(Refusal::new(12, 0)),
            _ => accepted,
        }
    }
}

#[cfg(test)]
mod tests {
    use super::*;
    use crate::generate::{self, Family};
    use crate::model::Outcome;
    use crate::random::Random;

    const FAMILIES: [Family; 5] = [
        generate::small,
        generate::unions,
        generate::shared,
        generate::near_limit,
        generate::just_in_time,
    ];

    #[test]
    fn the_verdict_of_a_thousand_thousandths_is_that_of_the_report() {
        let mut random = Random::new(41);
        for _ in 0..60 {
            for family in FAMILIES {
                let text = family(&mut random).text();
                let outcome = Outcome::of(&text, None);
                let growing = outcome.growing().expect("a valid table");
                assert_eq!(growing.text(1_000), text);
                for method in 0..METHODS {
                    let mut rows = outcome.rows().iter();
                    let verdict = rows.all(|row| row.answers[method as usize].is_some());
                    assert_eq!(growing.passes(method, 1_000), verdict);
                }
            }
        }
    }

    #[test]
    fn the_verdict_of_a_scaled_table_is_that_of_its_report() {
        let mut random = Random::new(42);
        for _ in 0..20 {
            for family in FAMILIES {
                let text = family(&mut random).text();
                let outcome = Outcome::of(&text, None);
                let growing = outcome.growing().expect("a valid table");
                let k = random.between(1, GROWTH_MOST);
                let scaled = Outcome::of(&growing.text(k), None);
                let verdict = |method: u64| {
                    let mut rows = scaled.rows().iter();
                    let all = rows.all(|row| row.answers[method as usize].is_some());
                    scaled.refusal().is_none() && all
                };
                for method in 0..METHODS {
                    assert_eq!(growing.passes(method, k), verdict(method));
                    let late = growing.late(method, k);
                    assert_eq!(
                        late.is_empty(),
                        scaled.refusal().is_some() || verdict(method)
                    );
                }
                if let Some(table) = scaled.table() {
                    assert_eq!(*table, growing.table(k));
                }
            }
        }
    }

    #[test]
    fn execution_times_are_rounded_up() {
        let rows = [(1, 1, 1), (1, 1_000, 1), (1, 1_001, 2), (7, 4_000, 28)];
        for (execution, k, scaled) in rows {
            assert_eq!(times(execution, k, None), scaled);
        }
        assert_eq!(times(250_000_000, 4_000, None), 1_000_000_000);
        assert_eq!(times(3, 500, Some(Error::RoundsDown)), 1);
        assert_eq!(times(3, 500, Some(Error::RoundsToNearest)), 2);
        assert_eq!(times(3, 400, Some(Error::RoundsToNearest)), 1);
    }
}
