//! Made-up tables that are valid.

mod accesses;
mod adding;
mod builds;
mod deadlines;
mod families;
mod growing;
mod keeping;
mod lists;
mod measuring;
mod published;
mod replays;

pub use accesses::ACCESSES_MOST;
pub use adding::{nearly_full, with_line};
pub use builds::builds;
pub use deadlines::{
    about_last_multiple, by_deadline, by_long_deadline, is_soon_told, of_any_family,
};
pub use families::{
    crossed, edges, full, largest, loaded, near_end, near_limit, shared, small, unions, Family,
    BASES,
};
pub use growing::{
    by_either_union, finely_in_time, just_in_time, longest_counted, nearly_refused, nearly_too_long,
};
pub use keeping::kept;
pub use lists::{crossing, list};
pub use measuring::{
    any_cache_sets, any_counts, measuring_counted, measuring_evicting, measuring_useful,
};
pub use published::{
    count_as_published, hardly_a_tick_left, hardly_a_tick_left_if_blocked, no_tick_left, published,
    share_as_published,
};
pub use replays::{keeping_work, long_replayed, replayed};

use crate::model::{Form, TEXT_MOST, WAYS_MOST};
use crate::random::Random;

pub const TIME_MOST: u64 = 250_000_000;
pub const TASKS_MOST: u64 = 32;

/// The fields of each line.
pub type Lines = Vec<Vec<Vec<u8>>>;

#[derive(Clone)]
pub struct Table {
    pub sets: usize,
    pub reload_time: u64,
    pub form: Form,
    pub tasks: Vec<Task>,
    pub accesses: Vec<Access>,
}

#[derive(Clone)]
pub struct Access {
    /// Positions.
    pub task: usize,
    pub ceiling: usize,
    pub length: u64,
    /// By cache set.
    pub useful: Vec<usize>,
}

#[derive(Clone)]
pub struct Task {
    pub name: String,
    pub execution: u64,
    pub period: u64,
    pub deadline: u64,
    pub jitter: u64,
    /// By cache set.
    pub useful: Vec<usize>,
    pub evicting: Vec<bool>,
}

impl Table {
    pub fn text(&self) -> Vec<u8> {
        let mut text = format!("K\t{}\t{}", self.sets, self.reload_time);
        if let Form::Counted(ways) = self.form {
            text.push_str(&format!("\t{ways}"));
        }
        text.push('\n');
        for task in &self.tasks {
            text.push_str(&task.line(self.form));
        }
        for access in &self.accesses {
            text.push_str(&format!(
                "A\t{}\t{}\t{}\t{}\n",
                self.tasks[access.task].name,
                self.tasks[access.ceiling].name,
                access.length,
                spelled(&access.useful, self.form)
            ));
        }
        text.into_bytes()
    }

    /// No text with so many lines of this table's form is longer, whatever the names and numbers.
    pub fn length_most(&self, tasks: usize, accesses: usize) -> usize {
        let useful = match self.form {
            Form::Hex => self.sets / 4,
            Form::Counted(_) => self.sets,
        };
        let task = "T\tlongest-name\t\t\n".len() + 50 + useful + self.sets / 4;
        let access = "A\tlongest-name\tlongest-name\t250000000\t\n".len() + useful;
        "K\t256\t100000\t8\n".len() + tasks * task + accesses * access
    }

    /// Whether it may have so many lines for certain.
    pub fn has_room_for(&self, tasks: usize, accesses: usize) -> bool {
        self.length_most(tasks, accesses) + 100 <= TEXT_MOST
    }

    pub fn ways(&self) -> usize {
        self.form.ways()
    }

    pub fn lines(&self) -> Lines {
        let text = self.text();
        let lines = text.split_inclusive(|byte| *byte == b'\n');
        let fields = |line: &[u8]| {
            let fields = line[..line.len() - 1].split(|byte| *byte == b'\t');
            fields.map(Vec::from).collect()
        };
        lines.map(fields).collect()
    }
}

impl Task {
    fn line(&self, form: Form) -> String {
        format!(
            "T\t{}\t{}\t{}\t{}\t{}\t0\t{}\t{}\n",
            self.name,
            self.execution,
            self.period,
            self.deadline,
            self.jitter,
            spelled(&self.useful, form),
            hex(&self.evicting)
        )
    }
}

pub fn text_of(lines: &Lines) -> Vec<u8> {
    let mut text = Vec::new();
    for line in lines {
        text.extend(line.join(&b'\t'));
        text.push(b'\n');
    }
    text
}

fn spelled(counts: &[usize], form: Form) -> String {
    match form {
        Form::Hex => {
            let marks: Vec<bool> = counts.iter().map(|count| *count > 0).collect();
            hex(&marks)
        }
        Form::Counted(_) => {
            let digit = |count: &usize| char::from(b"0123456789"[*count]);
            counts.iter().rev().map(digit).collect()
        }
    }
}

fn hex(sets: &[bool]) -> String {
    let digit = |four: &[bool]| {
        let value = four
            .iter()
            .rev()
            .fold(0, |sum, set| sum * 2 + u32::from(*set));
        char::from_digit(value, 16).unwrap_or('0')
    };
    sets.chunks(4).rev().map(digit).collect()
}

// ---- parts of a table

fn names(random: &mut Random, count: u64) -> Vec<String> {
    let mut names: Vec<String> = Vec::new();
    while (names.len() as u64) < count {
        let length = *random.pick(&[1, 1, 2, 3, 5, 8, 11, 12, 12]);
        let name = any_name(random, length);
        if !names.contains(&name) {
            names.push(name);
        }
    }
    names
}

fn any_name(random: &mut Random, length: u64) -> String {
    const LETTERS: &[u8] = b"abcdefghijklmnopqrstuvwxyz0123456789-";
    let letters = (0..length).map(|_| char::from(*random.pick(LETTERS)));
    letters.collect()
}

/// Gives a task a name of any length.
fn rename(random: &mut Random, table: &mut Table) {
    let length = random.between(1, 12);
    let name = any_name(random, length);
    if table.tasks.iter().all(|task| task.name != name) {
        let renamed = random.below(table.tasks.len());
        table.tasks[renamed].name = name;
    }
}

fn any_sets(random: &mut Random) -> usize {
    4 * match random.below(4) {
        0 => random.between(1, 4) as usize,
        1 => *random.pick(&[1, 15, 16, 17, 31, 32, 33, 47, 48, 49, 63, 64]),
        _ => random.between(1, 64) as usize,
    }
}

fn scattered(random: &mut Random, sets: usize, percent: u64) -> Vec<bool> {
    (0..sets).map(|_| random.chance(percent)).collect()
}

/// A run of `length` cache sets that goes on at set 0 after the last one.
fn block(sets: usize, start: usize, length: usize) -> Vec<bool> {
    (0..sets)
        .map(|set| (set + sets - start) % sets < length)
        .collect()
}

fn any_block(random: &mut Random, sets: usize) -> Vec<bool> {
    let (start, length) = (random.below(sets), random.below(sets + 1));
    block(sets, start, length)
}

/// Hex and counts are about as likely.
fn any_form(random: &mut Random) -> Form {
    if random.chance(50) {
        return Form::Hex;
    }
    let any = random.between(1, WAYS_MOST);
    Form::Counted(*random.pick(&[1, 2, any, any, any, WAYS_MOST]))
}

/// A useful block for each mark, or some.
fn count(random: &mut Random, form: Form, marks: Vec<bool>) -> Vec<usize> {
    let ways = form.ways() as u64;
    let any = random.between(1, ways);
    let (least, most) = *random.pick(&[(1, 1), (any, any), (1, any), (1, ways), (any, ways)]);
    let counts = marks.into_iter().map(|mark| match mark {
        true => random.between(least, most) as usize,
        false => 0,
    });
    counts.collect()
}

fn ones(marks: Vec<bool>) -> Vec<usize> {
    marks.into_iter().map(usize::from).collect()
}

/// Draws the cache sets of every task, in one manner for the whole table.
fn draw_cache(random: &mut Random, table: &mut Table) {
    const DENSITIES: [u64; 6] = [0, 10, 30, 60, 90, 100];
    let in_blocks = random.chance(40);
    let useful = *random.pick(&DENSITIES);
    let evicting = *random.pick(&DENSITIES);
    for task in &mut table.tasks {
        let useful = if in_blocks {
            task.evicting = any_block(random, table.sets);
            any_block(random, table.sets)
        } else {
            task.evicting = scattered(random, table.sets, evicting);
            scattered(random, table.sets, useful)
        };
        task.useful = count(random, table.form, useful);
    }
}

/// A table of `periods` with executions that make up about `load` thousandths of the processor.
fn with_load(
    random: &mut Random,
    sets: usize,
    reload_time: u64,
    periods: &[u64],
    load: u64,
) -> Table {
    let shares: Vec<u64> = periods.iter().map(|_| random.between(1, 1_000)).collect();
    let whole: u64 = shares.iter().sum();
    let names = names(random, periods.len() as u64);
    let tasks = names.into_iter().zip(periods.iter().zip(shares));
    let tasks = tasks.map(|(name, (period, share))| {
        let deadline = if random.chance(50) {
            *period
        } else {
            random.between((*period / 2).max(1), *period)
        };
        let jitter = match random.below(10) {
            0..=5 => 0,
            6..=8 => random.between(0, deadline / 3),
            _ => random.between(0, deadline),
        };
        let execution = period * load / 1_000 * share / whole;
        Task {
            name,
            execution: execution.clamp(1, TIME_MOST),
            period: *period,
            deadline,
            jitter,
            useful: Vec::new(),
            evicting: Vec::new(),
        }
    });
    let tasks = tasks.collect();
    let mut table = Table {
        sets,
        reload_time,
        form: any_form(random),
        tasks,
        accesses: Vec::new(),
    };
    draw_cache(random, &mut table);
    table
}

fn periods(random: &mut Random, count: u64, low: u64, high: u64) -> Vec<u64> {
    let mut periods: Vec<u64> = (0..count).map(|_| random.magnitude(low, high)).collect();
    if random.chance(80) {
        periods.sort_unstable();
    }
    periods
}

#[cfg(test)]
mod tests {
    use super::*;
    use crate::model;

    #[test]
    fn every_family_is_valid() {
        let mut random = Random::new(3);
        for _ in 0..300 {
            let tables = [
                small(&mut random),
                loaded(&mut random),
                largest(&mut random),
                unions(&mut random),
                shared(&mut random),
                crossed(&mut random),
                near_end(&mut random),
                just_in_time(&mut random),
                finely_in_time(&mut random),
                nearly_refused(&mut random),
                by_either_union(&mut random),
                nearly_too_long(&mut random),
                edges(&mut random, TIME_MOST),
                edges(&mut random, 1_000),
                full(&mut random, 1_000),
                published(&mut random, 10, 1.0, 0.7),
                published(&mut random, 32, 500.0, 0.9),
            ];
            for table in tables {
                let text = table.text();
                assert!(model::read(&text).is_ok(), "{}", text.escape_ascii());
            }
        }
    }

    #[test]
    fn the_model_answers_and_explains_with_the_longest_deadlines() {
        let mut random = Random::new(5);
        for _ in 0..1_000 {
            let tables = [
                edges(&mut random, TIME_MOST),
                full(&mut random, TIME_MOST),
                near_end(&mut random),
            ];
            for table in tables {
                let outcome = model::Outcome::of(&table.text(), None);
                let explanations = outcome.explanations();
                for position in 0..table.tasks.len() as u64 {
                    assert!(explanations.explain(5, position).is_ok());
                }
            }
        }
        for (execution, in_time) in [(60, true), (90, false)] {
            let mut table = hardly_a_tick_left(1, TIME_MOST);
            table.tasks[5].execution = execution;
            let outcome = model::Outcome::of(&table.text(), None);
            assert_eq!(outcome.rows()[5].answers[0].is_some(), in_time);
            let table = hardly_a_tick_left_if_blocked(&[29, execution - 1], TIME_MOST);
            let outcome = model::Outcome::of(&table.text(), None);
            assert_eq!(outcome.rows()[5].answers[0].is_some(), in_time);
        }
    }
}
