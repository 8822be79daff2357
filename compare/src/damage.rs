//! Made-up texts that are refused: for a known reason, or altered at random.

mod accesses;
mod altered;
mod deadlines;
mod fields;
mod lists;
mod replays;

pub use altered::{about_longest, altered};
pub use deadlines::{deadline_plans, DeadlinePlan};
pub use lists::{list_plans, ListPlan, SpoiledList};
pub use replays::{replay_plans, ReplayPlan};

use crate::generate::{text_of, Access, Lines, Table, BASES};
use crate::model::{Form, Refusal, ACCESSES_MOST, TASKS_MOST, TEXT_MOST};
use crate::random::Random;
use accesses::AccessPlan;
use fields::spoil_fields;

/// The refusals of a line by what stands in it, in the order in which they are looked for.
const OF_FIRST_LINE: [u64; 3] = [3, 5, 6];
const OF_TASK_LINE: [u64; 8] = [3, 4, 5, 6, 7, 18, 8, 9];

/// More lines than a text may have that is spoiled by its number of lines.
const MANY_TASKS: usize = 60;
const MANY_ACCESSES: usize = ACCESSES_MOST + 10;

/// How a text is spoiled. Where two refusals have their reason, the order decides.
#[derive(Clone, Copy)]
pub enum Plan {
    Alone(u64),
    OnFirstLine(u64),
    /// So many ways, which is out of range.
    Ways(u64),
    /// So many fields on line 1.
    FieldsOfFirstLine(usize),
    /// Two reasons on line 1.
    PairOnFirstLine(u64, u64),
    /// Two reasons on one task line.
    Pair(u64, u64),
    /// A reason on line 1 and one below it.
    FirstThenTask(u64, u64),
    /// A reason on a task line and one on a later one.
    TaskThenTask(u64, u64),
    /// Refusal 1 or 2, and a reason among the lines.
    WholeText(u64, u64),
    /// Too long, and without LF at its end.
    LongAndUnended,
    /// The 33rd task line has a reason of its own.
    TooMany(u64),
    /// There is a 33rd task line, but the one before it has a reason.
    BeforeTooMany(u64),
    /// No task line, and a reason on line 1.
    NoTask(u64),
    /// Something about access lines.
    OfAccesses(AccessPlan),
}

/// A spoiled text, how it was spoiled, and the refusal it has to meet.
pub struct Spoiled {
    pub text: Vec<u8>,
    pub plan: String,
    pub refusal: Refusal,
}

pub fn plans() -> Vec<Plan> {
    let mut plans: Vec<Plan> = (1..=11).chain([17, 18]).map(Plan::Alone).collect();
    plans.push(Plan::LongAndUnended);
    plans.extend([0, 9, 10].map(Plan::Ways));
    plans.extend([1, 2, 5, 6].map(Plan::FieldsOfFirstLine));
    for kind in (3..=11).chain([18]) {
        plans.push(Plan::WholeText(1, kind));
        plans.push(Plan::WholeText(2, kind));
    }
    for (place, kind) in OF_FIRST_LINE.iter().enumerate() {
        plans.push(Plan::OnFirstLine(*kind));
        plans.push(Plan::NoTask(*kind));
        for later in &OF_FIRST_LINE[place + 1..] {
            plans.push(Plan::PairOnFirstLine(*kind, *later));
        }
        for below in OF_TASK_LINE {
            plans.push(Plan::FirstThenTask(*kind, below));
        }
    }
    for (place, kind) in OF_TASK_LINE.iter().enumerate() {
        plans.push(Plan::TooMany(*kind));
        plans.push(Plan::BeforeTooMany(*kind));
        // no name is both bad and on an earlier line that was accepted
        let together = |later: &&u64| (*kind, **later) != (4, 9);
        for later in OF_TASK_LINE[place + 1..].iter().filter(together) {
            plans.push(Plan::Pair(*kind, *later));
        }
        for below in OF_TASK_LINE {
            plans.push(Plan::TaskThenTask(*kind, below));
        }
    }
    plans.extend(accesses::plans().into_iter().map(Plan::OfAccesses));
    plans
}

impl Plan {
    pub fn name(self) -> String {
        match self {
            Plan::Alone(kind) => format!("{kind} alone"),
            Plan::OnFirstLine(kind) => format!("{kind} on line 1"),
            Plan::Ways(ways) => format!("6 for {ways} ways"),
            Plan::FieldsOfFirstLine(count) => format!("3 for {count} fields on line 1"),
            Plan::PairOnFirstLine(one, other) => format!("{one} and {other} on line 1"),
            Plan::Pair(one, other) => format!("{one} and {other} on one task line"),
            Plan::FirstThenTask(one, other) => format!("{one} on line 1, {other} below"),
            Plan::TaskThenTask(one, other) => format!("{one} on a task line, {other} below"),
            Plan::WholeText(one, other) => format!("{one} and {other}"),
            Plan::LongAndUnended => "1 and 2".to_string(),
            Plan::TooMany(kind) => format!("10 and {kind} on line 34"),
            Plan::BeforeTooMany(kind) => format!("{kind} on line 33, 10 on line 34"),
            Plan::NoTask(kind) => format!("{kind} and 11"),
            Plan::OfAccesses(plan) => plan.name(),
        }
    }

    /// Whether it has to be a table with counts.
    fn needs_counts(self) -> bool {
        match self {
            Plan::Ways(_) => true,
            Plan::Alone(one) | Plan::TooMany(one) | Plan::BeforeTooMany(one) => one == 18,
            Plan::Pair(one, other) | Plan::TaskThenTask(one, other) => [one, other].contains(&18),
            Plan::FirstThenTask(_, other) | Plan::WholeText(_, other) => other == 18,
            Plan::OfAccesses(plan) => plan.needs_counts(),
            _ => false,
        }
    }

    /// Whether lines are added to the text until there are too many.
    fn adds_lines(self) -> bool {
        match self {
            Plan::Alone(kind) | Plan::WholeText(_, kind) => kind == 10,
            Plan::TooMany(_) | Plan::BeforeTooMany(_) => true,
            Plan::OfAccesses(plan) => plan.adds_lines(),
            _ => false,
        }
    }

    pub fn spoil(self, random: &mut Random) -> Spoiled {
        let needs_accesses = matches!(self, Plan::OfAccesses(_));
        let mut draft = Draft::of_table(random, |table| {
            let many = table.has_room_for(MANY_TASKS, MANY_ACCESSES);
            table.tasks.len() >= 3
                && !(needs_accesses && table.accesses.is_empty())
                && !(self.needs_counts() && table.form == Form::Hex)
                && !(matches!(self, Plan::Alone(17)) && !table.accesses.is_empty())
                && !(self.adds_lines() && table.form != Form::Hex && !many)
        });
        let refusal = match self {
            Plan::Alone(kind) => draft.alone(random, kind),
            Plan::OnFirstLine(kind) => draft.line(random, 1, &[kind]),
            Plan::Ways(ways) => {
                draft.lines[0][3] = ways.to_string().into_bytes();
                Refusal::new(6, 1)
            }
            Plan::FieldsOfFirstLine(count) => {
                draft.lines[0].resize(count, b"1".to_vec());
                Refusal::new(3, 1)
            }
            Plan::PairOnFirstLine(one, other) => draft.line(random, 1, &[one, other]),
            Plan::Pair(one, other) => {
                let line = draft.any_line(random);
                draft.line(random, line, &[one, other])
            }
            Plan::FirstThenTask(one, other) => {
                let below = draft.any_line(random);
                draft.line(random, below, &[other]);
                draft.line(random, 1, &[one])
            }
            Plan::TaskThenTask(one, other) => {
                let below = random.between(4, draft.tasks as u64 + 1);
                let above = random.between(3, below - 1);
                draft.line(random, below as usize, &[other]);
                draft.line(random, above as usize, &[one])
            }
            Plan::WholeText(one, other) => {
                draft.alone(random, other);
                draft.whole(random, one)
            }
            Plan::LongAndUnended => {
                draft.unended = true;
                draft.whole(random, 1)
            }
            Plan::TooMany(kind) => {
                draft.fill_up(random, TASKS_MOST + 1);
                draft.line_kept(random, TASKS_MOST + 2, &[kind]);
                Refusal::new(10, TASKS_MOST as u64 + 2)
            }
            Plan::BeforeTooMany(kind) => {
                draft.fill_up(random, TASKS_MOST + 1);
                draft.line(random, TASKS_MOST + 1, &[kind])
            }
            Plan::NoTask(kind) => {
                draft.lines.truncate(1);
                draft.line(random, 1, &[kind])
            }
            Plan::OfAccesses(plan) => plan.spoil(&mut draft, random),
        };
        Spoiled {
            text: draft.text(),
            plan: self.name(),
            refusal,
        }
    }
}

/// A text in the making, valid at first.
struct Draft {
    /// Line 1, the task lines and the access lines.
    lines: Lines,
    /// How many task lines there are.
    tasks: usize,
    form: Form,
    too_long_by: Option<u64>,
    unended: bool,
    emptied: bool,
}

impl Draft {
    fn of_table(random: &mut Random, is_wanted: impl Fn(&Table) -> bool) -> Draft {
        let table = loop {
            let base = random.pick(&BASES);
            let table = base(random);
            if is_wanted(&table) {
                break table;
            }
        };
        Draft {
            lines: table.lines(),
            tasks: table.tasks.len(),
            form: table.form,
            too_long_by: None,
            unended: false,
            emptied: false,
        }
    }

    fn text(&self) -> Vec<u8> {
        let mut text = text_of(&self.lines);
        if let Some(surplus) = self.too_long_by {
            text.resize(TEXT_MOST + surplus as usize, b'\n');
        }
        if self.unended {
            text.pop();
            if text.last() == Some(&b'\n') {
                text.push(b'x');
            }
        }
        if self.emptied {
            text.clear();
        }
        text
    }

    /// The number of a task line below the first task line, counted from 1.
    fn any_line(&self, random: &mut Random) -> usize {
        random.between(3, self.tasks as u64 + 1) as usize
    }

    fn fill_up(&mut self, random: &mut Random, tasks: usize) {
        while self.tasks < tasks {
            let mut line = random.pick(&self.lines[1..=self.tasks]).clone();
            line[1] = format!("more-{}", self.tasks).into_bytes();
            self.tasks += 1;
            self.lines.insert(self.tasks, line);
        }
    }

    fn alone(&mut self, random: &mut Random, kind: u64) -> Refusal {
        match kind {
            2 if random.chance(10) => {
                self.emptied = true;
                Refusal::new(2, 0)
            }
            1 | 2 => self.whole(random, kind),
            10 => {
                let tasks = random.between(33, MANY_TASKS as u64) as usize;
                self.fill_up(random, tasks);
                Refusal::new(10, 34)
            }
            11 => {
                self.lines.truncate(1);
                Refusal::new(11, 1)
            }
            17 => self.block(random),
            _ => {
                let line = self.any_line(random);
                self.line(random, line, &[kind])
            }
        }
    }

    fn whole(&mut self, random: &mut Random, kind: u64) -> Refusal {
        if kind == 1 {
            self.too_long_by = Some(random.magnitude(1, 9_000));
        } else {
            self.unended = true;
        }
        Refusal::new(kind, 0)
    }

    /// Gives a line reason for each of `kinds`, each in fields of its own.
    fn line(&mut self, random: &mut Random, line: usize, kinds: &[u64]) -> Refusal {
        if kinds.contains(&3) {
            let others: Vec<u64> = kinds.iter().copied().filter(|kind| *kind != 3).collect();
            self.line_kept(random, line, &others);
            fields::spoil_shape(random, &mut self.lines[line - 1]);
        } else {
            self.line_kept(random, line, kinds);
        }
        let first = OF_TASK_LINE.iter().find(|kind| kinds.contains(kind));
        Refusal::new(first.copied().unwrap_or(0), line as u64)
    }

    /// The same, but the first field stays, whatever the reason.
    fn line_kept(&mut self, random: &mut Random, line: usize, kinds: &[u64]) {
        let earlier = self.lines[1.min(line - 1)..line - 1].to_vec();
        let fields = &mut self.lines[line - 1];
        let mut free: Vec<usize> = (1..fields.len()).collect();
        if kinds.contains(&18) {
            fields::raise_count(random, &mut fields[7], kinds.contains(&7));
        }
        for kind in [8, 9, 4, 5, 6, 7, 3] {
            if kinds.contains(&kind) {
                spoil_fields(random, fields, &mut free, kind, &earlier, self.form);
            }
        }
    }
}

/// Gives a table a few accesses, of any of its tasks and with any ceilings that they may have.
fn add_accesses(random: &mut Random, table: &mut Table) {
    for _ in 0..random.between(1, 3) {
        let task = random.below(table.tasks.len());
        table.accesses.push(Access {
            task,
            ceiling: random.below(task + 1),
            length: random.between(1, 9),
            useful: vec![0; table.sets],
        });
    }
}
