//! Texts spoiled in or by their access lines.

use super::fields::{
    bad_counts, bad_name, bad_number, bad_sets, raise_count, spoil_count, spoil_shape,
};
use super::{Draft, OF_FIRST_LINE, OF_TASK_LINE};
use crate::model::{Form, Refusal, ACCESSES_MOST, TASKS_MOST};
use crate::random::Random;

/// What may be wrong with an access line.
#[derive(Clone, Copy, Debug, PartialEq, Eq)]
pub enum Wrong {
    Shape,
    Name,
    Number,
    Range,
    Sets,
    Count,
    UnknownTask,
    UnknownCeiling,
    CeilingBelow,
}

use Wrong::{CeilingBelow, Count, Name, Number, Range, Sets, Shape, UnknownCeiling, UnknownTask};

/// In the order in which they are looked for.
const ALL: [Wrong; 9] = [
    Shape,
    Name,
    Number,
    Range,
    Sets,
    Count,
    UnknownTask,
    UnknownCeiling,
    CeilingBelow,
];

impl Wrong {
    fn number(self) -> u64 {
        match self {
            Shape => 3,
            Name => 4,
            Number => 5,
            Range => 6,
            Sets => 7,
            Count => 18,
            UnknownTask | UnknownCeiling | CeilingBelow => 15,
        }
    }

    fn name(self) -> String {
        let number = self.number();
        match self {
            UnknownTask => format!("{number} (unknown task)"),
            UnknownCeiling => format!("{number} (unknown ceiling)"),
            CeilingBelow => format!("{number} (ceiling below)"),
            _ => number.to_string(),
        }
    }

    /// Whether a line can have both, this being the one that decides.
    fn goes_with(self, later: Wrong) -> bool {
        let in_one_field = matches!((self, later), (Number, Range) | (Name, CeilingBelow));
        self.place() < later.place() && self.number() != later.number() && !in_one_field
    }

    fn place(self) -> usize {
        let place = ALL.iter().position(|wrong| *wrong == self);
        place.expect("one of all")
    }
}

#[derive(Clone, Copy)]
pub enum AccessPlan {
    Alone(Wrong),
    /// Two reasons on one access line.
    Pair(Wrong, Wrong),
    /// More than 32 access lines, of which the 33rd may have a reason of its own.
    TooMany(Option<Wrong>),
    /// There is a 33rd access line, but the one before it has a reason.
    BeforeTooMany(Wrong),
    /// A reason on line 1, or on a task line, and one on an access line.
    LineThenAccess(u64, u64, Wrong),
    /// A reason on an access line and one on a later one.
    AccessThenAccess(Wrong, Wrong),
    /// An access line with a reason, and a task line below it.
    AccessThenTask(Wrong),
    /// A task line after an access line, with a reason of its own, if it is not 0.
    TaskAfter(u64),
    /// The same where it is the 33rd task line.
    TooManyAfter(u64),
    /// A line that is neither, after 32 task lines or after 32 access lines.
    OtherAfterTasks,
    OtherAfterAccesses,
    /// An access line before all task lines, with or without a reason of its own.
    FirstOfAll(Option<Wrong>),
    /// Access lines and no task line.
    NoTask,
    /// B above 0 in a table with accesses, and with other reasons.
    Blocked,
    BlockedAndTask(u64),
    BlockedAndAccess(Wrong),
    BlockedAndTooMany,
    BlockedAndTaskAfter,
    /// Refusal 1 or 2, and another.
    WholeText(u64, u64),
}

use AccessPlan::*;

pub fn plans() -> Vec<AccessPlan> {
    let mut plans = vec![
        TooMany(None),
        OtherAfterTasks,
        OtherAfterAccesses,
        FirstOfAll(None),
        NoTask,
        Blocked,
        BlockedAndTooMany,
        BlockedAndTaskAfter,
    ];
    for wrong in ALL {
        plans.extend([Alone(wrong), TooMany(Some(wrong)), BeforeTooMany(wrong)]);
        plans.extend([AccessThenTask(wrong), BlockedAndAccess(wrong)]);
        plans.extend(OF_FIRST_LINE.map(|kind| LineThenAccess(1, kind, wrong)));
        plans.extend(OF_TASK_LINE.map(|kind| LineThenAccess(2, kind, wrong)));
        let later = ALL.into_iter().filter(|later| wrong.goes_with(*later));
        plans.extend(later.map(|later| Pair(wrong, later)));
        let below = [Shape, Sets, UnknownTask];
        plans.extend(below.map(|below| AccessThenAccess(wrong, below)));
    }
    plans.extend([Shape, Name, Number, Range, Sets, Count].map(|wrong| FirstOfAll(Some(wrong))));
    plans.extend([TaskAfter(0), TooManyAfter(0)]);
    plans.extend(OF_TASK_LINE.map(TaskAfter));
    plans.extend(OF_TASK_LINE.map(TooManyAfter));
    plans.extend(OF_TASK_LINE.map(BlockedAndTask));
    for kind in [15, 16, 17] {
        plans.extend([WholeText(1, kind), WholeText(2, kind)]);
    }
    plans
}

impl AccessPlan {
    pub fn name(self) -> String {
        let of = |wrong: Option<Wrong>| wrong.map_or("nothing".to_string(), Wrong::name);
        match self {
            Alone(wrong) => format!("{} on an access line", wrong.name()),
            Pair(one, other) => {
                let (one, other) = (one.name(), other.name());
                format!("{one} and {other} on one access line")
            }
            TooMany(wrong) => format!("16 and {} on one line", of(wrong)),
            BeforeTooMany(wrong) => format!("{} on an access line, 16 below", wrong.name()),
            LineThenAccess(line, kind, wrong) => {
                let line = ["line 1", "a task line"][line as usize - 1];
                format!("{kind} on {line}, {} on an access line", wrong.name())
            }
            AccessThenAccess(one, other) => {
                let (one, other) = (one.name(), other.name());
                format!("{one} on an access line, {other} on a later one")
            }
            AccessThenTask(wrong) => {
                format!("{} on an access line, a task line below", wrong.name())
            }
            TaskAfter(kind) => format!("a task line after an access line, and {kind}"),
            TooManyAfter(kind) => format!("a 33rd task line after an access line, and {kind}"),
            OtherAfterTasks => "another line after 32 task lines".to_string(),
            OtherAfterAccesses => "another line after 32 access lines".to_string(),
            FirstOfAll(wrong) => format!("an access line first, and {}", of(wrong)),
            NoTask => "access lines without a task line".to_string(),
            Blocked => "17 beside accesses".to_string(),
            BlockedAndTask(kind) => format!("17, and {kind} on a task line"),
            BlockedAndAccess(wrong) => format!("17, and {} on an access line", wrong.name()),
            BlockedAndTooMany => "17 and 16".to_string(),
            BlockedAndTaskAfter => "17, and a task line after an access line".to_string(),
            WholeText(one, other) => format!("{one} and {other}"),
        }
    }

    /// Whether it has to be a table with counts.
    pub(super) fn needs_counts(self) -> bool {
        match self {
            Alone(one) | BeforeTooMany(one) | AccessThenTask(one) | BlockedAndAccess(one) => {
                one == Count
            }
            TooMany(one) | FirstOfAll(one) => one == Some(Count),
            Pair(one, other) | AccessThenAccess(one, other) => [one, other].contains(&Count),
            LineThenAccess(_, kind, wrong) => kind == 18 || wrong == Count,
            TaskAfter(kind) | TooManyAfter(kind) | BlockedAndTask(kind) => kind == 18,
            _ => false,
        }
    }

    /// Whether lines are added to the text until there are too many.
    pub(super) fn adds_lines(self) -> bool {
        match self {
            TooMany(_) | BeforeTooMany(_) | TooManyAfter(_) | BlockedAndTooMany => true,
            WholeText(_, kind) => kind == 16,
            OtherAfterTasks | OtherAfterAccesses => true,
            _ => false,
        }
    }

    /// The draft has three task lines and an access line at least.
    pub(super) fn spoil(self, draft: &mut Draft, random: &mut Random) -> Refusal {
        match self {
            Alone(wrong) => {
                let line = draft.any_access(random);
                draft.access(random, line, &[wrong])
            }
            Pair(one, other) => {
                let line = draft.any_access(random);
                draft.access(random, line, &[one, other])
            }
            TooMany(wrong) => {
                let more = random.between(1, 9) as usize;
                draft.fill_accesses(random, ACCESSES_MOST + more);
                let line = draft.tasks + 1 + ACCESSES_MOST + 1;
                if let Some(wrong) = wrong {
                    draft.access_kept(random, line, &[wrong]);
                }
                Refusal::new(16, line as u64)
            }
            BeforeTooMany(wrong) => {
                draft.fill_accesses(random, ACCESSES_MOST + 1);
                let line = draft.tasks + 1 + ACCESSES_MOST;
                draft.access(random, line, &[wrong])
            }
            LineThenAccess(line, kind, wrong) => {
                let below = draft.any_access(random);
                draft.access(random, below, &[wrong]);
                let line = match line {
                    1 => 1,
                    _ => draft.any_line(random),
                };
                draft.line(random, line, &[kind])
            }
            AccessThenAccess(one, other) => {
                draft.fill_accesses(random, 2);
                let first = draft.tasks as u64 + 2;
                let below = random.between(first + 1, draft.lines.len() as u64);
                let above = random.between(first, below - 1);
                draft.access(random, below as usize, &[other]);
                draft.access(random, above as usize, &[one])
            }
            AccessThenTask(wrong) => {
                let line = draft.any_access(random);
                draft.add_task_line(random, line + 1);
                draft.access(random, line, &[wrong])
            }
            TaskAfter(kind) => {
                let line = draft.any_access(random) + 1;
                draft.add_task_line(random, line);
                draft.spoil_misplaced(random, line, kind);
                Refusal::new(3, line as u64)
            }
            TooManyAfter(kind) => {
                draft.fill_up(random, TASKS_MOST);
                let line = draft.any_access(random) + 1;
                draft.add_task_line(random, line);
                draft.spoil_misplaced(random, line, kind);
                Refusal::new(10, line as u64)
            }
            OtherAfterTasks => {
                draft.fill_up(random, TASKS_MOST);
                let line = match random.chance(50) {
                    true => TASKS_MOST + 2,
                    false => draft.any_access(random) + 1,
                };
                draft.add_other_line(random, line)
            }
            OtherAfterAccesses => {
                draft.fill_accesses(random, ACCESSES_MOST);
                let line = draft.lines.len() + 1;
                draft.add_other_line(random, line)
            }
            FirstOfAll(wrong) => {
                let line = draft.any_access(random);
                if let Some(wrong) = wrong {
                    draft.access_kept(random, line, &[wrong]);
                }
                let fields = draft.lines.remove(line - 1);
                draft.lines.insert(1, fields);
                Refusal::new(wrong.map_or(15, Wrong::number), 2)
            }
            NoTask => {
                draft.lines.drain(1..=draft.tasks);
                Refusal::new(15, 2)
            }
            Blocked => draft.block(random),
            BlockedAndTask(kind) => {
                draft.block(random);
                let line = draft.any_line(random);
                draft.line(random, line, &[kind])
            }
            BlockedAndAccess(wrong) => {
                draft.block(random);
                let line = draft.any_access(random);
                draft.access(random, line, &[wrong])
            }
            BlockedAndTooMany => {
                draft.block(random);
                TooMany(None).spoil(draft, random)
            }
            BlockedAndTaskAfter => {
                draft.block(random);
                TaskAfter(0).spoil(draft, random)
            }
            WholeText(one, other) => {
                let plan = match other {
                    15 => Alone(*random.pick(&[UnknownTask, UnknownCeiling, CeilingBelow])),
                    16 => TooMany(None),
                    _ => Blocked,
                };
                plan.spoil(draft, random);
                draft.whole(random, one)
            }
        }
    }
}

impl Draft {
    /// The number of an access line, counted from 1.
    fn any_access(&self, random: &mut Random) -> usize {
        let first = self.tasks as u64 + 2;
        random.between(first, self.lines.len() as u64) as usize
    }

    fn names(&self) -> Vec<Vec<u8>> {
        let tasks = self.lines.iter().filter(|fields| fields[0] == b"T");
        tasks.map(|fields| fields[1].clone()).collect()
    }

    /// With copies of those that are there.
    fn fill_accesses(&mut self, random: &mut Random, accesses: usize) {
        while self.lines.len() < self.tasks + 1 + accesses {
            let line = self.any_access(random);
            self.lines.push(self.lines[line - 1].clone());
        }
    }

    /// Gives an access line a reason for each of `wrongs`, each in fields of its own.
    fn access(&mut self, random: &mut Random, line: usize, wrongs: &[Wrong]) -> Refusal {
        let names = self.names();
        spoil(random, &mut self.lines[line - 1], wrongs, &names, self.form);
        if wrongs.contains(&Shape) {
            spoil_shape(random, &mut self.lines[line - 1]);
        }
        let first = wrongs.iter().min_by_key(|wrong| wrong.place());
        Refusal::new(first.map_or(0, |wrong| wrong.number()), line as u64)
    }

    /// The same, but the first field stays, whatever the reason.
    fn access_kept(&mut self, random: &mut Random, line: usize, wrongs: &[Wrong]) {
        let names = self.names();
        let fields = &mut self.lines[line - 1];
        spoil(random, fields, wrongs, &names, self.form);
        if wrongs.contains(&Shape) {
            spoil_count(random, fields);
        }
    }

    /// A good task line but for its place.
    fn add_task_line(&mut self, random: &mut Random, line: usize) {
        let mut fields = random.pick(&self.lines[1..=self.tasks]).clone();
        fields[1] = b"one-more".to_vec();
        self.lines.insert(line - 1, fields);
    }

    /// A further reason, if there is one, for a task line that stands after an access line.
    fn spoil_misplaced(&mut self, random: &mut Random, line: usize, kind: u64) {
        // for 9 the name may come from an access line, which has a task's name in the same place
        if kind != 0 {
            self.line_kept(random, line, &[kind]);
        }
    }

    /// A line with another first field, but the fields of a task or of an access.
    fn add_other_line(&mut self, random: &mut Random, line: usize) -> Refusal {
        const FIRST: [&str; 9] = ["", "K", "t", "a", "TT", "AA", "T ", "\u{ff}", "x"];
        let like = random.between(1, self.lines.len() as u64 - 1) as usize;
        let mut fields = self.lines[like].clone();
        fields[0] = (*random.pick(&FIRST)).into();
        if random.chance(30) {
            fields.truncate(1);
        }
        self.lines.insert(line - 1, fields);
        Refusal::new(3, line as u64)
    }

    /// Gives one or two tasks a B above 0.
    pub(super) fn block(&mut self, random: &mut Random) -> Refusal {
        let any = random.between(1, self.tasks as u64) as usize;
        let below = random.between(any as u64, self.tasks as u64) as usize;
        let first = *random.pick(&[1, any, any]);
        for task in [first, below] {
            let blocking = random.magnitude(1, 250_000_000);
            self.lines[task][6] = blocking.to_string().into_bytes();
        }
        Refusal::new(17, first as u64 + 1)
    }
}

/// All but another shape.
fn spoil(
    random: &mut Random,
    fields: &mut [Vec<u8>],
    wrongs: &[Wrong],
    names: &[Vec<u8>],
    form: Form,
) {
    if wrongs.contains(&CeilingBelow) {
        let task = random.below(names.len() - 1);
        let any = task + 1 + random.below(names.len() - 1 - task);
        fields[1] = names[task].clone();
        fields[2] = names[*random.pick(&[task + 1, any, names.len() - 1])].clone();
    }
    if wrongs.contains(&UnknownTask) {
        fields[1] = unknown_name(random, names);
    }
    if wrongs.contains(&UnknownCeiling) {
        fields[2] = unknown_name(random, names);
    }
    if wrongs.contains(&Name) {
        let at = match wrongs {
            _ if wrongs.contains(&UnknownTask) => 2,
            _ if wrongs.contains(&UnknownCeiling) => 1,
            _ => *random.pick(&[1, 2]),
        };
        fields[at] = bad_name(random);
    }
    if wrongs.contains(&Number) {
        fields[3] = bad_number(random, &fields[3]);
    }
    if wrongs.contains(&Range) {
        let past = ["0", "250000001", "250000002", "999999999"];
        fields[3] = (*random.pick(&past)).into();
    }
    if wrongs.contains(&Count) {
        raise_count(random, &mut fields[4], wrongs.contains(&Sets));
    }
    if wrongs.contains(&Sets) {
        fields[4] = match form {
            Form::Hex => bad_sets(random, &fields[4]),
            Form::Counted(_) => bad_counts(random, &fields[4]),
        };
    }
}

/// A good name that no task has: one of theirs with a byte more, fewer or changed, or another.
fn unknown_name(random: &mut Random, names: &[Vec<u8>]) -> Vec<u8> {
    loop {
        let mut name = random.pick(names).clone();
        match random.below(4) {
            0 if name.len() < 12 => name.push(*random.pick(b"a0-")),
            1 if name.len() > 1 => {
                name.pop();
            }
            2 => *name.last_mut().expect("no name is empty") = *random.pick(b"xyz-09"),
            _ => name = b"nobody".to_vec(),
        }
        if !names.contains(&name) {
            return name;
        }
    }
}
