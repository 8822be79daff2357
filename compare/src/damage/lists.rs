//! Lists of bounds that are refused for a known reason.

use super::fields::{bad_name, bad_number};
use crate::generate::{text_of, Lines};
use crate::model::Refusal;
use crate::random::Random;

/// Why a line of a list is malformed.
#[derive(Clone, Copy, PartialEq, Eq)]
pub enum Malformed {
    /// Its first field is not `R`.
    Mark,
    /// It has another number of fields than three.
    Fields,
    Name,
    Number,
    /// It is not ended by LF, and so the last one.
    Unended,
}

use Malformed::{Fields, Mark, Name, Number, Unended};

const MALFORMED: [(Malformed, &str); 5] = [
    (Mark, "mark"),
    (Fields, "number of fields"),
    (Name, "name"),
    (Number, "number"),
    (Unended, "end"),
];

/// How a list is spoiled. Where two refusals have their reason, the order decides.
#[derive(Clone, Copy)]
pub enum ListPlan {
    /// A malformed line.
    Malformed(Malformed),
    /// A line with the name of another task.
    Other,
    /// A line with a name of no task.
    Unknown,
    /// Two lines have changed places.
    Exchanged,
    /// No line at all.
    Empty,
    Missing,
    /// Good lines after the last task's.
    Surplus,
    /// Many more of them than a table has tasks.
    Long,
    /// After the last task's line a malformed one.
    SurplusMalformed(Malformed),
    /// After the last task's line a very long one.
    SurplusEndless,
    /// Another name on a line that is malformed as well.
    OtherMalformed(Malformed),
    /// A malformed line above one with another name.
    MalformedThenOther(Malformed),
    /// A line with another name above a malformed one.
    OtherThenMalformed(Malformed),
    /// A malformed line, and one missing.
    MalformedAndMissing(Malformed),
    /// A line with another name, and one missing.
    OtherAndMissing,
    /// A malformed line, and one too many.
    MalformedAndSurplus(Malformed),
    /// A line with another name, and one too many.
    OtherAndSurplus,
}

/// A spoiled list, how it was spoiled, and the refusal it has to meet.
pub struct SpoiledList {
    pub list: Vec<u8>,
    pub plan: String,
    pub refusal: Refusal,
}

pub fn list_plans() -> Vec<ListPlan> {
    let mut plans = vec![
        ListPlan::Other,
        ListPlan::Unknown,
        ListPlan::Exchanged,
        ListPlan::Empty,
        ListPlan::Missing,
        ListPlan::Surplus,
        ListPlan::Long,
        ListPlan::SurplusEndless,
        ListPlan::OtherAndMissing,
        ListPlan::OtherAndSurplus,
    ];
    for (malformed, _) in MALFORMED {
        plans.push(ListPlan::Malformed(malformed));
        plans.push(ListPlan::SurplusMalformed(malformed));
        plans.push(ListPlan::OtherThenMalformed(malformed));
        plans.push(ListPlan::MalformedAndMissing(malformed));
        // no name is both bad and that of another task
        if malformed != Name {
            plans.push(ListPlan::OtherMalformed(malformed));
        }
        // nothing stands below a line without an end
        if malformed != Unended {
            plans.push(ListPlan::MalformedThenOther(malformed));
            plans.push(ListPlan::MalformedAndSurplus(malformed));
        }
    }
    plans
}

impl ListPlan {
    pub fn name(self) -> String {
        let what = |malformed: Malformed| {
            let row = MALFORMED.iter().find(|row| row.0 == malformed);
            row.map_or("", |row| row.1)
        };
        match self {
            ListPlan::Malformed(why) => format!("list: 19 for its {}", what(why)),
            ListPlan::Other => "list: 20 for the name of another task".to_string(),
            ListPlan::Unknown => "list: 20 for a name of no task".to_string(),
            ListPlan::Exchanged => "list: 20 for two lines changed round".to_string(),
            ListPlan::Empty => "list: 20 for no line".to_string(),
            ListPlan::Missing => "list: 20 for a missing line".to_string(),
            ListPlan::Surplus => "list: 20 for a surplus line".to_string(),
            ListPlan::Long => "list: 20 for very many lines".to_string(),
            ListPlan::SurplusMalformed(why) => {
                format!("list: 19 for the {} of a surplus line", what(why))
            }
            ListPlan::SurplusEndless => "list: 19 for a very long surplus line".to_string(),
            ListPlan::OtherMalformed(why) => {
                format!("list: 19 for its {}, and 20, on one line", what(why))
            }
            ListPlan::MalformedThenOther(why) => {
                format!("list: 19 for its {}, 20 below", what(why))
            }
            ListPlan::OtherThenMalformed(why) => {
                format!("list: 20, 19 for its {} below", what(why))
            }
            ListPlan::MalformedAndMissing(why) => {
                format!("list: 19 for its {}, and a missing line", what(why))
            }
            ListPlan::OtherAndMissing => "list: 20 for a name, and a missing line".to_string(),
            ListPlan::MalformedAndSurplus(why) => {
                format!("list: 19 for its {}, and a surplus line", what(why))
            }
            ListPlan::OtherAndSurplus => "list: 20 for a name, and a surplus line".to_string(),
        }
    }

    /// Spoils a good list of three lines or more.
    pub fn spoil(self, random: &mut Random, good: &Lines) -> SpoiledList {
        let tasks = good.len();
        let mut draft = Draft {
            lines: good.clone(),
            unended: false,
        };
        let any = random.below(tasks);
        let (above, below) = pair(random, tasks);
        let told = match self {
            ListPlan::Malformed(why) => draft.malform(random, any, why),
            ListPlan::Other => draft.other(random, any, good),
            ListPlan::Unknown => draft.unknown(random, any),
            ListPlan::Exchanged => {
                draft.lines.swap(above, below);
                (20, above)
            }
            ListPlan::Empty => {
                draft.lines.clear();
                (20, 0)
            }
            ListPlan::Missing => {
                let left = random.between(1, tasks as u64 - 1) as usize;
                draft.lines.truncate(left);
                (20, left)
            }
            ListPlan::Surplus => {
                let more = random.between(1, 3);
                draft.surplus(random, more as usize);
                (20, tasks)
            }
            ListPlan::Long => {
                let more = random.between(1_000, 3_000);
                draft.surplus(random, more as usize);
                (20, tasks)
            }
            ListPlan::SurplusMalformed(why) => {
                draft.surplus(random, 1);
                draft.malform(random, tasks, why)
            }
            ListPlan::SurplusEndless => {
                draft.surplus(random, 1);
                let field = random.below(3);
                draft.lines[tasks][field].resize(50_000, b'1');
                draft.unended = random.chance(50);
                (19, tasks)
            }
            ListPlan::OtherMalformed(why) => {
                draft.other(random, any, good);
                draft.malform(random, any, why)
            }
            ListPlan::MalformedThenOther(why) => {
                draft.other(random, below, good);
                draft.malform(random, above, why)
            }
            ListPlan::OtherThenMalformed(why) => {
                draft.malform(random, below, why);
                draft.other(random, above, good)
            }
            ListPlan::MalformedAndMissing(why) => {
                let left = random.between(1, tasks as u64 - 1) as usize;
                draft.lines.truncate(left);
                let any = random.below(left);
                draft.malform(random, any, why)
            }
            ListPlan::OtherAndMissing => {
                let left = random.between(1, tasks as u64 - 1) as usize;
                draft.lines.truncate(left);
                let any = random.below(left);
                draft.other(random, any, good)
            }
            ListPlan::MalformedAndSurplus(why) => {
                draft.surplus(random, 1);
                draft.malform(random, any, why)
            }
            ListPlan::OtherAndSurplus => {
                draft.surplus(random, 1);
                draft.other(random, any, good)
            }
        };
        SpoiledList {
            list: draft.text(),
            plan: self.name(),
            refusal: Refusal::new(told.0, told.1 as u64 + 1),
        }
    }
}

/// Two places, the first one above the other.
fn pair(random: &mut Random, tasks: usize) -> (usize, usize) {
    let below = random.between(1, tasks as u64 - 1) as usize;
    (random.below(below), below)
}

/// The number of a refusal, and the place of the line told, counted from 0.
type Told = (u64, usize);

/// A list in the making.
struct Draft {
    lines: Lines,
    unended: bool,
}

impl Draft {
    fn text(&self) -> Vec<u8> {
        let mut text = text_of(&self.lines);
        if self.unended {
            text.pop();
        }
        text
    }

    fn malform(&mut self, random: &mut Random, place: usize, why: Malformed) -> Told {
        const MARKS: [&str; 10] = ["", "r", "RR", " R", "R ", "C", "T", "V", "X", "\0"];
        let fields = &mut self.lines[place];
        match why {
            Mark => fields[0] = (*random.pick(&MARKS)).into(),
            Fields => match random.below(5) {
                0 => fields.push(Vec::new()),
                1 => fields.push(b"0".to_vec()),
                2 => fields.truncate(2),
                3 => fields.truncate(1),
                _ => *fields = vec![Vec::new()],
            },
            Name => fields[1] = bad_name(random),
            Number => {
                let good = match &fields[2][..] {
                    b"-" => b"5".to_vec(),
                    number => number.to_vec(),
                };
                let no_number: [&[u8]; 4] = [b"--", b"- ", b"-\r", b"beyond"];
                fields[2] = match random.chance(20) {
                    true => random.pick(&no_number).to_vec(),
                    false => bad_number(random, &good),
                };
            }
            Unended => {
                self.lines.truncate(place + 1);
                self.unended = true;
            }
        }
        (19, place)
    }

    /// Gives a line the name of another task.
    fn other(&mut self, random: &mut Random, place: usize, good: &Lines) -> Told {
        let other = (place + random.between(1, good.len() as u64 - 1) as usize) % good.len();
        self.lines[place][1] = good[other][1].clone();
        (20, place)
    }

    /// Gives a line a name that no task has: a byte more or less, or another one.
    fn unknown(&mut self, random: &mut Random, place: usize) -> Told {
        let names: Vec<Vec<u8>> = self.lines.iter().map(|line| line[1].clone()).collect();
        loop {
            let mut name = names[place].clone();
            match random.below(3) {
                0 if name.len() < 12 => name.push(*random.pick(b"a0-")),
                1 if name.len() > 1 => {
                    name.pop();
                }
                _ => {
                    let at = random.below(name.len());
                    name[at] = *random.pick(b"abcxyz059-");
                }
            }
            if !names.contains(&name) {
                self.lines[place][1] = name;
                return (20, place);
            }
        }
    }

    fn surplus(&mut self, random: &mut Random, more: usize) {
        for _ in 0..more {
            let line = random.pick(&self.lines).clone();
            self.lines.push(line);
        }
    }
}
