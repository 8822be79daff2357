//! What partners' lists of bounds have to reach.

use super::Names;
use crate::model::{Checked, Checks, Outcome, Refusal, Table, Word, METHODS};

/// How many accesses may block a task.
const ACCESSES: [&str; 3] = ["none", "one", "several"];

/// A bound that is a number, and what is known of it.
struct Bound {
    number: u64,
    word: Word,
    /// The response by the same method.
    own: Option<u64>,
    limit: u64,
    deadline: u64,
    /// With everything that may block the task, by one of the methods 0 to 4.
    demands: Vec<u64>,
}

impl Bound {
    fn is_within(&self) -> bool {
        self.number <= self.limit
    }

    /// Whether it is larger than the response, or a response at all where there is none.
    fn is_above(&self) -> bool {
        self.own.map_or(false, |own| own < self.number)
    }

    fn demand(&self) -> u64 {
        self.demands.iter().copied().max().unwrap_or(0)
    }

    fn holds(&self) -> bool {
        self.demand() <= self.number
    }

    /// Whether an access has a larger demand.
    fn is_too_small_for(&self, access: usize) -> bool {
        self.demands[access] > self.number
    }
}

/// Of a bound, by how many accesses may block its task.
type OfBound = (&'static str, fn(&Bound) -> bool);

const OF_BOUND: [OfBound; 15] = [
    ("own number", |bound| bound.own == Some(bound.number)),
    ("own number: ok", |bound| {
        bound.own == Some(bound.number) && bound.word == Word::Ok
    }),
    ("own number, at the limit", |bound| {
        bound.own == Some(bound.number) && bound.number == bound.limit
    }),
    ("one less than the own number", |bound| {
        bound.own == Some(bound.number + 1)
    }),
    ("above the own number: ok", |bound| {
        bound.is_above() && bound.word == Word::Ok
    }),
    ("above the own number: not ok within the limit", |bound| {
        bound.is_above() && bound.is_within() && bound.word != Word::Ok
    }),
    ("above the own number, its own demand", |bound| {
        bound.is_above() && bound.demand() == bound.number
    }),
    ("above the own number, a tick below its demand", |bound| {
        bound.is_above() && bound.is_within() && bound.demand() == bound.number + 1
    }),
    ("at the limit: ok", |bound| {
        bound.number == bound.limit && bound.word == Word::Ok
    }),
    ("at the limit: not ok", |bound| {
        bound.number == bound.limit && bound.word != Word::Ok
    }),
    ("a tick past the limit, which its demand is not", |bound| {
        bound.number == bound.limit + 1 && bound.holds()
    }),
    (
        "at the deadline past the limit, with a smaller demand",
        |bound| bound.number == bound.deadline && !bound.is_within() && bound.holds(),
    ),
    ("no response within the limit", |bound| {
        bound.own.is_none() && bound.is_within()
    }),
    ("0", |bound| bound.number == 0),
    ("999,999,999", |bound| bound.number == 999_999_999),
];

/// Of a bound where several accesses may block its task.
const OF_SEVERAL: [OfBound; 5] = [
    ("own number: open", |bound| {
        bound.own == Some(bound.number) && bound.word == Word::Open
    }),
    ("too small for the first alone", |bound| {
        let mut others = 1..bound.demands.len();
        bound.is_too_small_for(0) && others.all(|access| !bound.is_too_small_for(access))
    }),
    ("too small for the last alone", |bound| {
        let last = bound.demands.len() - 1;
        let mut others = 0..last;
        bound.is_too_small_for(last) && others.all(|access| !bound.is_too_small_for(access))
    }),
    ("too small for all", |bound| {
        (0..bound.demands.len()).all(|access| bound.is_too_small_for(access))
    }),
    ("too small for one between alone", |bound| {
        let last = bound.demands.len() - 1;
        let small = (0..=last).filter(|access| bound.is_too_small_for(*access));
        let small: Vec<usize> = small.collect();
        small.len() == 1 && small[0] > 0 && small[0] < last
    }),
];

/// What the unions say of a number, UCB-Union first. What makes it `open` is the same for both, so that one
/// does not say so where the other says `bad`.
const OF_UNIONS: [[Word; 2]; 7] = [
    [Word::Ok, Word::Ok],
    [Word::Ok, Word::Open],
    [Word::Ok, Word::Bad],
    [Word::Open, Word::Ok],
    [Word::Bad, Word::Ok],
    [Word::Open, Word::Open],
    [Word::Bad, Word::Bad],
];

const OF_NONE: [&str; 2] = [
    "- where there is a response",
    "- where there is no response",
];

const OF_LIST: [&str; 4] = [
    "every number ok",
    "every task -",
    "32 tasks",
    "words of 640 bytes",
];

const REFUSED: [&str; 6] = [
    "12 before a refusal of the list",
    "a refusal of the text before 19",
    "a refusal of the text before 20",
    "19 before 14",
    "20 before 14",
    "14",
];

pub fn all() -> Names {
    let mut names = Names::new();
    for (name, _) in OF_BOUND {
        names.extend(ACCESSES.map(|accesses| with(accesses, name)));
    }
    names.extend(OF_SEVERAL.map(|class| with("several", class.0)));
    for word in Word::ALL {
        names.extend((0..METHODS).map(|method| by(method, word)));
    }
    names.extend(OF_UNIONS.map(unions));
    names.extend(OF_NONE.iter().chain(&OF_LIST).map(|name| full(name)));
    names.extend(REFUSED.map(refused));
    names
}

/// By a list that was checked by all methods.
pub fn reached(outcome: &Outcome, list: &[u8], checks: &Checks) -> Names {
    let mut names = Names::new();
    for method in 0..METHODS {
        match checks.check(list, method) {
            Ok(checked) => names.extend(of_checked(outcome, checks, method, &checked)),
            Err(refusal) => {
                names.extend(of_refused(outcome, refusal));
                return names;
            }
        }
    }
    names
}

/// By lists that were written into buffers of every length.
pub fn reached_in_rooms(list: &[u8], checks: &Checks) -> Names {
    let name = match checks.check(list, 0) {
        Ok(_) => "14",
        Err(refusal) if refusal.number == 19 => "19 before 14",
        Err(refusal) if refusal.number == 20 => "20 before 14",
        Err(_) => return Names::new(),
    };
    Names::from([refused(name)])
}

/// By a malformed list, or one with other names, beside a refused text and another method.
fn of_refused(outcome: &Outcome, refusal: Refusal) -> Names {
    match outcome.refusal() {
        None => Names::from([
            refused("12 before a refusal of the list"),
            super::refusal_name(refusal.number),
        ]),
        Some(_) => Names::new(),
    }
}

/// By a refused text, with a list that would be refused with this number.
pub fn reached_beside_refused(number: u64) -> Names {
    Names::from([refused(&format!("a refusal of the text before {number}"))])
}

fn of_checked(outcome: &Outcome, checks: &Checks, method: u64, checked: &Checked) -> Names {
    let (table, rows) = match outcome.table() {
        Some(table) => (table, outcome.rows()),
        None => return Names::new(),
    };
    let mut names = Names::new();
    let words = checked.bounds.iter().zip(&checked.words);
    for (i, (bound, word)) in words.enumerate() {
        names.insert(by(method, *word));
        let own = rows[i].answers[method as usize];
        let number = match bound {
            Some(number) => *number,
            None => {
                names.insert(full(OF_NONE[usize::from(own.is_none())]));
                continue;
            }
        };
        if method == 5 {
            names.extend(checks.of_unions(i, *bound).map(unions));
            continue;
        }
        let bound = Bound {
            number,
            word: *word,
            own,
            limit: rows[i].limit,
            deadline: table.tasks[i].deadline,
            demands: checks.demands(method, i, number),
        };
        let accesses = ACCESSES[accesses_of(table, i).min(2)];
        let reached = OF_BOUND.iter().filter(|class| class.1(&bound));
        names.extend(reached.map(|class| with(accesses, class.0)));
        if accesses == "several" {
            let reached = OF_SEVERAL.iter().filter(|class| class.1(&bound));
            names.extend(reached.map(|class| with(accesses, class.0)));
        }
    }
    let of_list = [
        checked.words.iter().all(|word| *word == Word::Ok),
        checked.bounds.iter().all(Option::is_none),
        checked.bounds.len() == 32,
        checked.text.len() == 640,
    ];
    let reached = OF_LIST.iter().zip(of_list).filter(|(_, holds)| *holds);
    names.extend(reached.map(|(name, _)| full(name)));
    names
}

fn accesses_of(table: &Table, i: usize) -> usize {
    let may_block = table
        .accesses
        .iter()
        .filter(|access| access.ceiling <= i && i < access.task);
    may_block.count()
}

fn full(name: &str) -> String {
    format!("bound: {name}")
}

fn with(accesses: &str, name: &str) -> String {
    full(&format!("{name}, with accesses that may block: {accesses}"))
}

fn by(method: u64, word: Word) -> String {
    full(&format!("method {method}: {}", word.spelled()))
}

fn unions(words: [Word; 2]) -> String {
    let [useful, evicting] = words.map(Word::spelled);
    full(&format!(
        "UCB-Union says {useful}, ECB-Union says {evicting}"
    ))
}

fn refused(name: &str) -> String {
    format!("list refused: {name}")
}
