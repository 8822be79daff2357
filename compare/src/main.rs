//! Compares the library with the model. See README.md.

#![no_main]

use crpd_compare::checks::{self, Check, Difference, ValueCheck};
use crpd_compare::classes::{self, Classes};
use crpd_compare::generate::{self, Table};
use crpd_compare::groups::Group;
use crpd_compare::model::value::Value;
use crpd_compare::model::{read, Outcome, Part, Refusal, Writing};
use crpd_compare::options::{self, Options};
use crpd_compare::random::Random;
use crpd_compare::shrink::{shrink, shrink_value};
use crpd_compare::{damage, figures, library, values};

#[path = "main/deadlines.rs"]
mod deadlines;
#[path = "main/growths.rs"]
mod growths;
#[path = "main/laws.rs"]
mod laws;
#[path = "main/lists.rs"]
mod lists;
#[path = "main/pool.rs"]
mod pool;
#[path = "main/replays.rs"]
mod replays;
#[path = "main/sums.rs"]
mod sums;

crpd_compare::entry!(run);

const SEED: u64 = 0x5eed;

fn run(words: &[String]) -> i32 {
    let options = match Options::parse(words) {
        Some(options) => options,
        None => {
            eprintln!("{}", options::USAGE);
            return 2;
        }
    };
    println!(
        "the model against the {} code, seed {SEED:#x}",
        library::NAME
    );
    let mut comparison = Comparison {
        options,
        random: Random::new(SEED),
        classes: Classes::new(),
        order: Group::new("methods beside each other"),
        passed: 0,
        failed: 0,
    };
    comparison.run();
    println!("{} passed, {} failed", comparison.passed, comparison.failed);
    i32::from(comparison.failed != 0)
}

struct Comparison {
    options: Options,
    random: Random,
    classes: Classes,
    /// Of every text that is answered.
    order: Group,
    passed: u64,
    failed: u64,
}

/// Makes a table up.
type Draw<'a> = &'a dyn Fn(&mut Random) -> Table;

struct ValidTexts {
    common: Vec<Vec<u8>>,
    /// At the ends of the ranges.
    extreme: Vec<Vec<u8>>,
    /// The longest to write, and the hardest to answer.
    worst: Vec<Vec<u8>>,
}

impl ValidTexts {
    fn all(&self) -> impl Iterator<Item = &Vec<u8>> {
        self.common.iter().chain(&self.extreme).chain(&self.worst)
    }

    /// Those to be written into many buffers.
    fn short(&self) -> Vec<Vec<u8>> {
        let short = self.common.iter().filter(|text| text.len() < 400);
        short.cloned().collect()
    }
}

impl Comparison {
    fn run(&mut self) {
        if let Some(error) = self.options.error {
            // a wrong model has to be told by the made-up tables alone
            let valid = self.valid_texts();
            match error.part() {
                Part::Reading => {
                    self.spoiled_texts();
                }
                Part::Answering => {}
                Part::Explaining => self.explanations(&valid, &[]),
                Part::Writing => {
                    self.rewritten(&valid, &[]);
                    self.values(&valid);
                    self.value_rooms(&valid);
                }
                Part::Growing => {
                    let spoiled = self.spoiled_texts();
                    self.growths(&valid, &spoiled);
                }
                Part::Summing => self.sums(&valid),
                Part::Working => self.workers(&valid, &[]),
                Part::Relating => {
                    self.lines_more();
                    self.lines_changed();
                }
                Part::ByDeadline => self.by_deadlines(&valid, &[]),
                Part::Replaying => self.replays(&valid, &[]),
                Part::Checking => {
                    self.bounds(&valid);
                    self.refused_lists(&valid, &[b"K\n".to_vec()]);
                }
            }
            self.close(self.order.clone());
            return;
        }
        self.figures();
        let valid = self.valid_texts();
        let spoiled = self.spoiled_texts();
        let altered = self.altered_texts(&valid);
        let refused = [spoiled, altered].concat();
        self.answers(&valid, &refused);
        self.rooms(&valid, &refused);
        self.explanations(&valid, &refused);
        self.explanation_rooms(&valid, &refused);
        self.rewritten(&valid, &refused);
        self.rewritten_rooms(&valid, &refused);
        self.values(&valid);
        self.value_rooms(&valid);
        self.value_lists();
        self.growths(&valid, &refused);
        self.growth_ends(&valid, &refused);
        self.scaled_rooms(&refused);
        self.sums(&valid);
        self.laws_of_sets();
        self.workers(&valid, &refused);
        self.pool(&valid, &refused);
        self.lines_more();
        self.lines_changed();
        self.bounds(&valid);
        self.refused_lists(&valid, &refused);
        self.list_rooms(&valid, &refused);
        self.by_deadlines(&valid, &refused);
        self.replays(&valid, &refused);
        self.close(self.order.clone());
        if self.options.percent == 100 {
            self.class_counts();
        }
    }

    fn figures(&mut self) {
        let mut group = Group::new("worked figures");
        for figure in figures::all() {
            group.texts += 1;
            let outcome = Outcome::of(&figure.text, self.options.error);
            for (who, agrees) in figure.verdicts(&outcome) {
                group.compared += 1;
                if !agrees {
                    group.differences += 1;
                    println!("mismatch: worked figure \"{}\": {who} differs", figure.name);
                }
            }
        }
        self.close(group);
    }

    fn valid_texts(&mut self) -> ValidTexts {
        let longest = self.options.longest;
        let common = self.drawn(&[
            (2_200, &generate::small),
            (1_700, &generate::loaded),
            (1_300, &generate::unions),
            (1_200, &generate::shared),
            (300, &generate::crossed),
            (1_800, &generate::near_limit),
            (700, &generate::near_end),
        ]);
        let extreme = self.drawn(&[
            (1_000, &|random| generate::edges(random, longest)),
            (200, &|random| generate::full(random, longest)),
            (30, &generate::largest),
            (30, &generate::longest_counted),
            (20, &generate::nearly_too_long),
        ]);
        let mut worst = vec![
            figures::longest_report(),
            figures::longest_explanation(),
            figures::longest_table(),
            figures::longest_with_accesses(),
            figures::longest_with_counts(),
            figures::longest_counted_explanation(),
        ];
        if self.options.error.is_none() {
            worst.extend(hard_texts(longest));
        }
        let valid = ValidTexts {
            common,
            extreme,
            worst,
        };
        let mut group = Group::new("valid texts");
        for text in valid.all() {
            let outcome = self.compare(&mut group, checks::whole, text);
            self.reach_valid(text, &outcome);
            self.beside(text, &outcome);
        }
        self.close(group);
        valid
    }

    fn drawn(&mut self, families: &[(u64, Draw)]) -> Vec<Vec<u8>> {
        let mut texts = Vec::new();
        for (count, family) in families {
            let share = self.options.share(*count);
            texts.extend((0..share).map(|_| family(&mut self.random).text()));
        }
        texts
    }

    fn reach_valid(&mut self, text: &[u8], outcome: &Outcome) {
        match outcome.table() {
            Some(table) => self.classes.reach_table(table, outcome.rows()),
            // by an error of reading
            None if self.options.error.is_some() => {}
            None => panic!("a made-up table is refused: {}", text.escape_ascii()),
        }
    }

    fn spoiled_texts(&mut self) -> Vec<Vec<u8>> {
        let mut group = Group::new("texts spoiled for a known reason");
        let mut reasons = Group::new("refusals as the spoiling meant them");
        let mut texts = Vec::new();
        for plan in damage::plans() {
            self.classes.require(&plan.name());
            for _ in 0..self.options.share(40) {
                let spoiled = plan.spoil(&mut self.random);
                let outcome = self.compare(&mut group, checks::whole, &spoiled.text);
                let as_meant = outcome.refusal() == Some(spoiled.refusal);
                if as_meant {
                    self.classes.reach(&spoiled.plan);
                }
                if reasons.differs(as_meant) {
                    tell_wrong_reason(&spoiled, outcome.refusal());
                }
                texts.push(spoiled.text);
            }
        }
        self.close(group);
        self.close(reasons);
        texts
    }

    fn altered_texts(&mut self, valid: &ValidTexts) -> Vec<Vec<u8>> {
        let mut group = Group::new("texts altered at random");
        let mut texts = Vec::new();
        for _ in 0..self.options.share(6_000) {
            let text = self.random.pick(&valid.common);
            texts.push(damage::altered(&mut self.random, text));
        }
        for _ in 0..self.options.share(500) {
            texts.push(damage::about_longest(&mut self.random));
        }
        for text in &texts {
            let outcome = self.compare(&mut group, checks::whole, text);
            match outcome.refusal() {
                Some(refusal) => self.classes.reach_refusal(refusal.number),
                None => self.beside(text, &outcome),
            }
        }
        self.close(group);
        texts
    }

    fn answers(&mut self, valid: &ValidTexts, refused: &[Vec<u8>]) {
        let mut group = Group::new("single answers");
        let texts = spread(&valid.common, 1_800).chain(spread(&valid.extreme, 200));
        for text in texts.chain(&valid.worst).chain(spread(refused, 600)) {
            let outcome = self.compare(&mut group, checks::answers, text);
            self.reach_answers(&outcome);
        }
        self.close(group);
    }

    fn reach_answers(&mut self, outcome: &Outcome) {
        for (method, position) in [(6, 0), (0, u64::MAX)] {
            let number = outcome.answer(method, position) >> 32;
            self.classes.reach_refusal(number);
        }
        if outcome.refusal().is_some() {
            self.classes.reach("12 before a refusal of the text");
            self.classes.reach("a refusal of the text before 13");
        } else {
            self.classes.reach("12 before 13");
        }
    }

    fn rooms(&mut self, valid: &ValidTexts, refused: &[Vec<u8>]) {
        let short = valid.short();
        let texts = spread(&short, 300).chain(spread(refused, 100));
        let texts: Vec<&Vec<u8>> = texts.collect();
        let mut group = Group::new("reports into buffers of every length");
        for text in &texts {
            let outcome = self.compare(&mut group, checks::report_rooms, text);
            match outcome.refusal() {
                Some(_) => self.classes.reach("a refusal of the text before 14"),
                None => self.classes.reach_refusal(14),
            }
        }
        self.close(group);
        let mut group = Group::new("prints into buffers of every length");
        for text in &texts {
            self.compare(&mut group, checks::print_rooms, text);
        }
        self.close(group);
    }

    fn explanations(&mut self, valid: &ValidTexts, refused: &[Vec<u8>]) {
        let mut group = Group::new("explanations");
        let texts = spread(&valid.common, 3_000).chain(spread(&valid.extreme, 400));
        for text in texts.chain(&valid.worst).chain(spread(refused, 800)) {
            let outcome = self.compare(&mut group, checks::explanations, text);
            self.classes.reach_explained(&outcome);
        }
        self.close(group);
    }

    fn explanation_rooms(&mut self, valid: &ValidTexts, refused: &[Vec<u8>]) {
        let mut group = Group::new("explanations into buffers of every length");
        let longest = figures::longest_explanation();
        let texts = spread(&valid.common, 400).chain([&longest]);
        for text in texts.chain(spread(refused, 100)) {
            let outcome = self.compare(&mut group, checks::explanation_rooms, text);
            self.classes.reach_explained_in_rooms(&outcome);
        }
        self.close(group);
    }

    fn rewritten(&mut self, valid: &ValidTexts, refused: &[Vec<u8>]) {
        let mut group = Group::new("tables written again");
        for text in valid.all().chain(refused) {
            let outcome = self.compare(&mut group, checks::rewritten, text);
            self.classes.reach_rewritten(&outcome);
        }
        self.close(group);
    }

    fn rewritten_rooms(&mut self, valid: &ValidTexts, refused: &[Vec<u8>]) {
        let mut group = Group::new("tables written again into buffers of every length");
        let (short, longest) = (valid.short(), figures::longest_with_accesses());
        let texts = spread(&short, 300).chain([&longest]);
        for text in texts.chain(spread(refused, 100)) {
            let outcome = self.compare(&mut group, checks::rewritten_rooms, text);
            self.classes.reach_rewritten_in_rooms(&outcome);
        }
        self.close(group);
    }

    fn values(&mut self, valid: &ValidTexts) {
        let mut group = Group::new("table values");
        let mut reasons = Group::new("refusal 25 where a value has a reason for it");
        let share = |texts| self.options.share(texts) as usize;
        let common = spread(&valid.common, share(2_500));
        let texts = common.chain(spread(&valid.extreme, share(300)));
        for (turn, text) in texts.chain(&valid.worst).enumerate() {
            let given = value_of(text);
            let mut values = values::changed(&mut self.random, &given, turn);
            values.push(given.clone());
            for value in &values {
                let writing = self.compare_value(&mut group, checks::value, value);
                let seen = classes::reasons(value);
                if reasons.differs(seen.is_empty() == writing.is_given()) {
                    println!("mismatch: a value with the reasons {seen:?}");
                    tell_numbers(value);
                }
                self.classes.reach_value(&given, value, &writing, &seen);
            }
        }
        self.close(group);
        self.close(reasons);
    }

    fn value_rooms(&mut self, valid: &ValidTexts) {
        let mut group = Group::new("table values into buffers of every length");
        let mut values = Vec::new();
        let texts = self.options.share(120) as usize;
        for (turn, text) in spread(&valid.short(), texts).enumerate() {
            let given = value_of(text);
            let changed = values::changed(&mut self.random, &given, turn);
            values.extend(changed.into_iter().step_by(4));
            values.push(given);
        }
        values.push(value_of(&figures::longest_with_accesses()));
        for value in &values {
            let writing = self.compare_value(&mut group, checks::value_rooms, value);
            self.classes.reach_value_in_rooms(&writing);
        }
        self.close(group);
    }

    fn value_lists(&mut self) {
        let mut group = Group::new("lists of numbers of every length");
        for text in [figures::table_p(), figures::longest_with_accesses()] {
            self.compare_value(&mut group, checks::value_lists, &value_of(&text));
        }
        self.close(group);
    }

    fn compare(&mut self, group: &mut Group, check: Check, text: &[u8]) -> Outcome {
        let outcome = Outcome::of(text, self.options.error);
        if let Some(difference) = group.count(check(text, &outcome)) {
            self.tell(group.name, check, text, difference);
        }
        outcome
    }

    fn compare_value(&mut self, group: &mut Group, check: ValueCheck, value: &Value) -> Writing {
        let writing = Writing::of(value, self.options.error);
        if let Some(difference) = group.count(check(value, &writing)) {
            self.tell_value(group.name, check, value, difference);
        }
        writing
    }

    fn tell(&self, group: &str, check: Check, text: &[u8], difference: Difference) {
        let differs = |text: &[u8]| checks::differs(check, text, self.options.error);
        tell_least(group, text, difference, &differs);
    }

    fn tell_value(&self, group: &str, check: ValueCheck, value: &Value, difference: Difference) {
        let differs = |value: &Value| checks::value_differs(check, value, self.options.error);
        let least = shrink_value(value, &|value| differs(value).is_some());
        tell_difference(group, &differs(&least).unwrap_or(difference));
        println!("  the smallest value that shows it:");
        tell_numbers(&least);
    }

    fn class_counts(&mut self) {
        let told = |name: &str| {
            let unions = name.contains("Union") || name.contains("union");
            unions || name.starts_with("refusal")
        };
        for line in self.classes.lines(told) {
            println!("{line}");
        }
        let mut group = Group::new("classes that had to be reached");
        group.texts = self.classes.len() as u64;
        group.compared = group.texts;
        for name in self.classes.missed() {
            group.differences += 1;
            println!("mismatch: nothing reached the class \"{name}\"");
        }
        self.close(group);
    }

    fn close(&mut self, group: Group) {
        if group.differences == 0 {
            self.passed += 1;
        } else {
            self.failed += 1;
        }
        println!("{}", group.line());
    }
}

/// Tables on which a search from C upwards takes longest.
fn hard_texts(longest: u64) -> Vec<Vec<u8>> {
    let mut tables = vec![
        generate::no_tick_left(1, longest),
        generate::no_tick_left(31, longest),
    ];
    for execution in [60, 90] {
        let mut table = generate::hardly_a_tick_left(1, longest);
        table.tasks[5].execution = execution;
        tables.push(table);
    }
    tables.push(generate::hardly_a_tick_left_if_blocked(&[29, 59], longest));
    tables.push(generate::hardly_a_tick_left_if_blocked(&[59, 89], longest));
    tables.iter().map(Table::text).collect()
}

fn tell_wrong_reason(spoiled: &damage::Spoiled, met: Option<Refusal>) {
    println!(
        "mismatch: spoiled by \"{}\", meant {:?}, met {:?}: {}",
        spoiled.plan,
        spoiled.refusal,
        met,
        spoiled.text.escape_ascii()
    );
}

/// Tells the difference of the smallest text found that shows one.
fn tell_least(
    group: &str,
    text: &[u8],
    difference: Difference,
    differs: &dyn Fn(&[u8]) -> Option<Difference>,
) {
    let least = shrink(text, &|text| differs(text).is_some());
    tell_difference(group, &differs(&least).unwrap_or(difference));
    println!("  the smallest text that shows it ({} bytes):", least.len());
    tell_text(&least);
}

fn tell_text(text: &[u8]) {
    for line in text.split_inclusive(|byte| *byte == b'\n') {
        println!("    {}", line.escape_ascii());
    }
}

fn tell_difference(group: &str, difference: &Difference) {
    println!("mismatch: {group}: {}", difference.asked);
    println!("  model:   {}", difference.model);
    println!("  library: {}", difference.library);
}

fn tell_numbers(value: &Value) {
    for line in value.lines() {
        println!("    {line}");
    }
}

fn value_of(text: &[u8]) -> Value {
    Value::of(&read(text).expect("a made-up table is accepted"))
}

/// About `count` of the texts, evenly spread, or all if there are fewer.
fn spread(texts: &[Vec<u8>], count: usize) -> impl Iterator<Item = &Vec<u8>> {
    texts.iter().step_by((texts.len() / count).max(1))
}
