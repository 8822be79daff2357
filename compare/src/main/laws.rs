//! The groups of answers beside each other: by two methods, with a task line more, and with lines changed
//! that do not matter to a task.

use super::{tell_difference, tell_least, tell_text, Comparison, Draw};
use crpd_compare::checks::laws::{self, Known};
use crpd_compare::checks::Difference;
use crpd_compare::generate::{self, Table};
use crpd_compare::groups::Group;
use crpd_compare::model::laws::{Added, Depends};
use crpd_compare::model::Outcome;

impl Comparison {
    /// The answers of an accepted text by all methods.
    pub fn beside(&mut self, text: &[u8], outcome: &Outcome) {
        let order = |text: &[u8]| laws::order(text, self.options.error);
        if let Some(difference) = self.order.count(order(text)) {
            tell_least(self.order.name, text, difference, &|text| order(text).err());
        }
        if self.options.error.is_none() {
            self.classes.reach_beside(outcome.rows());
        }
    }

    fn tables(&mut self, families: &[(u64, Draw)]) -> Vec<Table> {
        let mut tables = Vec::new();
        for (count, family) in families {
            let share = self.options.share(*count);
            tables.extend((0..share).map(|_| family(&mut self.random)));
        }
        tables
    }

    fn common_tables(&mut self) -> Vec<Table> {
        let longest = self.options.longest;
        self.tables(&[
            (700, &generate::small),
            (400, &generate::loaded),
            (450, &generate::unions),
            (350, &generate::shared),
            (60, &generate::crossed),
            (500, &generate::near_limit),
            (60, &generate::near_end),
            (80, &|random| generate::edges(random, longest)),
            (20, &|random| generate::full(random, longest)),
            (10, &generate::nearly_full),
        ])
    }

    /// A task line is put into tables, at every place.
    pub fn lines_more(&mut self) {
        let mut groups = [
            Group::new("tables with a task line more"),
            Group::new("refusals of a task line more"),
        ];
        let mut tables = self.common_tables();
        tables.extend(self.tables(&[(5, &generate::nearly_too_long)]));
        for table in tables {
            let text = table.text();
            let outcome = Outcome::of(&text, None);
            let before = Known {
                text: &text,
                outcome: &outcome,
            };
            self.known(&mut groups[0], &before);
            for place in 0..=table.tasks.len() {
                self.line_more(&mut groups, &table, &before, place);
            }
        }
        let [group, mut refusals] = groups;
        // nearly all have to be accepted; where only a part is taken, those that are refused weigh more
        let are_few = refusals.texts * 20 < group.texts;
        if self.options.percent == 100 && refusals.differs(are_few) {
            println!("mismatch: {}: there are too many", refusals.name);
        }
        self.close(group);
        self.close(refusals);
    }

    fn line_more(
        &mut self,
        [group, refusals]: &mut [Group; 2],
        table: &Table,
        before: &Known,
        place: usize,
    ) {
        let error = self.options.error;
        let (longer, meant) = generate::with_line(&mut self.random, table, place);
        let (text, name) = (longer.text(), &longer.tasks[place].name);
        let outcome = Outcome::of(&text, None);
        let after = Known {
            text: &text,
            outcome: &outcome,
        };
        if error.is_none() {
            self.classes.reach_line(before.outcome, &outcome, place);
        }
        if let Some(refusal) = meant {
            if let Some(difference) = refusals.count(laws::refused(&after, refusal)) {
                tell_texts(refusals.name, &difference, [&text]);
            }
            return;
        }
        self.beside(&text, &outcome);
        let compared = laws::line_more(before, &after, &Added { place, error });
        if let Some(difference) = group.count(compared) {
            let differs = |text: &[u8]| laws::line_of(name, text, error).err();
            tell_least(group.name, &text, difference, &differs);
        }
    }

    /// Lines are changed that do not matter to a task, for every task of the tables.
    pub fn lines_changed(&mut self) {
        let mut group = Group::new("tables with lines changed that do not matter");
        let error = self.options.error;
        for table in self.common_tables() {
            let (text, tasks) = (table.text(), table.tasks.len());
            let outcome = Outcome::of(&text, None);
            let before = Known {
                text: &text,
                outcome: &outcome,
            };
            self.known(&mut group, &before);
            for i in 0..tasks {
                let depends = Depends { i, error };
                let text = generate::kept(&mut self.random, &table, &depends).text();
                let outcome = Outcome::of(&text, None);
                let after = Known {
                    text: &text,
                    outcome: &outcome,
                };
                // by an error an access may lose its ceiling
                if error.is_some() && outcome.refusal().is_some() {
                    continue;
                }
                self.beside(&text, &outcome);
                if error.is_none() {
                    self.classes.reach_change(before.outcome, &outcome, i);
                }
                if let Some(difference) = group.count(laws::alike(&before, &after, i)) {
                    tell_texts(group.name, &difference, [before.text, &text]);
                }
            }
        }
        self.close(group);
    }

    /// A table before it gets a line more, or other lines.
    fn known(&mut self, group: &mut Group, before: &Known) {
        self.beside(before.text, before.outcome);
        if let Some(difference) = group.count(before.held()) {
            tell_texts(group.name, &difference, [before.text]);
        }
    }
}

fn tell_texts<const COUNT: usize>(group: &str, difference: &Difference, texts: [&[u8]; COUNT]) {
    tell_difference(group, difference);
    for text in texts {
        println!("  a text:");
        tell_text(text);
    }
}
