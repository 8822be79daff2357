//! The groups of partners' lists.

use super::{spread, tell_difference, tell_text, Comparison, ValidTexts};
use crpd_compare::checks::lists::{self, ListCheck};
use crpd_compare::checks::Difference;
use crpd_compare::damage::{self, list_plans, SpoiledList};
use crpd_compare::generate::{self, text_of, Lines};
use crpd_compare::groups::Group;
use crpd_compare::model::{Checks, Outcome};
use crpd_compare::shrink::shrink_both;

/// How many lists a text gets.
const LISTS: usize = 4;

impl Comparison {
    /// Good lists, for accepted texts.
    pub fn bounds(&mut self, valid: &ValidTexts) {
        let own = self.drawn(&[(200, &generate::crossing)]);
        let mut group = Group::new("bounds of partners' lists");
        let share = |texts| self.options.share(texts) as usize;
        let common = spread(&valid.common, share(4_000)).chain(spread(&valid.extreme, share(400)));
        for text in own.iter().chain(common).chain(&valid.worst) {
            let outcome = Outcome::of(text, self.options.error);
            // by an error of reading
            if outcome.table().is_none() {
                continue;
            }
            let drawn = Outcome::of(text, None);
            for _ in 0..LISTS {
                let list = text_of(&generate::list(&mut self.random, &drawn));
                self.compare_list(&mut group, lists::checked, (text, &list), &outcome);
            }
        }
        self.close(group);
    }

    /// Lists spoiled for a known reason, or altered at random, for accepted and for refused texts.
    pub fn refused_lists(&mut self, valid: &ValidTexts, refused: &[Vec<u8>]) {
        let mut group = Group::new("lists spoiled for a known reason");
        let mut reasons = Group::new("refusals of lists as the spoiling meant them");
        let plans = list_plans();
        for plan in &plans {
            self.classes.require(&plan.name());
            for _ in 0..self.options.share(60) {
                let (text, good) = self.text_with_list(valid);
                let spoiled = plan.spoil(&mut self.random, &good);
                let outcome = Outcome::of(&text, self.options.error);
                let both = (&text[..], &spoiled.list[..]);
                self.compare_list(&mut group, lists::checked, both, &outcome);
                let met = outcome.checks().check(&spoiled.list, 0).err();
                let as_meant = met == Some(spoiled.refusal);
                if as_meant {
                    self.classes.reach(&spoiled.plan);
                }
                if reasons.differs(as_meant) {
                    tell_wrong_reason(&spoiled, &text);
                }
            }
        }
        self.close(group);
        self.close(reasons);
        let mut group = Group::new("lists altered at random");
        for _ in 0..self.options.share(6_000) {
            let (text, good) = self.text_with_list(valid);
            let list = damage::altered(&mut self.random, &text_of(&good));
            let outcome = Outcome::of(&text, self.options.error);
            self.compare_list(&mut group, lists::checked, (&text, &list), &outcome);
        }
        self.close(group);
        let mut group = Group::new("lists beside refused texts");
        let share = self.options.share(800) as usize;
        for text in spread(refused, share) {
            let (_, good) = self.text_with_list(valid);
            let plan = *self.random.pick(&plans);
            let spoiled = plan.spoil(&mut self.random, &good);
            let outcome = Outcome::of(text, self.options.error);
            for list in [&text_of(&good), &spoiled.list] {
                self.compare_list(&mut group, lists::checked, (text, list), &outcome);
            }
            if outcome.refusal().is_some() {
                self.classes
                    .reach_list_beside_refused(spoiled.refusal.number);
            }
        }
        self.close(group);
    }

    pub fn list_rooms(&mut self, valid: &ValidTexts, refused: &[Vec<u8>]) {
        let mut group = Group::new("words of lists into buffers of every length");
        let plans = list_plans();
        for text in spread(&valid.short(), 200).chain(&valid.worst[..1]) {
            let outcome = Outcome::of(text, None);
            let good = generate::list(&mut self.random, &outcome);
            let mut lists = vec![text_of(&good)];
            if good.len() >= 3 {
                let plan = *self.random.pick(&plans);
                lists.push(plan.spoil(&mut self.random, &good).list);
            }
            for list in &lists {
                self.compare_list(&mut group, lists::rooms, (text, list), &outcome);
                self.classes.reach_list_in_rooms(list, &outcome);
            }
        }
        for text in spread(refused, 60) {
            let outcome = Outcome::of(text, None);
            self.compare_list(&mut group, lists::rooms, (text, b"R\ta\t1\n"), &outcome);
        }
        self.close(group);
    }

    /// An accepted text of three tasks or more, and a good list for it.
    fn text_with_list(&mut self, valid: &ValidTexts) -> (Vec<u8>, Lines) {
        loop {
            let text = self.random.pick(&valid.common).clone();
            let outcome = Outcome::of(&text, None);
            if outcome.rows().len() >= 3 {
                let list = generate::list(&mut self.random, &outcome);
                return (text, list);
            }
        }
    }

    fn compare_list(
        &mut self,
        group: &mut Group,
        check: ListCheck,
        (text, list): (&[u8], &[u8]),
        outcome: &Outcome,
    ) {
        let checks: Checks = outcome.checks();
        if let Some(difference) = group.count(check(text, list, &checks)) {
            let error = self.options.error;
            let shows = |text: &[u8], list: &[u8]| lists::differs(check, text, list, error);
            tell_least_list(group.name, (text, list), difference, &shows);
        }
        if self.options.error.is_none() {
            self.classes.reach_list(outcome, list, &checks);
        }
    }
}

fn tell_wrong_reason(spoiled: &SpoiledList, text: &[u8]) {
    println!(
        "mismatch: spoiled by \"{}\", meant {:?}: {}",
        spoiled.plan,
        spoiled.refusal,
        spoiled.list.escape_ascii()
    );
    println!("  the text:");
    tell_text(text);
}

/// Tells the difference of the smallest text and list found that show one.
fn tell_least_list(
    group: &str,
    (text, list): (&[u8], &[u8]),
    difference: Difference,
    shows: &dyn Fn(&[u8], &[u8]) -> Option<Difference>,
) {
    let (text, list) = shrink_both(text, list, &|text, list| shows(text, list).is_some());
    tell_difference(group, &shows(&text, &list).unwrap_or(difference));
    println!("  the smallest text that shows it ({} bytes):", text.len());
    tell_text(&text);
    println!("  with the list ({} bytes):", list.len());
    tell_text(&list);
}
