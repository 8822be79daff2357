//! The groups of growths and scaled tables.

use super::{spread, tell_difference, tell_least, Comparison, ValidTexts};
use crpd_compare::checks::growths::{self, GrowthCheck};
use crpd_compare::checks::Difference;
use crpd_compare::generate;
use crpd_compare::groups::Group;
use crpd_compare::model::{Growths, Outcome};

/// The checks of a text that all its growths are taken for, and their groups.
const OF_GROWTHS: [(&str, GrowthCheck); 3] = [
    ("growths", growths::growths),
    ("k from 1 to 4,000 that pass", growths::counts),
    ("scaled tables", growths::scaled),
];

impl Comparison {
    /// The model looks at every k, so that a text takes it some hundredths of a second.
    pub fn growths(&mut self, valid: &ValidTexts, refused: &[Vec<u8>]) {
        let mut groups = OF_GROWTHS.map(|(name, _)| Group::new(name));
        let own = self.drawn(&[
            (1_000, &generate::just_in_time),
            (90, &generate::finely_in_time),
            (70, &generate::nearly_refused),
            (70, &generate::by_either_union),
            (130, &generate::nearly_too_long),
        ]);
        for text in &own {
            self.beside(text, &Outcome::of(text, self.options.error));
        }
        let share = |texts| self.options.share(texts) as usize;
        let common = spread(&valid.common, share(200)).chain(spread(&valid.extreme, share(60)));
        let texts: Vec<&Vec<u8>> = own
            .iter()
            .chain(common)
            .chain(spread(refused, share(400)))
            .collect();
        for text in texts {
            let outcome = Outcome::of(text, self.options.error);
            let growths = outcome.growths();
            for (group, (_, check)) in groups.iter_mut().zip(OF_GROWTHS) {
                self.compare_growths(group, check, text, &growths);
            }
            if self.options.error.is_none() {
                self.classes.reach_growths(text, &outcome, &growths);
            }
        }
        for group in groups {
            self.close(group);
        }
    }

    /// For more texts what can be seen without looking at every k.
    pub fn growth_ends(&mut self, valid: &ValidTexts, refused: &[Vec<u8>]) {
        let mut group = Group::new("growths that pass while the next k fails, and their tables");
        let share = |texts| self.options.share(texts) as usize;
        let texts = spread(&valid.common, share(4_000)).chain(spread(&valid.extreme, share(600)));
        let refused = spread(refused, share(800));
        for text in texts.chain(&valid.worst).chain(refused) {
            self.compare(&mut group, growths::ends, text);
        }
        self.close(group);
    }

    pub fn scaled_rooms(&mut self, refused: &[Vec<u8>]) {
        let mut group = Group::new("scaled tables into buffers of every length");
        let own = self.drawn(&[(90, &generate::just_in_time)]);
        for text in own.iter().chain(spread(refused, 60)) {
            let outcome = Outcome::of(text, self.options.error);
            let growths = outcome.growths();
            self.compare_growths(&mut group, growths::scaled_rooms, text, &growths);
        }
        self.close(group);
    }

    fn compare_growths(
        &self,
        group: &mut Group,
        check: GrowthCheck,
        text: &[u8],
        growths: &Growths,
    ) {
        if let Some(difference) = group.count(check(text, growths)) {
            self.tell_growths(group.name, check, text, difference);
        }
    }

    fn tell_growths(&self, group: &str, check: GrowthCheck, text: &[u8], difference: Difference) {
        match self.options.error {
            // to make the text small would take the model longer than all else
            Some(_) => tell_difference(group, &difference),
            None => {
                let differs = |text: &[u8]| growths::differs(check, text);
                tell_least(group, text, difference, &differs);
            }
        }
    }
}
