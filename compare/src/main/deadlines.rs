//! The groups of verdicts where the earliest deadline comes first.

use super::{spread, tell_wrong_reason, Comparison, ValidTexts};
use crpd_compare::checks::deadlines;
use crpd_compare::damage;
use crpd_compare::generate;
use crpd_compare::groups::Group;
use crpd_compare::model::Outcome;

impl Comparison {
    pub fn by_deadlines(&mut self, valid: &ValidTexts, refused: &[Vec<u8>]) {
        let own = self.drawn(&[
            (3_000, &generate::by_deadline),
            (400, &generate::by_long_deadline),
            (400, &generate::about_last_multiple),
            (1_200, &generate::of_any_family),
        ]);
        let mut group = Group::new("verdicts by deadlines");
        let share = |texts| self.options.share(texts) as usize;
        let common = spread(&valid.common, share(800)).chain(spread(&valid.extreme, share(200)));
        let refused = spread(refused, share(800));
        for text in own.iter().chain(common).chain(refused) {
            // what would take the model too long is left out
            if generate::is_soon_told(&Outcome::of(text, None)) {
                self.compare_verdict(&mut group, text);
            }
        }
        self.close(group);
        let mut group = Group::new("tables refused by deadlines for a known reason");
        let mut reasons = Group::new("refusals by deadlines as they were meant");
        for plan in damage::deadline_plans() {
            self.classes.require(&plan.name());
            for _ in 0..self.options.share(60) {
                let spoiled = plan.spoil(&mut self.random);
                let outcome = self.compare_verdict(&mut group, &spoiled.text);
                let as_meant = outcome.edf() == Err(spoiled.refusal);
                if as_meant {
                    self.classes.reach(&spoiled.plan);
                }
                if reasons.differs(as_meant) {
                    tell_wrong_reason(&spoiled, outcome.edf().err());
                }
            }
        }
        self.close(group);
        self.close(reasons);
    }

    fn compare_verdict(&mut self, group: &mut Group, text: &[u8]) -> Outcome {
        let outcome = self.compare(group, deadlines::edf, text);
        if self.options.error.is_none() {
            self.classes.reach_by_deadlines(&outcome);
        }
        outcome
    }
}
