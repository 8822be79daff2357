//! The groups of replays.

use super::{spread, tell_least, tell_wrong_reason, Comparison, ValidTexts};
use crpd_compare::checks::replays;
use crpd_compare::damage;
use crpd_compare::generate;
use crpd_compare::groups::Group;
use crpd_compare::model::Outcome;

impl Comparison {
    pub fn replays(&mut self, valid: &ValidTexts, refused: &[Vec<u8>]) {
        let own = self.drawn(&[
            (3_000, &generate::replayed),
            (500, &generate::keeping_work),
            (200, &generate::long_replayed),
            (300, &generate::of_any_family),
        ]);
        let mut group = Group::new("replays tick by tick");
        let share = |texts| self.options.share(texts) as usize;
        let common = spread(&valid.common, share(800)).chain(spread(&valid.extreme, share(200)));
        let refused = spread(refused, share(600));
        for text in own.iter().chain(common).chain(refused) {
            let outcome = self.compare(&mut group, replays::replays, text);
            if self.options.error.is_none() {
                self.classes.reach_replays(&outcome);
            }
        }
        self.close(group);
        self.refused_replays();
    }

    fn refused_replays(&mut self) {
        let error = self.options.error;
        let mut group = Group::new("replays refused for a known reason");
        let mut reasons = Group::new("refusals of replays as they were meant");
        for plan in damage::replay_plans() {
            self.classes.require(&plan.name());
            for _ in 0..self.options.share(60) {
                let (spoiled, position) = plan.spoil(&mut self.random);
                let outcome = Outcome::of(&spoiled.text, error);
                let compared = replays::replay(&spoiled.text, &outcome, position);
                if let Some(difference) = group.count(compared) {
                    let differs = |text: &[u8]| {
                        replays::replay(text, &Outcome::of(text, error), position).err()
                    };
                    tell_least(group.name, &spoiled.text, difference, &differs);
                }
                let met = outcome.replay(position).err();
                let as_meant = met == Some(spoiled.refusal);
                if as_meant {
                    self.classes.reach(&spoiled.plan);
                }
                if reasons.differs(as_meant) {
                    tell_wrong_reason(&spoiled, met);
                }
            }
        }
        self.close(group);
        self.close(reasons);
    }
}
