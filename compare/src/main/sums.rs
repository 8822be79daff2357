//! The groups of sums and unions, whose members may come in any order.

use super::{spread, tell_difference, tell_least, Comparison, ValidTexts};
use crpd_compare::checks::{sets, sums};
use crpd_compare::generate;
use crpd_compare::groups::Group;

impl Comparison {
    pub fn sums(&mut self, valid: &ValidTexts) {
        let mut group = Group::new("sums and unions in any order");
        let options = &self.options;
        let share = |texts| options.share(texts) as usize;
        let common = spread(&valid.common, share(800));
        for text in common.chain(spread(&valid.extreme, share(120))) {
            let seed = self.random.number();
            let shuffled = |text: &[u8]| sums::shuffled(text, seed, options.error);
            if let Some(difference) = group.count(shuffled(text)) {
                tell_least(group.name, text, difference, &|text| shuffled(text).err());
            }
        }
        self.close(group);
    }

    pub fn laws_of_sets(&mut self) {
        let mut group = Group::new("laws of unions and sizes of cache sets");
        for _ in 0..self.options.share(300) {
            let [u, a, b, c] = [(); 4].map(|_| generate::any_cache_sets(&mut self.random));
            let (form, counts) = generate::any_counts(&mut self.random);
            if let Some(difference) = group.count(sets::laws([&u, &a, &b, &c], (form, &counts))) {
                tell_difference(group.name, &difference);
            }
        }
        self.close(group);
    }
}
