//! What becomes of a table from one build of the firmware to the next.

use super::{Table, BASES, TIME_MOST};
use crate::random::Random;

/// How many builds there are of a table.
const BUILDS: usize = 4;

/// The table of each build: the execution times change, and nothing else.
pub fn builds(random: &mut Random) -> Vec<Table> {
    let base = random.pick(&BASES);
    let first = base(random);
    let builds = (0..BUILDS).map(|_| {
        let mut build = first.clone();
        for task in &mut build.tasks {
            let execution = task.execution * random.between(70, 130) / 100;
            let longer = execution + random.between(0, 2);
            task.execution = longer.saturating_sub(1).clamp(1, TIME_MOST);
        }
        build
    });
    builds.collect()
}
