//! The groups of workers that have one table after another.

use super::{spread, tell_least, tell_text, Comparison, ValidTexts};
use crpd_compare::checks;
use crpd_compare::checks::pool::{pooled, Call, Given, Round, CALLS};
use crpd_compare::damage;
use crpd_compare::generate::{self, text_of};
use crpd_compare::groups::Group;
use crpd_compare::model::{Outcome, Worker};
use crpd_compare::random::Random;

/// No text that is written is longer.
const LONGEST: usize = 16_384;

/// The lengths of the buffers that calls are made alone with: one for every text, and one that is too
/// short for many.
const ROOMS: [usize; 2] = [LONGEST + 100, 150];

const TIMES_OVER: usize = 8;

/// Puts the calls of some texts into a queue for some workers.
type Queue = fn(&mut Random, usize, usize) -> Vec<usize>;

/// The rounds of the pool, each with its queue, and which of these lengths the calls had that it is held
/// to.
fn rounds() -> Vec<(Round, Queue, usize)> {
    let round = |rooms| Round {
        rooms,
        begins_anyhow: false,
        in_step: false,
    };
    let alike = |which: usize, workers| round(vec![ROOMS[which]; workers]);
    let different = (0..7).map(|worker| LONGEST + 37 * worker);
    let in_step = Round {
        begins_anyhow: true,
        in_step: true,
        ..alike(0, 7)
    };
    vec![
        (alike(0, 1), in_any_order, 0),
        (alike(0, 2), in_any_order, 0),
        (alike(0, 7), in_any_order, 0),
        (alike(0, 7), operation_by_operation, 0),
        (in_step, text_by_text, 0),
        (round(different.collect()), in_any_order, 0),
        (alike(1, 2), in_any_order, 1),
    ]
}

impl Comparison {
    /// A worker of the model has the tables in any order.
    pub fn workers(&mut self, valid: &ValidTexts, refused: &[Vec<u8>]) {
        let mut group = Group::new("reports of a worker that had other tables before");
        let mut texts = self.builds(200);
        let valid = spread(&valid.common, 1_000).chain(spread(&valid.extreme, 100));
        texts.extend(valid.chain(spread(refused, 200)).cloned());
        self.random.shuffle(&mut texts);
        let mut worker = Worker::new(self.options.error);
        for text in &texts {
            let before = worker.clone();
            let outcome = worker.outcome(text);
            if let Some(difference) = group.count(checks::whole(text, &outcome)) {
                let outcome = |text: &[u8]| before.clone().outcome(text);
                let differs = |text: &[u8]| checks::whole(text, &outcome(text)).err();
                tell_least(group.name, text, difference, &differs);
            }
        }
        self.close(group);
    }

    fn builds(&mut self, tables: u64) -> Vec<Vec<u8>> {
        let tables = 0..self.options.share(tables);
        let builds = tables.flat_map(|_| generate::builds(&mut self.random));
        let texts: Vec<Vec<u8>> = builds.map(|table| table.text()).collect();
        for text in &texts {
            self.beside(text, &Outcome::of(text, self.options.error));
        }
        texts
    }

    /// The calls of some texts are made alone, and then by several workers.
    pub fn pool(&mut self, valid: &ValidTexts, refused: &[Vec<u8>]) {
        let mut texts = self.builds(40);
        let share = |texts| self.options.share(texts) as usize;
        let common = spread(&valid.common, share(500)).chain(spread(refused, share(200)));
        let longest = spread(&valid.extreme, share(60)).chain(&valid.worst);
        texts.extend(common.chain(longest).cloned());
        texts.retain(|text| generate::is_soon_told(&Outcome::of(text, None)));
        let lists = self.lists_for(&texts);
        let (calls, alone) = self.alone(&texts, &lists);
        let mut group = Group::new("calls by several workers, in any order");
        for (round, queue, which) in rounds() {
            let workers = round.rooms.len();
            let queue = queue(&mut self.random, texts.len(), workers);
            let logs = pooled(&calls, &queue, &round, &mut self.random);
            for made in logs.iter().flatten() {
                let expected = &alone[which][made.call];
                if group.differs(made.given == *expected) {
                    let among = format!("one of {workers} workers");
                    let given = [("alone", expected), (&among, &made.given)];
                    tell_call(group.name, &calls[made.call], given);
                }
            }
            self.classes.reach_pool(&calls, &logs, round.in_step);
        }
        group.texts = texts.len() as u64;
        self.close(group);
    }

    /// A list for each text, mostly a good one.
    fn lists_for(&mut self, texts: &[Vec<u8>]) -> Vec<Vec<u8>> {
        let random = &mut self.random;
        let list = |text: &Vec<u8>| {
            let outcome = Outcome::of(text, None);
            let list = match outcome.refusal() {
                None => text_of(&generate::list(random, &outcome)),
                Some(_) => b"R\ta\t1\n".to_vec(),
            };
            match random.chance(20) {
                true => damage::altered(random, &list),
                false => list,
            }
        };
        texts.iter().map(list).collect()
    }

    /// All calls of the texts, and what each gives alone, with either length.
    fn alone<'a>(
        &mut self,
        texts: &'a [Vec<u8>],
        lists: &'a [Vec<u8>],
    ) -> (Vec<Call<'a>>, [Vec<Given>; 2]) {
        let mut group = Group::new("calls alone");
        let mut calls = Vec::new();
        let mut alone = ROOMS.map(|_| Vec::new());
        for (text, list) in texts.iter().zip(lists) {
            let outcome = Outcome::of(text, None);
            for call in Call::of_each(&mut self.random, text, list) {
                for (alone, room) in alone.iter_mut().zip(ROOMS) {
                    let given = call.alone(room);
                    let expected = call.by_model(&outcome, room);
                    let expected = expected.unwrap_or_else(|| given.clone());
                    if group.differs(given == expected && !given.changes_others) {
                        let given = [("model", &expected), ("library", &given)];
                        tell_call(group.name, &call, given);
                    }
                    alone.push(given);
                }
                calls.push(call);
            }
        }
        group.texts = texts.len() as u64;
        self.close(group);
        (calls, alone)
    }
}

fn shuffled(random: &mut Random, count: usize) -> Vec<usize> {
    let mut order: Vec<usize> = (0..count).collect();
    random.shuffle(&mut order);
    order
}

fn in_any_order(random: &mut Random, texts: usize, _: usize) -> Vec<usize> {
    shuffled(random, texts * CALLS)
}

/// One operation on all texts, some times over, and then the next one: what the workers do at a time is
/// mostly the same, with different texts. Something that they share by mistake shows here first.
fn operation_by_operation(random: &mut Random, texts: usize, _: usize) -> Vec<usize> {
    let mut queue = Vec::new();
    for operation in 0..CALLS {
        for _ in 0..TIMES_OVER {
            let texts = shuffled(random, texts).into_iter();
            queue.extend(texts.map(|text| text * CALLS + operation));
        }
    }
    queue
}

/// The calls of one text and then those of another, each twice in a row, and some of them again so that
/// no step of the workers has calls of two texts.
fn text_by_text(random: &mut Random, texts: usize, workers: usize) -> Vec<usize> {
    let mut queue = Vec::new();
    for text in shuffled(random, texts) {
        let own = shuffled(random, CALLS);
        let twice = own.iter().flat_map(|call| [text * CALLS + call; 2]);
        let steps = 2 * CALLS / workers + 1;
        queue.extend(twice.cycle().take(steps * workers));
    }
    queue
}

fn tell_call(group: &str, call: &Call, given: [(&str, &Given); 2]) {
    println!("mismatch: {group}: {:?}", call.operation);
    for (who, given) in given {
        println!("  {who}: {}", given.in_words());
    }
    println!("  the text:");
    tell_text(call.text);
}
