//! Calls by several workers, in any order.

use super::GUARD;
use crate::library;
use crate::model::{fitting, Outcome, Refusal, METHODS};
use crate::random::Random;
use std::sync::atomic::{AtomicUsize, Ordering};
use std::sync::Barrier;
use std::thread;

/// What a fresh buffer is filled with: no written text has it.
const FRESH: u8 = 0xa5;

/// The bytes of stack that a worker has, with which every call has to do.
const STACK: usize = 128 * 1024;

/// What is asked of a text. The numbers are a method and a position.
#[derive(Clone, Copy, Debug, PartialEq, Eq)]
pub enum Operation {
    Report,
    Print,
    Answer(u64, u64),
    Explain(u64, u64),
    Rewrite,
    Growth(u64),
    Scaled(u64),
    Check(u64),
    Edf,
    Replay(u64),
}

use Operation::{Answer, Check, Edf, Explain, Growth, Print, Replay, Report, Rewrite, Scaled};

impl Operation {
    pub const NAMES: [&'static str; 10] = [
        "report",
        "print",
        "answer",
        "explanation",
        "table written again",
        "growth",
        "scaled table",
        "words of a list",
        "verdict by deadlines",
        "replay",
    ];

    pub fn name(self) -> &'static str {
        let place = match self {
            Report => 0,
            Print => 1,
            Answer(..) => 2,
            Explain(..) => 3,
            Rewrite => 4,
            Growth(_) => 5,
            Scaled(_) => 6,
            Check(_) => 7,
            Edf => 8,
            Replay(_) => 9,
        };
        Operation::NAMES[place]
    }

    fn call_library(self, text: &[u8], list: &[u8], out: &mut [u8]) -> u64 {
        match self {
            Report => library::report(text, out),
            Print => library::print(text, out),
            Answer(method, position) => library::answer(text, method, position),
            Explain(method, position) => library::explain(text, method, position, out),
            Rewrite => library::rewrite(text, out),
            Growth(method) => library::growth(text, method),
            Scaled(method) => library::scaled(text, method, out),
            Check(method) => library::check(text, list, method, out),
            Edf => library::edf(text),
            Replay(position) => library::replay(text, position),
        }
    }

    /// Whether the number that is returned tells how much was written.
    fn writes(self) -> bool {
        !matches!(self, Answer(..) | Growth(_) | Edf | Replay(_))
    }
}

/// What a call gave.
#[derive(Clone, Debug, PartialEq, Eq)]
pub struct Given {
    /// The number that it returned.
    pub code: u64,
    pub written: Vec<u8>,
    /// Whether it changed other bytes as well.
    pub changes_others: bool,
}

impl Given {
    fn number(code: u64) -> Given {
        Given {
            code,
            written: Vec::new(),
            changes_others: false,
        }
    }

    fn text(text: Result<&[u8], Refusal>) -> Given {
        match text {
            Ok(text) => Given {
                written: text.to_vec(),
                ..Given::number(text.len() as u64)
            },
            Err(refusal) => Given::number(refusal.code()),
        }
    }

    /// By a call into a buffer that has guards on either side and holds whatever it does.
    fn by(call: impl FnOnce(&mut [u8]) -> u64, writes: bool, buffer: &mut [u8]) -> Given {
        let before = buffer.to_vec();
        let end = buffer.len() - GUARD;
        let code = call(&mut buffer[GUARD..end]);
        let is_length = writes && code >> 32 == 0;
        let told_end = GUARD + if is_length { code as usize } else { 0 };
        let written_end = told_end.min(end);
        let is_same = |from: usize, to: usize| buffer[from..to] == before[from..to];
        let is_kept = is_same(0, GUARD) && is_same(written_end, buffer.len());
        Given {
            code,
            written: buffer[GUARD..written_end].to_vec(),
            changes_others: !is_kept || told_end > end,
        }
    }

    pub fn refusal(&self) -> Option<u64> {
        Some(self.code >> 32).filter(|number| *number > 0)
    }

    pub fn in_words(&self) -> String {
        let rest = self.code & 0xffff_ffff;
        let returned = match self.refusal() {
            None => format!("{rest}"),
            Some(number) => format!("refusal {number}, line {rest}"),
        };
        let others = if self.changes_others {
            ", and other bytes"
        } else {
            ""
        };
        let written = self.written.escape_ascii();
        format!("{returned}, written: \"{written}\"{others}")
    }
}

/// An operation on a text.
#[derive(Clone, Copy)]
pub struct Call<'a> {
    pub text: &'a [u8],
    /// Of bounds, which only one operation looks at.
    pub list: &'a [u8],
    pub operation: Operation,
}

/// How many calls of a text are made.
pub const CALLS: usize = 12;

impl<'a> Call<'a> {
    /// Every operation on a text, by any method up to one past the last, and for any position up to some
    /// past the end.
    pub fn of_each(random: &mut Random, text: &'a [u8], list: &'a [u8]) -> [Call<'a>; CALLS] {
        let lines = text.split(|byte| *byte == b'\n').count();
        let methods = [(); 5].map(|_| random.between(0, METHODS));
        let positions = [(); 2].map(|_| random.below(lines) as u64);
        let operations = [
            Report,
            Print,
            Answer(methods[0], positions[0]),
            Answer(methods[1], positions[1]),
            Explain(methods[0], positions[0]),
            Explain(methods[1], positions[1]),
            Rewrite,
            Growth(methods[2]),
            Scaled(methods[3]),
            Check(methods[4]),
            Edf,
            Replay(positions[0]),
        ];
        operations.map(|operation| Call {
            text,
            list,
            operation,
        })
    }

    /// Made alone, with a fresh buffer.
    pub fn alone(&self, room: usize) -> Given {
        self.made(&mut fresh(room))
    }

    fn made(&self, buffer: &mut [u8]) -> Given {
        let call = |out: &mut [u8]| self.operation.call_library(self.text, self.list, out);
        Given::by(call, self.operation.writes(), buffer)
    }

    /// What it has to give by the model; nothing is said of growths, for which the model takes long.
    pub fn by_model(&self, outcome: &Outcome, room: usize) -> Option<Given> {
        Some(match self.operation {
            Report => Given::text(outcome.report(room)),
            Print => Given::text(outcome.print(room)),
            Answer(method, position) => Given::number(outcome.answer(method, position)),
            Explain(method, position) => match outcome.explanations().explain(method, position) {
                Ok(explanation) => Given::text(fitting(explanation.text().as_bytes(), room)),
                Err(refusal) => Given::text(Err(refusal)),
            },
            Rewrite => match outcome.writing() {
                Ok(writing) => Given::text(writing.text(room)),
                Err(refusal) => Given::text(Err(refusal)),
            },
            Check(method) => match outcome.checks().check(self.list, method) {
                Ok(checked) => Given::text(fitting(checked.text.as_bytes(), room)),
                Err(refusal) => Given::text(Err(refusal)),
            },
            Edf => Given::number(outcome.edf().map_or_else(Refusal::code, u64::from)),
            Replay(position) => Given::number(match outcome.replay(position) {
                Ok(replay) => replay.end.unwrap_or(0),
                Err(refusal) => refusal.code(),
            }),
            Growth(_) | Scaled(_) => return None,
        })
    }
}

/// A buffer of this length between its guards.
fn fresh(room: usize) -> Vec<u8> {
    vec![FRESH; room + 2 * GUARD]
}

/// How the workers of a pool take their calls.
pub struct Round {
    /// The length of each worker's buffer, which the worker never clears.
    pub rooms: Vec<usize>,
    /// Whether the buffers begin with random bytes.
    pub begins_anyhow: bool,
    /// Whether the workers wait for each other before every call. The queue has to have as many calls
    /// for each of them then.
    pub in_step: bool,
}

/// A call that a worker made, by its place among all calls.
pub struct Made {
    pub call: usize,
    pub given: Given,
}

/// The calls that each worker made, in its own order. The workers take them from one queue and share
/// nothing but the texts.
pub fn pooled(
    calls: &[Call],
    queue: &[usize],
    round: &Round,
    random: &mut Random,
) -> Vec<Vec<Made>> {
    let next = AtomicUsize::new(0);
    let step = Barrier::new(round.rooms.len());
    let work = |mut buffer: Vec<u8>| {
        let mut log = Vec::new();
        step.wait();
        while let Some(call) = queue.get(next.fetch_add(1, Ordering::Relaxed)) {
            log.push(Made {
                call: *call,
                given: calls[*call].made(&mut buffer),
            });
            if round.in_step {
                step.wait();
            }
        }
        log
    };
    let buffers = round.rooms.iter().map(|room| {
        let mut buffer = fresh(*room);
        if round.begins_anyhow {
            buffer.fill_with(|| random.number() as u8);
        }
        buffer
    });
    let buffers: Vec<Vec<u8>> = buffers.collect();
    thread::scope(|scope| {
        let work = &work;
        let begin = |buffer| {
            let worker = thread::Builder::new().stack_size(STACK);
            let begun = worker.spawn_scoped(scope, move || work(buffer));
            begun.expect("a thread can be started")
        };
        let workers: Vec<_> = buffers.into_iter().map(begin).collect();
        let logs = workers.into_iter().map(|worker| worker.join());
        logs.map(|log| log.expect("no worker panics")).collect()
    })
}

#[cfg(test)]
mod tests {
    use super::*;
    use crate::figures::{longest_report, table_p};

    /// What is given by a call that writes `ab` and does something else as well.
    fn given(writes: bool, other: impl FnOnce(&mut [u8]) -> u64) -> Given {
        let mut buffer = fresh(3);
        let call = |out: &mut [u8]| {
            out[..2].copy_from_slice(b"ab");
            other(out)
        };
        Given::by(call, writes, &mut buffer)
    }

    #[test]
    fn a_byte_past_the_written_ones_is_seen() {
        let good = Given::text(Ok(b"ab"));
        assert_eq!(given(true, |_| 2), good);
        let beyond = |out: &mut [u8]| {
            out[2] = b'c';
            2
        };
        assert!(given(true, beyond).changes_others);
        assert!(given(true, |_| 4).changes_others);
        assert_ne!(given(true, |_| 3), good);
    }

    #[test]
    fn a_byte_is_seen_where_nothing_is_to_be_written() {
        assert!(given(true, |_| 14 << 32).changes_others);
        assert!(given(false, |_| 2).changes_others);
    }

    #[test]
    fn the_workers_make_each_call_of_the_queue_once() {
        let mut random = Random::new(61);
        let texts = [table_p(), longest_report()];
        let calls: Vec<Call> = texts
            .iter()
            .flat_map(|text| Call::of_each(&mut random, text, b"R\ta\t2\nR\tb\t-\n"))
            .collect();
        let queue: Vec<usize> = (0..calls.len()).collect();
        for (workers, in_step) in [(1, false), (2, true), (3, false), (7, false)] {
            let round = Round {
                rooms: vec![3_000; workers],
                begins_anyhow: true,
                in_step,
            };
            let logs = pooled(&calls, &queue, &round, &mut random);
            assert_eq!(logs.len(), workers);
            let mut made: Vec<usize> = logs.iter().flatten().map(|made| made.call).collect();
            made.sort_unstable();
            assert_eq!(made, queue);
            for made in logs.iter().flatten() {
                assert_eq!(made.given, calls[made.call].alone(3_000));
            }
        }
    }
}
