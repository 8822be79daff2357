//! The words of the comparison.

use crate::generate::TIME_MOST;
use crate::library;
use crate::model::Error;

pub const USAGE: &str = "usage: compare [--error 1 to 154 or 5b] [--percent N] [--longest TICKS]";

pub struct Options {
    pub error: Option<Error>,
    /// How many of the made-up texts are taken, of 100.
    pub percent: u64,
    /// The longest deadline below tasks that take the whole processor.
    pub longest: u64,
}

impl Options {
    pub fn parse(words: &[String]) -> Option<Options> {
        let mut options = Options {
            error: None,
            percent: 100,
            longest: if library::IS_LINKED {
                TIME_MOST
            } else {
                50_000
            },
        };
        for pair in words.chunks(2) {
            match (pair[0].as_str(), pair.get(1)?.as_str()) {
                ("--error", name) => options.error = Some(Error::named(name)?),
                ("--percent", number) => options.percent = number.parse().ok()?,
                ("--longest", number) => options.longest = number.parse().ok()?,
                _ => return None,
            }
        }
        let good =
            (1..=100).contains(&options.percent) && (1_000..=TIME_MOST).contains(&options.longest);
        good.then_some(options)
    }

    pub fn share(&self, texts: u64) -> u64 {
        (texts * self.percent / 100).max(1)
    }
}
