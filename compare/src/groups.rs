//! Counting what was compared.

use crate::checks::{Compared, Difference};

/// Differences of one group that are told; the others are only counted.
const TOLD_MOST: u64 = 1;

/// One of the counted groups of comparisons.
#[derive(Clone)]
pub struct Group {
    pub name: &'static str,
    pub texts: u64,
    pub compared: u64,
    pub differences: u64,
}

impl Group {
    pub fn new(name: &'static str) -> Group {
        Group {
            name,
            texts: 0,
            compared: 0,
            differences: 0,
        }
    }

    /// Counts what was compared of a text or a value, and gives a difference back that is to be told.
    pub fn count(&mut self, compared: Compared) -> Option<Difference> {
        self.texts += 1;
        match compared {
            Ok(compared) => {
                self.compared += compared;
                None
            }
            Err(difference) => {
                self.compared += 1;
                self.differences += 1;
                Some(difference).filter(|_| self.differences <= TOLD_MOST)
            }
        }
    }

    /// Counts one comparison; whether it is a difference that is to be told.
    pub fn differs(&mut self, agrees: bool) -> bool {
        self.texts += 1;
        self.compared += 1;
        self.differences += u64::from(!agrees);
        !agrees && self.differences <= TOLD_MOST
    }

    /// The line that tells it.
    pub fn line(&self) -> String {
        let differing = match self.differences {
            0 => String::new(),
            count => format!(", {count} DIFFER"),
        };
        format!(
            "{:>8} compared in {:>6} of: {}{differing}",
            self.compared, self.texts, self.name
        )
    }
}
