//! Sums, unions and largest values, their members in any order.

use super::{whole, Compared};
use crate::model::{Error, Outcome};
use crate::random::Random;

/// In how many orders of every sum a text is answered.
const SHUFFLES: usize = 4;

/// The report and the print, where the model takes the members of every sum in shuffled orders.
pub fn shuffled(text: &[u8], seed: u64, error: Option<Error>) -> Compared {
    let mut random = Random::new(seed);
    let compared = (0..SHUFFLES).map(|_| {
        let outcome = Outcome::in_any_order(text, &mut random, error);
        whole(text, &outcome)
    });
    compared.sum()
}
