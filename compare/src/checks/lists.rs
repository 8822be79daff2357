//! What is said of partners' lists.

use super::growths::methods;
use super::{written, Compared, Difference};
use crate::library;
use crate::model::{fitting, Checked, Checks, Error, Outcome, Refusal};

/// One of the comparisons below, of a text and a list.
pub type ListCheck = fn(&[u8], &[u8], &Checks) -> Compared;

/// Whether a text and a list show a difference.
pub fn differs(
    check: ListCheck,
    text: &[u8],
    list: &[u8],
    error: Option<Error>,
) -> Option<Difference> {
    check(text, list, &Outcome::of(text, error).checks()).err()
}

/// By all methods, with more room than the words take, with just enough and with a byte too little.
pub fn checked(text: &[u8], list: &[u8], checks: &Checks) -> Compared {
    let compared = methods().map(|method| -> Compared {
        let checked = checks.check(list, method);
        let length = length_of(&checked);
        let rooms = [length + 20, length, length - 1].into_iter();
        let call = |out: &mut [u8]| library::check(text, list, method, out);
        rooms
            .map(|room| in_room(&checked, method, room, call))
            .sum()
    });
    compared.sum()
}

/// By some methods, into buffers of every length up to three past the text.
pub fn rooms(text: &[u8], list: &[u8], checks: &Checks) -> Compared {
    let compared = [0, 5, 6].into_iter().map(|method| -> Compared {
        let checked = checks.check(list, method);
        let call = |out: &mut [u8]| library::check(text, list, method, out);
        let rooms = 0..=length_of(&checked) + 3;
        rooms
            .map(|room| in_room(&checked, method, room, call))
            .sum()
    });
    compared.sum()
}

fn length_of(checked: &Result<Checked, Refusal>) -> usize {
    checked.as_ref().map_or(20, |checked| checked.text.len())
}

fn in_room(
    checked: &Result<Checked, Refusal>,
    method: u64,
    room: usize,
    call: impl FnOnce(&mut [u8]) -> u64,
) -> Compared {
    let expected = match checked {
        Ok(checked) => fitting(checked.text.as_bytes(), room),
        Err(refusal) => Err(*refusal),
    };
    written(
        &format!("list checked by method {method}"),
        room,
        expected,
        call,
    )
}
