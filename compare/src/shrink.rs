//! Making a text or a table value that shows a mismatch as small as it gets.

use crate::model::value::{
    access_at, at, Value, ACCESS_CEILING, ACCESS_COUNT, ACCESS_PLACE, ACCESS_TASK, COUNT, PLACE,
};
use std::cell::Cell;

/// No more texts or values than this are tried.
const TRIES: u32 = 4_000;

/// The smallest text found from `text` on for which `shows` still holds.
pub fn shrink(text: &[u8], shows: &dyn Fn(&[u8]) -> bool) -> Vec<u8> {
    let tries = Cell::new(0);
    let still_shows = |smaller: &[u8]| {
        tries.set(tries.get() + 1);
        tries.get() <= TRIES && shows(smaller)
    };
    let mut least = text.to_vec();
    loop {
        let before = least.clone();
        for smaller in [lines_dropped, cache_shrunk, fields_reduced, bytes_dropped] {
            least = smaller(least, &still_shows);
        }
        if least == before || tries.get() > TRIES {
            return least;
        }
    }
}

/// The same of a text and a list that has a line for each of its tasks: such a line goes with the task's.
pub fn shrink_both(
    text: &[u8],
    list: &[u8],
    shows: &dyn Fn(&[u8], &[u8]) -> bool,
) -> (Vec<u8>, Vec<u8>) {
    let (mut text, mut list) = (text.to_vec(), list.to_vec());
    loop {
        let before = (text.clone(), list.clone());
        let mut at = 0;
        while at < lines_of(&list).len() {
            let smaller = (without_line(&text, at + 1), without_line(&list, at));
            if shows(&smaller.0, &smaller.1) {
                (text, list) = smaller;
            } else {
                at += 1;
            }
        }
        list = shrink(&list, &|list| shows(&text, list));
        text = shrink(&text, &|text| shows(text, &list));
        if (&text, &list) == (&before.0, &before.1) {
            return before;
        }
    }
}

fn lines_of(text: &[u8]) -> Vec<&[u8]> {
    text.split_inclusive(|byte| *byte == b'\n').collect()
}

fn without_line(text: &[u8], at: usize) -> Vec<u8> {
    let lines = lines_of(text).into_iter().enumerate();
    let kept = lines.filter(|(place, _)| *place != at);
    kept.flat_map(|(_, line)| line.to_vec()).collect()
}

type Shows<'a> = &'a dyn Fn(&[u8]) -> bool;

fn lines_dropped(mut text: Vec<u8>, shows: Shows) -> Vec<u8> {
    let mut at = 0;
    loop {
        if at >= lines_of(&text).len() {
            return text;
        }
        let smaller = without_line(&text, at);
        if shows(&smaller) {
            text = smaller;
        } else {
            at += 1;
        }
    }
}

/// Takes digits off all cache-set fields, and their sets off line 1.
fn cache_shrunk(mut text: Vec<u8>, shows: Shows) -> Vec<u8> {
    while let Some(smaller) = first_that_shows(with_fewer_sets(&text), shows) {
        text = smaller;
    }
    text
}

fn with_fewer_sets(text: &[u8]) -> Vec<Vec<u8>> {
    let lines = fields_of(text);
    let sets = lines[0].get(1).and_then(|field| parsed(field)).unwrap_or(0);
    let digits = (sets / 4).min(64) as usize;
    let half = (0, digits / 2);
    let single = (0..digits).map(|at| (at, at + 1));
    let dropped = std::iter::once(half)
        .chain(single)
        .filter(|(from, to)| from < to);
    // where useful blocks are counted, a set has a digit of its own
    let of_useful = if lines[0].len() == 4 { 4 } else { 1 };
    let shrunk = dropped.map(|(from, to)| {
        let mut lines = lines.clone();
        lines[0][1] = (4 * (digits - (to - from))).to_string().into_bytes();
        let bitmaps = lines[1..].iter_mut().flat_map(|line| {
            let first = first_bitmap(line);
            line.iter_mut().skip(first).zip([of_useful, 1])
        });
        for (field, digits) in bitmaps.filter(|(field, digits)| field.len() >= digits * to) {
            field.drain(digits * from..digits * to);
        }
        joined(&lines)
    });
    shrunk.collect()
}

fn fields_reduced(mut text: Vec<u8>, shows: Shows) -> Vec<u8> {
    let lines = fields_of(&text).len();
    for line in 0..lines {
        let mut field = 0;
        while field < fields_of(&text)[line].len() {
            match first_that_shows(with_field_reduced(&text, line, field), shows) {
                Some(smaller) => text = smaller,
                None => field += 1,
            }
        }
    }
    text
}

fn with_field_reduced(text: &[u8], line: usize, field: usize) -> Vec<Vec<u8>> {
    let lines = fields_of(text);
    let is_bitmap = field >= first_bitmap(&lines[line]);
    let reduced = reductions(&lines[line][field], is_bitmap);
    let reduced = reduced.into_iter().map(|smaller| {
        let mut lines = lines.clone();
        lines[line][field] = smaller;
        if lines[line][0] == b"T" {
            keep_in_order(&mut lines[line]);
        }
        joined(&lines)
    });
    reduced.collect()
}

/// Lowers the deadline to the period and the jitter to the deadline, which would otherwise keep
/// each other from getting smaller.
fn keep_in_order(fields: &mut [Vec<u8>]) {
    for at in [4, 5] {
        let bound = fields.get(at - 1).and_then(|field| parsed(field));
        let value = fields.get(at).and_then(|field| parsed(field));
        if let (Some(bound), Some(value)) = (bound, value) {
            if value > bound {
                fields[at] = bound.to_string().into_bytes();
            }
        }
    }
}

/// Where the fields of cache sets start in a line.
fn first_bitmap(fields: &[Vec<u8>]) -> usize {
    if fields[0] == b"A" {
        4
    } else {
        7
    }
}

fn reductions(field: &[u8], is_bitmap: bool) -> Vec<Vec<u8>> {
    if is_bitmap {
        let zeroed = |from: usize, to: usize| {
            let mut smaller = field.to_vec();
            smaller[from..to].fill(b'0');
            smaller
        };
        let digits = (0..field.len()).map(|at| (at, at + 1));
        let stretches = std::iter::once((0, field.len())).chain(digits);
        let reduced = stretches.map(|(from, to)| zeroed(from, to));
        return reduced.filter(|smaller| smaller != field).collect();
    }
    match parsed(field) {
        Some(value) => {
            let spelled = |number: u64| number.to_string().into_bytes();
            smaller_numbers(value).map(spelled).collect()
        }
        None if field.len() > 1 => vec![field[..1].to_vec(), field[1..].to_vec()],
        None => Vec::new(),
    }
}

fn smaller_numbers(number: u64) -> impl Iterator<Item = u64> {
    let steps = (0..64).map(move |power| number >> power);
    let smaller = steps.take_while(|step| *step > 0);
    let least = [0, 1].into_iter().filter(move |least| *least < number);
    least.chain(smaller.map(move |step| number - step))
}

fn bytes_dropped(mut text: Vec<u8>, shows: Shows) -> Vec<u8> {
    let mut length = text.len() / 2;
    while length > 0 {
        let mut at = 0;
        while at + length <= text.len() {
            let smaller = [&text[..at], &text[at + length..]].concat();
            if shows(&smaller) {
                text = smaller;
            } else {
                at += length;
            }
        }
        length /= 2;
    }
    text
}

fn first_that_shows(texts: Vec<Vec<u8>>, shows: Shows) -> Option<Vec<u8>> {
    texts.into_iter().find(|text| shows(text))
}

fn fields_of(text: &[u8]) -> Vec<Vec<Vec<u8>>> {
    let fields = |line: &[u8]| line.split(|byte| *byte == b'\t').map(Vec::from).collect();
    text.split(|byte| *byte == b'\n').map(fields).collect()
}

fn joined(lines: &[Vec<Vec<u8>>]) -> Vec<u8> {
    let lines: Vec<Vec<u8>> = lines.iter().map(|line| line.join(&b'\t')).collect();
    lines.join(&b'\n')
}

fn parsed(field: &[u8]) -> Option<u64> {
    std::str::from_utf8(field).ok()?.parse().ok()
}

// ---- values

/// The smallest value found from `value` on for which `shows` still holds.
pub fn shrink_value(value: &Value, shows: &dyn Fn(&Value) -> bool) -> Value {
    let tries = Cell::new(0);
    let still_shows = |smaller: &Value| {
        tries.set(tries.get() + 1);
        tries.get() <= TRIES && shows(smaller)
    };
    let mut least = value.clone();
    loop {
        let before = least.clone();
        least = accesses_dropped(least, &still_shows);
        least = tasks_dropped(least, &still_shows);
        least = numbers_reduced(least, &still_shows);
        if least == before || tries.get() > TRIES {
            return least;
        }
    }
}

type ValueShows<'a> = &'a dyn Fn(&Value) -> bool;

fn tasks_dropped(mut value: Value, shows: ValueShows) -> Value {
    let mut task = 0;
    while task < value.taken() {
        let mut smaller = value.clone();
        let last = at(value.places().count(), 0);
        smaller.numbers[at(task, 0)..last].rotate_left(PLACE);
        smaller.numbers[last - PLACE..last].fill(0);
        smaller.numbers[COUNT] -= 1;
        name_again(&mut smaller, task as u64);
        if shows(&smaller) {
            value = smaller;
        } else {
            task += 1;
        }
    }
    value
}

/// The accesses name the same tasks as before, after the one at `dropped` is gone.
fn name_again(value: &mut Value, dropped: u64) {
    for access in 0..value.accesses_taken() {
        for position in &mut value.access_mut(access)[ACCESS_TASK..=ACCESS_CEILING] {
            *position -= u64::from(*position > dropped);
        }
    }
}

fn accesses_dropped(mut value: Value, shows: ValueShows) -> Value {
    let mut access = 0;
    while access < value.accesses_taken() {
        let mut smaller = value.clone();
        smaller
            .numbers
            .drain(access_at(access, 0)..access_at(access + 1, 0));
        smaller.numbers.extend([0; ACCESS_PLACE]);
        smaller.numbers[ACCESS_COUNT] -= 1;
        if shows(&smaller) {
            value = smaller;
        } else {
            access += 1;
        }
    }
    value
}

fn numbers_reduced(mut value: Value, shows: ValueShows) -> Value {
    for index in 0..value.numbers.len() {
        let reduced = |number: u64| {
            let mut smaller = value.clone();
            smaller.numbers[index] = number;
            smaller
        };
        let mut reduced = smaller_numbers(value.numbers[index]).map(reduced);
        if let Some(smaller) = reduced.find(|smaller| shows(smaller)) {
            value = smaller;
        }
    }
    value
}

#[cfg(test)]
mod tests {
    use super::*;
    use crate::figures::table_m;
    use crate::model::read;

    #[test]
    fn what_shows_the_mismatch_is_left_of_a_value() {
        let value = Value::of(&read(&table_m()).expect("a valid table"));
        let shows = |value: &Value| value.count() > 0 && value.place(0)[13] >= 30;
        let mut expected = vec![0; value.numbers.len()];
        (expected[COUNT], expected[at(0, 13)]) = (1, 30);
        assert_eq!(shrink_value(&value, &shows).numbers, expected);
    }

    #[test]
    fn an_access_that_shows_the_mismatch_is_left_with_its_task() {
        let accesses = b"A\tc\tb\t77\t81\nA\tb\ta\t5\t00\nA\tc\ta\t9\t00\n";
        let text = [table_m(), accesses.to_vec()].concat();
        let value = Value::of(&read(&text).expect("a valid table"));
        let shows = |value: &Value| {
            let task = |access: &[u64]| value.place(access[0] as usize)[0];
            value
                .accesses()
                .any(|access| access[2] > 2 && task(access) == u64::from(b'b'))
        };
        let least = shrink_value(&value, &shows);
        assert_eq!(least.access_count(), 1);
        assert_eq!(least.access(0)[..3], [0, 0, 3]);
        assert!(least.access(0)[3..].iter().all(|word| *word == 0));
    }

    #[test]
    fn what_shows_the_mismatch_is_left_of_a_text_and_a_list() {
        let list = b"R\ta\t7\nR\tb\t77\nR\tc\t8\n";
        let shows = |text: &[u8], list: &[u8]| {
            let is_b = |line: &[u8]| line.get(2) == Some(&b'b');
            let places = [text, list].map(|text| lines_of(text).into_iter().position(is_b));
            matches!(places, [Some(task), Some(bound)] if task == bound + 1)
        };
        let (text, list) = shrink_both(&table_m(), list, &shows);
        assert_eq!(lines_of(&text).len(), 2);
        assert_eq!(lines_of(&list).len(), 1);
    }

    #[test]
    fn what_shows_the_mismatch_is_left() {
        let text = b"K\t8\t1\nT\tname\t17\t40\t40\t0\t0\t33\tff\nT\tb\t9\t9\t9\t0\t0\t00\t00\n";
        let shows = |text: &[u8]| text.windows(2).any(|pair| pair == b"17");
        assert_eq!(shrink(text, &shows), b"17");
    }
}
