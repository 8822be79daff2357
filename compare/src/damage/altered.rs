//! Texts about as long as they may be, and texts altered at random.

use super::Draft;
use crate::generate::text_of;
use crate::model::{TASKS_MOST, TEXT_MOST};
use crate::random::Random;

/// A text of about the greatest length that is looked into.
pub fn about_longest(random: &mut Random) -> Vec<u8> {
    let mut draft = Draft::of_table(random, |table| {
        table.has_room_for(TASKS_MOST, table.accesses.len())
    });
    if random.chance(50) {
        draft.fill_up(random, TASKS_MOST);
    }
    let length = random.between(TEXT_MOST as u64 - 2, TEXT_MOST as u64 + 3) as usize;
    let at = random.below(draft.lines.len());
    let surplus = length - text_of(&draft.lines).len();
    match random.below(6) {
        0 => draft.lines[at][1].extend(vec![b'0'; surplus]),
        1 => draft.lines[at][2].extend(vec![b'0'; surplus]),
        2 => {
            let field = draft.lines[at].last_mut().expect("no line is empty");
            field.extend(vec![b'0'; surplus]);
        }
        3 => draft.lines[at].extend(vec![Vec::new(); surplus]),
        4 => draft.lines.extend(vec![vec![Vec::new()]; surplus]),
        _ => {
            let mark = *random.pick(b"TTTA");
            draft.lines.push(vec![vec![mark; surplus - 1]]);
        }
    }
    draft.unended = random.chance(15);
    draft.text()
}

// ---- random alterations

/// The text after one to three alterations of bytes, fields or lines.
pub fn altered(random: &mut Random, text: &[u8]) -> Vec<u8> {
    let mut altered = text.to_vec();
    for _ in 0..random.between(1, 3) {
        altered = match random.below(3) {
            0 => with_byte_altered(random, altered),
            1 => with_part_altered(random, &altered, b'\n'),
            _ => with_field_altered(random, &altered),
        };
    }
    altered
}

fn with_byte_altered(random: &mut Random, mut text: Vec<u8>) -> Vec<u8> {
    const BYTES: &[u8] = b"\t\t\n\n\r 0019afgzTKAZ-+_.\0\xff\x80";
    let at = random.below(text.len() + 1);
    match random.below(4) {
        0 => text.insert(at, *random.pick(BYTES)),
        _ if at == text.len() => text.push(random.number() as u8),
        1 => {
            text.remove(at);
        }
        2 => text[at] = *random.pick(BYTES),
        _ => text[at] ^= 1 << random.below(8),
    }
    text
}

fn with_field_altered(random: &mut Random, text: &[u8]) -> Vec<u8> {
    let mut lines: Vec<Vec<u8>> = text.split(|byte| *byte == b'\n').map(Vec::from).collect();
    let line = random.below(lines.len());
    lines[line] = with_part_altered(random, &lines[line], b'\t');
    lines.join(&b'\n')
}

/// Drops, doubles, exchanges or replaces one of the parts between two marks.
fn with_part_altered(random: &mut Random, text: &[u8], mark: u8) -> Vec<u8> {
    const FIELDS: [&str; 15] = [
        "0",
        "1",
        "4",
        "5",
        "8",
        "9",
        "256",
        "100000",
        "250000000",
        "999999999",
        "f",
        "-",
        "T",
        "A",
        "",
    ];
    let mut parts: Vec<Vec<u8>> = text.split(|byte| *byte == mark).map(Vec::from).collect();
    let (at, other) = (random.below(parts.len()), random.below(parts.len()));
    match random.below(4) {
        0 => {
            parts.remove(at);
        }
        1 => parts.insert(at, parts[other].clone()),
        2 => parts.swap(at, other),
        _ => parts[at] = (*random.pick(&FIELDS)).into(),
    }
    parts.join(&mark)
}
