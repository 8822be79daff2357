//! Spoiling the fields of a line.

use crate::generate::Lines;
use crate::model::Form;
use crate::random::Random;

/// Takes the fields it spoils off those still free.
pub fn spoil_fields(
    random: &mut Random,
    fields: &mut Vec<Vec<u8>>,
    free: &mut Vec<usize>,
    kind: u64,
    earlier: &Lines,
    form: Form,
) {
    let first_line = fields[0] == b"K";
    let last = fields.len() - 1;
    match kind {
        3 => spoil_count(random, fields),
        4 => fields[1] = bad_name(random),
        5 => {
            let at = take(random, free, if first_line { 1..=last } else { 2..=6 });
            fields[at] = bad_number(random, &fields[at]);
        }
        6 if first_line => {
            let at = take(random, free, 1..=last);
            let sets: &[&str] = &["0", "1", "2", "3", "5", "6", "254", "257", "258", "260"];
            let reload_time: &[&str] = &["100001", "100002", "1000000", "999999999"];
            let ways: &[&str] = &["0", "9", "9", "10", "16", "257", "999999999"];
            fields[at] = (*random.pick([sets, reload_time, ways][at - 1])).into();
        }
        6 => {
            let at = take(random, free, 2..=6);
            let large: &[&str] = &["250000001", "250000002", "300000000", "999999999"];
            let value = *random.pick(large);
            let zero = at <= 4 && random.chance(40);
            fields[at] = if zero { "0" } else { value }.into();
        }
        7 => {
            let at = take(random, free, 7..=8);
            fields[at] = match form {
                Form::Counted(_) if at == 7 => bad_counts(random, &fields[at]),
                _ => bad_sets(random, &fields[at]),
            };
        }
        8 => {
            let (period, deadline, jitter) = *random.pick(&[
                ("5", "6", "0"),
                ("6", "5", "6"),
                ("1", "2", "3"),
                ("249999999", "250000000", "0"),
                ("250000000", "249999999", "250000000"),
            ]);
            fields[3] = period.into();
            fields[4] = deadline.into();
            fields[5] = jitter.into();
            free.retain(|at| !(3..=5).contains(at));
        }
        9 => fields[1] = random.pick(earlier)[1].clone(),
        _ => unreachable!("not of a line"),
    }
}

fn take(random: &mut Random, free: &mut Vec<usize>, of: std::ops::RangeInclusive<usize>) -> usize {
    let choices: Vec<usize> = free.iter().copied().filter(|at| of.contains(at)).collect();
    let taken = *random.pick(&choices);
    free.retain(|at| *at != taken);
    taken
}

/// Another first field, or another number of fields.
pub fn spoil_shape(random: &mut Random, fields: &mut Vec<Vec<u8>>) {
    let marks: &[&str] = &[
        "", "t", "k", "a", "TT", "KK", "AA", " T", "T ", "K ", "A ", "E", "\u{ff}", "\0",
    ];
    match random.below(6) {
        0..=2 => spoil_count(random, fields),
        3 => fields[0] = if fields[0] == b"K" { "T" } else { "K" }.into(),
        // an access line has another number of fields than these lines
        4 if fields[0] != b"A" => fields[0] = "A".into(),
        _ => fields[0] = (*random.pick(marks)).into(),
    }
}

/// Too many or too few fields.
pub fn spoil_count(random: &mut Random, fields: &mut Vec<Vec<u8>>) {
    if fields[0] == b"K" {
        // three are as good as four
        let count = *random.pick(&[1, 2, 2, 5, 5, 6]);
        let more = *random.pick(&["", "1", "8"]);
        fields.resize(count, more.into());
        return;
    }
    match random.below(4) {
        0 => fields.push(Vec::new()),
        1 => fields.push(b"0".to_vec()),
        2 => {
            fields.pop();
        }
        _ => fields.truncate(1),
    }
}

pub fn bad_name(random: &mut Random) -> Vec<u8> {
    const BAD: [&[u8]; 12] = [
        b"",
        b"abcdefghijklm",
        b"0123456789-0123456789",
        b"A",
        b"a_b",
        b"a b",
        b"a.",
        b"aZ",
        b"\xc3\xa4",
        b"a\0",
        b"`",
        b"{",
    ];
    random.pick(&BAD).to_vec()
}

pub fn bad_number(random: &mut Random, good: &[u8]) -> Vec<u8> {
    const BAD: [&[u8]; 16] = [
        b"",
        b"00",
        b"007",
        b"+4",
        b"-4",
        b" 4",
        b"4 ",
        b"4\r",
        b"0x4",
        b"1e3",
        b"4a",
        b"4/",
        b"4:",
        b"1000000000",
        b"18446744073709551617",
        b"\xd9\xa3",
    ];
    if random.chance(25) {
        [b"0", good].concat()
    } else {
        random.pick(&BAD).to_vec()
    }
}

/// A field that has a count above any number of ways; where it is to be bad as well, not at its end, which
/// that may change.
pub fn raise_count(random: &mut Random, field: &mut [u8], is_bad: bool) {
    let digits = field.len() - usize::from(is_bad);
    let any = random.below(digits);
    let at = *random.pick(&[0, any, any, digits - 1]);
    field[at] = b'9';
}

/// Of one digit for each set: another length, another byte or the field in hex.
pub fn bad_counts(random: &mut Random, good: &[u8]) -> Vec<u8> {
    let mut bad = good.to_vec();
    match random.below(7) {
        0 => bad.push(*random.pick(b"01f\r ")),
        1 => {
            bad.pop();
        }
        2 => bad.insert(0, b'0'),
        3 => bad = vec![*random.pick(b"01f"); good.len() / 4],
        4 => *bad.last_mut().expect("no field is empty") = *random.pick(b"abcdef"),
        _ => *bad.last_mut().expect("no field is empty") = *random.pick(b"agAF/:`@ \r\0x\xff"),
    }
    bad
}

/// Of one digit for four sets: another length, another byte or a field of counts.
pub fn bad_sets(random: &mut Random, good: &[u8]) -> Vec<u8> {
    let mut bad = good.to_vec();
    match random.below(6) {
        5 => bad = vec![*random.pick(b"01"); 4 * good.len()],
        0 => bad.push(*random.pick(b"0f\r ")),
        1 => {
            bad.pop();
        }
        2 => bad.insert(0, b'0'),
        _ => *bad.last_mut().expect("no field is empty") = *random.pick(b"gAF/:`@G \r\0x\xff"),
    }
    bad
}
