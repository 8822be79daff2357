//! Reading a table text.

use super::{Error, Refusal};

pub const TEXT_MOST: usize = 16_384;
pub const WAYS_MOST: u64 = 8;
pub const TASKS_MOST: usize = 32;
pub const ACCESSES_MOST: usize = 32;
const TIME_MOST: u64 = 250_000_000;
const RELOAD_TIME_MOST: u64 = 100_000;
const NAME_MOST: usize = 12;
const DIGITS_MOST: usize = 9;

#[derive(Clone, Debug, PartialEq, Eq)]
pub struct Table {
    pub sets: usize,
    pub reload_time: u64,
    pub form: Form,
    pub tasks: Vec<Task>,
    /// In the order of their lines.
    pub accesses: Vec<Access>,
}

/// How the useful sets of a table are spelled.
#[derive(Clone, Copy, Debug, PartialEq, Eq)]
pub enum Form {
    /// Line 1 has three fields: there is one way, and a hex digit says of four sets which are useful.
    Hex,
    /// Line 1 has a fourth field, the ways: a digit counts the useful blocks of each set.
    Counted(u64),
}

impl Form {
    pub fn ways(self) -> usize {
        match self {
            Form::Hex => 1,
            Form::Counted(ways) => ways as usize,
        }
    }
}

#[derive(Clone, Debug, PartialEq, Eq)]
pub struct Task {
    pub name: String,
    pub execution: u64,
    pub period: u64,
    pub deadline: u64,
    pub jitter: u64,
    /// By cache set how many useful blocks it has.
    pub useful: Vec<usize>,
    /// Cache sets in rising order.
    pub evicting: Vec<usize>,
}

/// What a task does with a shared device.
#[derive(Clone, Debug, PartialEq, Eq)]
pub struct Access {
    /// The task's position.
    pub task: usize,
    /// The position of the highest task that uses the device.
    pub ceiling: usize,
    pub length: u64,
    /// By cache set how many useful blocks it has.
    pub useful: Vec<usize>,
}

/// The number of a refusal met within a line.
type Number = u64;

pub fn read(text: &[u8]) -> Result<Table, Refusal> {
    read_with(text, None)
}

pub fn read_with(text: &[u8], error: Option<Error>) -> Result<Table, Refusal> {
    if text.len() > TEXT_MOST {
        return Err(Refusal::new(1, 0));
    }
    read_of_any_length(text, error)
}

/// The same without refusal 1.
pub fn read_of_any_length(text: &[u8], error: Option<Error>) -> Result<Table, Refusal> {
    let body = text.strip_suffix(b"\n").ok_or(Refusal::new(2, 0))?;
    let mut lines = body.split(|byte| *byte == b'\n');
    let first = lines.next().unwrap_or(&[]);
    let read = cache_line(first, error);
    let (sets, reload_time, form) = read.map_err(|number| Refusal::new(number, 1))?;
    let mut table = Table {
        sets,
        reload_time,
        form,
        tasks: Vec::new(),
        accesses: Vec::new(),
    };
    for (line, place) in lines.clone().zip(2..) {
        let added = add_line(&mut table, line, error);
        added.map_err(|number| Refusal::new(number, place))?;
    }
    if table.tasks.is_empty() {
        return Err(Refusal::new(11, 1));
    }
    let mut blocked = lines.zip(2..).filter(|(line, _)| is_blocked(line));
    let told = match error {
        Some(Error::AllowsBlockingAlone) if table.accesses.is_empty() => None,
        Some(Error::TellsLastBlocked) => blocked.last(),
        _ => blocked.next(),
    };
    match told {
        Some((_, place)) => Err(Refusal::new(17, place)),
        None => Ok(table),
    }
}

/// Whether a line, which is good otherwise, is that of a task with a B above 0.
fn is_blocked(line: &[u8]) -> bool {
    let fields = split(line);
    fields[0] == b"T" && fields[6] != b"0"
}

fn cache_line(line: &[u8], error: Option<Error>) -> Result<(usize, u64, Form), Number> {
    let fields = split(line);
    if fields[0] != b"K" || !(3..=4).contains(&fields.len()) {
        return Err(3);
    }
    let numbers = numbers(&fields[1..])?;
    let (sets, reload_time) = (numbers[0], numbers[1]);
    let ways_most = match error {
        Some(Error::TakesNineWays) => WAYS_MOST + 1,
        _ => WAYS_MOST,
    };
    let form = match numbers.get(2) {
        None => Form::Hex,
        Some(ways) if (1..=ways_most).contains(ways) => Form::Counted(*ways),
        Some(_) => return Err(6),
    };
    let in_range = (4..=256).contains(&sets) && sets % 4 == 0 && reload_time <= RELOAD_TIME_MOST;
    if in_range {
        Ok((sets as usize, reload_time, form))
    } else {
        Err(6)
    }
}

/// A line below line 1. All lines before it were good, so there are as many of them with `T` as
/// there are tasks, and as many with `A` as there are accesses.
fn add_line(table: &mut Table, line: &[u8], error: Option<Error>) -> Result<(), Number> {
    let before = table.tasks.len() + table.accesses.len();
    if error == Some(Error::CountsAllLines) && before == TASKS_MOST {
        return Err(10);
    }
    let fields = split(line);
    match fields[0] {
        b"T" => {
            let task = task_line(table, &fields, error)?;
            table.tasks.push(task);
        }
        b"A" => {
            let access = access_line(table, &fields, error)?;
            table.accesses.push(access);
        }
        _ => return Err(3),
    }
    Ok(())
}

fn task_line(table: &Table, fields: &[&[u8]], error: Option<Error>) -> Result<Task, Number> {
    let too_many = table.tasks.len() == TASKS_MOST;
    let misplaced = !table.accesses.is_empty();
    if too_many && !(misplaced && error == Some(Error::LooksAtOrderFirst)) {
        return Err(10);
    }
    if fields.len() != 9 || misplaced {
        return Err(3);
    }
    let name = name(fields[1]).ok_or(4u64)?;
    let numbers = numbers(&fields[2..7])?;
    let (positive, others) = numbers.split_at(3);
    let too_small = positive.contains(&0);
    let too_large = numbers.iter().any(|number| *number > TIME_MOST);
    if too_small || too_large {
        return Err(6);
    }
    let useful = useful_sets(fields[7], table, error).ok_or(7u64);
    let evicting = cache_sets(fields[8], table.sets).ok_or(7u64);
    if error == Some(Error::LooksAtCountsFirst) && has_high_digit(fields[7], table) {
        return Err(18);
    }
    let (useful, evicting) = (useful?, evicting?);
    let has_high_count = has_high_count(&useful, table);
    if has_high_count && error != Some(Error::LooksAtOrderOfTimesFirst) {
        return Err(18);
    }
    let task = Task {
        name,
        execution: positive[0],
        period: positive[1],
        deadline: positive[2],
        jitter: others[0],
        useful,
        evicting,
    };
    if task.jitter > task.deadline || task.deadline > task.period {
        return Err(8);
    }
    if has_high_count {
        return Err(18);
    }
    if position_of(table, &task.name).is_some() {
        return Err(9);
    }
    Ok(task)
}

fn access_line(table: &Table, fields: &[&[u8]], error: Option<Error>) -> Result<Access, Number> {
    let too_many = table.accesses.len() == ACCESSES_MOST;
    if too_many && error != Some(Error::CountsFieldsFirst) {
        return Err(16);
    }
    if fields.len() != 5 {
        return Err(3);
    }
    if too_many {
        return Err(16);
    }
    let names = [name(fields[1]).ok_or(4u64)?, name(fields[2]).ok_or(4u64)?];
    let length = numbers(&fields[3..4])?[0];
    if length == 0 || length > TIME_MOST {
        return Err(6);
    }
    let useful = useful_sets(fields[4], table, error).ok_or(7u64);
    let positions = positions_of(table, &names, error).ok_or(15u64);
    match error {
        Some(Error::LooksUpNamesFirst) => drop(positions?),
        Some(Error::LooksAtCountsFirst) if has_high_digit(fields[4], table) => return Err(18),
        _ => {}
    }
    let useful = useful?;
    if error == Some(Error::LooksUpNamesBeforeCounts) {
        positions?;
    }
    if has_high_count(&useful, table) {
        return Err(18);
    }
    let (task, ceiling) = positions?;
    let access = Access {
        task,
        ceiling,
        length,
        useful,
    };
    if error == Some(Error::RefusesEqualAccess) && table.accesses.contains(&access) {
        return Err(9);
    }
    Ok(access)
}

/// Those of an access's task and of its ceiling, which is the same or above it.
fn positions_of(
    table: &Table,
    names: &[String; 2],
    error: Option<Error>,
) -> Option<(usize, usize)> {
    let task = position_of(table, &names[0])?;
    let ceiling = position_of(table, &names[1])?;
    let good = match error {
        Some(Error::RefusesOwnCeiling) => ceiling < task,
        _ => ceiling <= task,
    };
    good.then_some((task, ceiling))
}

fn position_of(table: &Table, name: &str) -> Option<usize> {
    table.tasks.iter().position(|task| task.name == name)
}

pub fn split(line: &[u8]) -> Vec<&[u8]> {
    line.split(|byte| *byte == b'\t').collect()
}

pub fn name(field: &[u8]) -> Option<String> {
    let allowed = |letter: char| matches!(letter, 'a'..='z' | '0'..='9' | '-');
    let name = std::str::from_utf8(field).ok()?;
    let good = (1..=NAME_MOST).contains(&name.len()) && name.chars().all(allowed);
    good.then(|| name.to_string())
}

fn numbers(fields: &[&[u8]]) -> Result<Vec<u64>, Number> {
    let numbers: Option<Vec<u64>> = fields.iter().map(|field| number(field)).collect();
    numbers.ok_or(5)
}

/// A number is well spelled if the standard library would spell it the same.
pub fn number(field: &[u8]) -> Option<u64> {
    let spelled = std::str::from_utf8(field).ok()?;
    let value: u64 = spelled.parse().ok()?;
    (spelled.len() <= DIGITS_MOST && value.to_string() == spelled).then_some(value)
}

/// By cache set how many useful blocks it has, from a field of the table's form.
fn useful_sets(field: &[u8], table: &Table, error: Option<Error>) -> Option<Vec<usize>> {
    let takes_hex = error == Some(Error::TakesHexFields) && field.len() == table.sets / 4;
    if table.form == Form::Hex || takes_hex {
        let members = cache_sets(field, table.sets)?;
        let count = |set| usize::from(members.contains(&set));
        return Some((0..table.sets).map(count).collect());
    }
    if field.len() != table.sets {
        return None;
    }
    let radix = match error {
        Some(Error::TakesHexDigits) => 16,
        _ => 10,
    };
    let digits = field.iter().map(|digit| {
        let is_small = !digit.is_ascii_uppercase();
        let count = char::from(*digit).to_digit(radix).filter(|_| is_small);
        count.map(|count| count as usize)
    });
    let counts: Option<Vec<usize>> = digits.collect();
    let mut counts = counts?;
    if error != Some(Error::CountsFromLowestSet) {
        counts.reverse();
    }
    Some(counts)
}

fn has_high_count(counts: &[usize], table: &Table) -> bool {
    counts.iter().any(|count| *count > table.form.ways())
}

/// By an error, whether a digit of a field is too high that need not be good otherwise.
fn has_high_digit(field: &[u8], table: &Table) -> bool {
    let ways = table.form.ways() as u32;
    let digits = field.iter().flat_map(|byte| char::from(*byte).to_digit(10));
    table.form != Form::Hex && digits.into_iter().any(|digit| digit > ways)
}

/// The cache sets of a field in hex, in rising order.
fn cache_sets(field: &[u8], sets: usize) -> Option<Vec<usize>> {
    if field.len() != sets / 4 {
        return None;
    }
    let mut members = Vec::new();
    for (digit, lowest) in field.iter().rev().zip((0..).step_by(4)) {
        let value = b"0123456789abcdef"
            .iter()
            .position(|known| known == digit)?;
        let ones = (0..4).filter(|bit| (value >> bit) % 2 == 1);
        members.extend(ones.map(|bit| lowest + bit));
    }
    Some(members)
}

#[cfg(test)]
mod tests {
    use super::*;

    #[test]
    fn a_cache_set_field_is_read_from_its_end() {
        assert_eq!(cache_sets(b"81", 8), Some(vec![0, 7]));
        assert_eq!(cache_sets(b"A1", 8), None);
        assert_eq!(cache_sets(b"1", 8), None);
    }

    #[test]
    fn only_the_one_spelling_of_a_number_is_good() {
        assert_eq!(number(b"0"), Some(0));
        assert_eq!(number(b"999999999"), Some(999_999_999));
        for bad in ["", "00", "007", "+4", "-0", " 4", "4 ", "4\r", "1000000000"] {
            assert_eq!(number(bad.as_bytes()), None, "{bad:?}");
        }
    }

    #[test]
    fn an_access_names_positions() {
        let text =
            b"K\t4\t1\nT\ta\t1\t9\t9\t0\t0\t0\tf\nT\tb\t1\t9\t9\t0\t0\t0\tf\nA\tb\ta\t5\t9\n";
        let accesses = read(text).expect("a valid table").accesses;
        let expected = Access {
            task: 1,
            ceiling: 0,
            length: 5,
            useful: vec![1, 0, 0, 1],
        };
        assert_eq!(accesses, [expected]);
    }

    #[test]
    fn a_counted_field_has_a_digit_for_each_set() {
        let table = |field: &str| {
            let text = format!("K\t4\t1\t2\nT\ta\t1\t9\t9\t0\t0\t{field}\tf\n");
            read(text.as_bytes()).map_err(|refusal| refusal.number)
        };
        let read = table("0012").expect("a valid table");
        assert_eq!(read.form, Form::Counted(2));
        assert_eq!(read.tasks[0].useful, [2, 1, 0, 0]);
        assert_eq!(read.tasks[0].evicting, [0, 1, 2, 3]);
        for (field, number) in [
            ("012", 7),
            ("00012", 7),
            ("001a", 7),
            ("f", 7),
            ("0013", 18),
        ] {
            assert_eq!(table(field).err(), Some(number), "{field}");
        }
    }

    #[test]
    fn three_fields_and_a_way_of_one_are_two_forms() {
        let with = |first: &str| {
            let rest = "T\ta\t1\t9\t9\t0\t0\t";
            let useful = if first.len() > 5 { "0101" } else { "5" };
            read(format!("{first}\n{rest}{useful}\tf\n").as_bytes())
        };
        let (hex, counted) = (with("K\t4\t1"), with("K\t4\t1\t1"));
        let (hex, counted) = (hex.expect("valid"), counted.expect("valid"));
        assert_eq!(hex.tasks, counted.tasks);
        assert_ne!(hex, counted);
        let refused = |first| with(first).err().map(|refusal| refusal.number);
        assert_eq!(refused("K\t4\t1\t0"), Some(6));
        assert_eq!(refused("K\t4\t1\t9"), Some(6));
        assert_eq!(refused("K\t4\t1\t"), Some(5));
        assert_eq!(refused("K\t4\t1\t1\t1"), Some(3));
        assert_eq!(refused("K\t4"), Some(3));
    }
}
