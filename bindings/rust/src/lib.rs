//! Worst-case response times of the tasks of a table text, by the proved library, as safe functions. They
//! take every text, number and buffer. Nothing checks the declarations below against the library's source.
//!
//! No function keeps anything from one call to the next: the answer, and every byte that is written, come
//! from the text, the numbers and the length of the buffer alone. So they may be called in any order and by
//! several threads at once; a buffer need not be cleared.

/// No report is longer.
pub const REPORT_MOST: usize = 2746;

/// No explanation is longer.
pub const EXPLANATION_MOST: usize = 1348;

/// No text of what is found of a list is longer.
pub const FINDINGS_MOST: usize = 640;

/// No accepted table text is longer, access lines and all, and neither is that of a scaled table.
pub const TABLE_MOST: usize = 16384;

/// No page of ticks is longer.
pub const TICKS_MOST: usize = 2000;

#[link(name = "crpd", kind = "static")]
extern "C" {
    fn crpd_answer(text: *const u8, text_len: usize, method: u64, position: u64) -> u64;
    fn crpd_report(text: *const u8, text_len: usize, out: *mut u8, out_len: usize) -> u64;
    fn crpd_explain(
        text: *const u8,
        text_len: usize,
        method: u64,
        position: u64,
        out: *mut u8,
        out_len: usize,
    ) -> u64;
    fn crpd_rewrite(text: *const u8, text_len: usize, out: *mut u8, out_len: usize) -> u64;
    fn crpd_growth(text: *const u8, text_len: usize, method: u64) -> u64;
    fn crpd_scaled(
        text: *const u8,
        text_len: usize,
        method: u64,
        out: *mut u8,
        out_len: usize,
    ) -> u64;
    fn crpd_check(
        text: *const u8,
        text_len: usize,
        list: *const u8,
        list_len: usize,
        method: u64,
        out: *mut u8,
        out_len: usize,
    ) -> u64;
    fn crpd_edf(text: *const u8, text_len: usize) -> u64;
    fn crpd_replay(text: *const u8, text_len: usize, position: u64) -> u64;
    fn crpd_ticks(
        text: *const u8,
        text_len: usize,
        from: u64,
        out: *mut u8,
        out_len: usize,
    ) -> u64;
    fn crpd_print(text: *const u8, text_len: usize, out: *mut u8, out_len: usize) -> u64;
}

/// A refusal's number, and the line that it tells (0 where it tells none). Those of a text are 1 to 11
/// and 17, 15 and 16 where it has access lines, and 18 where it names the ways; 12 and 13 are those of a
/// method and a position, 19 and 20 those of a partner's list, 21 to 23 those of a table that earliest
/// deadline first is not asked of, 21, 22 and 24 those of a replay, and 14 that of a buffer. docs/RULES.md
/// says when each is given.
#[derive(Clone, Copy, Debug, PartialEq, Eq)]
pub struct Refusal {
    pub number: u32,
    pub line: u32,
}

// Below 2^32 a number is the answer, from there on a refusal.
fn told(answer: u64) -> Result<u32, Refusal> {
    let (number, low) = ((answer >> 32) as u32, answer as u32);
    if number == 0 {
        Ok(low)
    } else {
        Err(Refusal { number, line: low })
    }
}

/// The response, in ticks, of the task at a position (from 0) under a method (0 to 5), or `None` where
/// the task is unschedulable: the largest over the accesses that may block it, if there are any. Method 3
/// is never larger than 1, 4 never larger than 2, and 5 never larger than 3 and 4, where `None` counts as
/// larger than any number.
pub fn answer(text: &[u8], method: u64, position: u64) -> Result<Option<u32>, Refusal> {
    let answer = told(unsafe { crpd_answer(text.as_ptr(), text.len(), method, position) })?;
    Ok(Some(answer).filter(|&ticks| ticks != 0))
}

/// Writes the report at the start of `out` and gives its length. A refused report leaves `out` as it was.
pub fn report(text: &[u8], out: &mut [u8]) -> Result<usize, Refusal> {
    let written = unsafe { crpd_report(text.as_ptr(), text.len(), out.as_mut_ptr(), out.len()) };
    told(written).map(|length| length as usize)
}

/// Writes the explanation of what `answer` gives for the same method and position at the start of `out`
/// and gives its length: a line `X` with what the task needs, whatever its limit is, and how long it is
/// blocked, and a line `I` for each task above it with what that adds. A refused explanation leaves `out`
/// as it was.
pub fn explain(text: &[u8], method: u64, position: u64, out: &mut [u8]) -> Result<usize, Refusal> {
    let (start, room) = (out.as_mut_ptr(), out.len());
    let written = unsafe { crpd_explain(text.as_ptr(), text.len(), method, position, start, room) };
    told(written).map(|length| length as usize)
}

/// Reads the table, writes its text at the start of `out` and gives its length. A table has just one
/// spelling, so of an accepted text it is the same bytes. A refused text leaves `out` as it was.
pub fn rewrite(text: &[u8], out: &mut [u8]) -> Result<usize, Refusal> {
    let written = unsafe { crpd_rewrite(text.as_ptr(), text.len(), out.as_mut_ptr(), out.len()) };
    told(written).map(|length| length as usize)
}

/// How much growth of execution times is left under a method (0 to 5), in thousandths: the greatest k from
/// 1 to 4000 with which the table passes, each C replaced by C * k / 1000, rounded up: its text is accepted,
/// and its verdict is yes. 0 where none passes; 1000 is the table as it is, and at 4000 a larger one might
/// pass, too.
pub fn growth(text: &[u8], method: u64) -> Result<u32, Refusal> {
    told(unsafe { crpd_growth(text.as_ptr(), text.len(), method) })
}

/// Writes the text of the table with that growth at the start of `out` and gives its length; where the growth
/// is 0, that of the table as it is. `TABLE_MOST` bytes are always enough. A refused one leaves `out` as it
/// was.
pub fn scaled(text: &[u8], method: u64, out: &mut [u8]) -> Result<usize, Refusal> {
    let (start, room) = (out.as_mut_ptr(), out.len());
    let written = unsafe { crpd_scaled(text.as_ptr(), text.len(), method, start, room) };
    told(written).map(|length| length as usize)
}

/// Checks a partner's list of responses, lines `R`, name, number or `-` in the table's order, under a method
/// (0 to 5), writes what is found at the start of `out` and gives its length: a line `C` for each task with its
/// name and `ok`, `open` or `bad`. A number that is ok is never below what `answer` gives; that number itself is
/// never bad, and ok where at most one access may block the task. A refused list leaves `out` as it was.
pub fn check(text: &[u8], list: &[u8], method: u64, out: &mut [u8]) -> Result<usize, Refusal> {
    let (claims, count) = (list.as_ptr(), list.len());
    let (start, room) = (out.as_mut_ptr(), out.len());
    let (table, len) = (text.as_ptr(), text.len());
    let written = unsafe { crpd_check(table, len, claims, count, method, start, room) };
    told(written).map(|length| length as usize)
}

/// Whether the tasks are schedulable by earliest deadline first. Each job is charged its own C and, for its
/// pre-emptions by each task with a smaller deadline, what it has to reload after them. They are exactly if
/// at every whole time the jobs that are released and due within that time ask for no more than it. No task
/// may have a jitter, and the table no access line; and the least common multiple of the periods may not be
/// above 250,000,000.
pub fn edf(text: &[u8]) -> Result<bool, Refusal> {
    told(unsafe { crpd_edf(text.as_ptr(), text.len()) }).map(|verdict| verdict == 1)
}

/// Replays the table tick by tick, without a word of the equation: all tasks release a job at tick 0 and then
/// every period, and each tick runs the highest task that has work. The count of ticks, at most 100,000, by
/// which the first job of the task at a position has ended, or `None` where it is unfinished at its deadline.
/// It is what `answer` gives under method 0. Refused are a table with a jitter above 0 (21) and one with an
/// access line (22), and, behind 13, a deadline of the task above 100,000 (24).
pub fn replay(text: &[u8], position: u64) -> Result<Option<u32>, Refusal> {
    let end = told(unsafe { crpd_replay(text.as_ptr(), text.len(), position) })?;
    Ok(Some(end).filter(|&ticks| ticks != 0))
}

/// Writes which task runs in each of 100 ticks of that replay, from one on, as far as a replay goes, at the start
/// of `out` and gives the length: a line for each tick, the tick and the name of the task, or `-` where none has
/// work. `TICKS_MOST` bytes are always enough. Refused ticks leave `out` as it was.
pub fn ticks(text: &[u8], from: u64, out: &mut [u8]) -> Result<usize, Refusal> {
    let (start, room) = (out.as_mut_ptr(), out.len());
    let written = unsafe { crpd_ticks(text.as_ptr(), text.len(), from, start, room) };
    told(written).map(|length| length as usize)
}

/// What the program `crpd-report` prints: the report, or the line of the text's refusal.
pub fn print(text: &[u8]) -> Vec<u8> {
    let mut out = vec![0; REPORT_MOST];
    let written = unsafe { crpd_print(text.as_ptr(), text.len(), out.as_mut_ptr(), out.len()) };
    out.truncate(told(written).map_or(0, |length| length as usize));
    out
}
