//! What holds of two answers, whatever they are: by two methods, with a task line more, and where lines are
//! changed on which the answer does not depend.

use super::{answer, code_in_words, Compared, Difference};
use crate::library;
use crate::model::laws::{exceeds, pairs, Added, Answer, Said};
use crate::model::{Error, Outcome, Refusal, METHODS};

/// No explanation is longer.
const ROOM: usize = 2_000;

/// A text and what the model has to say of it.
pub struct Known<'a> {
    pub text: &'a [u8],
    pub outcome: &'a Outcome,
}

impl Known<'_> {
    /// That it is accepted, and that the library's answers are those of the model.
    pub fn held(&self) -> Compared {
        if let Some(refusal) = self.outcome.refusal() {
            return Err(Difference {
                asked: "a table that is meant to be accepted".to_string(),
                model: code_in_words(refusal.code()),
                library: code_in_words(library::answer(self.text, 0, 0)),
            });
        }
        let answers = each(self.tasks());
        let compared = answers
            .map(|(method, position)| answer(self.text, self.outcome, method, position as u64));
        compared.sum()
    }

    fn tasks(&self) -> usize {
        self.outcome.rows().len()
    }

    /// By one of the methods; none where there is no task.
    fn answer(&self, method: u64, position: usize) -> Answer {
        let row = self.outcome.rows().get(position);
        row.and_then(|row| row.answers[method as usize])
    }

    /// What the library returns and writes.
    fn explanation(&self, method: u64, position: usize) -> (u64, Vec<u8>) {
        let mut out = [0; ROOM];
        let code = library::explain(self.text, method, position as u64, &mut out);
        let written = out.get(..code as usize).unwrap_or(&[]);
        (code, written.to_vec())
    }
}

fn each(tasks: usize) -> impl Iterator<Item = (u64, usize)> {
    (0..METHODS).flat_map(move |method| (0..tasks).map(move |position| (method, position)))
}

/// The refusal that a text is meant to meet, by the report and by an answer.
pub fn refused(known: &Known, refusal: Refusal) -> Compared {
    let by_report = library::report(known.text, &mut [0; ROOM]);
    let by_answer = library::answer(known.text, 0, 0);
    let given = [by_report, by_answer];
    if given == [refusal.code(); 2] && known.outcome.refusal() == Some(refusal) {
        return Ok(2);
    }
    Err(Difference {
        asked: format!("what is meant to be {}", code_in_words(refusal.code())),
        model: format!("{:?}", known.outcome.refusal()),
        library: given.map(code_in_words).join(" and "),
    })
}

/// The answers of all tasks of a table beside those with a line more, and the explanations of those that
/// keep their answers.
pub fn line_more(before: &Known, after: &Known, added: &Added) -> Compared {
    let mut compared = after.held()?;
    for (method, position) in each(before.tasks()) {
        let said = added.says(position);
        let moved = added.moved(position);
        let answers = (before.answer(method, position), after.answer(method, moved));
        if !said.holds(answers.0, answers.1, added.error) {
            let asked = format!("method {method}, the task at {position} with a line more");
            return Err(of_two(asked, &format!("{said:?}"), answers));
        }
        compared += 1;
        if said == Said::Same {
            compared += explained_alike(before, after, method, (position, moved))?;
        }
    }
    Ok(compared)
}

/// The same of a table and of what is left of it without the task of a name, where both are accepted.
pub fn line_of(name: &str, text: &[u8], error: Option<Error>) -> Compared {
    let lines: Vec<&[u8]> = text.split_inclusive(|byte| *byte == b'\n').collect();
    let start = format!("T\t{name}\t");
    let of_name = |line: &&[u8]| line.starts_with(start.as_bytes());
    let place = match lines.iter().position(of_name) {
        Some(line) if line > 0 => line - 1,
        _ => return Ok(0),
    };
    let shorter = [&lines[..place + 1], &lines[place + 2..]].concat().concat();
    let (without, with) = (Outcome::of(&shorter, None), Outcome::of(text, None));
    if without.refusal().is_some() || with.refusal().is_some() {
        return Ok(0);
    }
    let before = Known {
        text: &shorter,
        outcome: &without,
    };
    let after = Known {
        text,
        outcome: &with,
    };
    line_more(&before, &after, &Added { place, error })
}

/// The answers and explanations of the task at `i` of two tables.
pub fn alike(before: &Known, after: &Known, i: usize) -> Compared {
    let mut compared = after.held()?;
    for method in 0..METHODS {
        let answers = (before.answer(method, i), after.answer(method, i));
        if !Said::Same.holds(answers.0, answers.1, None) {
            let asked = format!("method {method}, the task at {i} with other lines changed");
            return Err(of_two(asked, "Same", answers));
        }
        compared += 1 + explained_alike(before, after, method, (i, i))?;
    }
    Ok(compared)
}

fn explained_alike(
    before: &Known,
    after: &Known,
    method: u64,
    (position, moved): (usize, usize),
) -> Compared {
    let explained = before.explanation(method, position);
    let again = after.explanation(method, moved);
    if explained == again {
        return Ok(1);
    }
    let words = |(code, text): (u64, Vec<u8>)| format!("{code}: {}", text.escape_ascii());
    Err(Difference {
        asked: format!("explanation by method {method}, the task at {position}"),
        model: format!("Same as {}", words(explained)),
        library: words(again),
    })
}

/// The methods beside each other, in the library's report.
pub fn order(text: &[u8], error: Option<Error>) -> Compared {
    let mut compared = 0;
    for answers in reported(text) {
        for (least, most) in pairs(error) {
            let two = (answers[least], answers[most]);
            if exceeds(two.0, two.1, error) {
                let asked = format!("method {least} beside method {most}");
                return Err(of_two(asked, "not above", two));
            }
            compared += 1;
        }
    }
    Ok(compared)
}

/// The answers that the library reports of each task; nothing of a text that is refused.
fn reported(text: &[u8]) -> Vec<Vec<Answer>> {
    let mut out = [0; 2_746];
    let code = library::report(text, &mut out);
    let report = out.get(..code as usize).unwrap_or(&[]);
    let lines = report.split(|byte| *byte == b'\n');
    let fields = lines.map(|line| line.split(|byte| *byte == b'\t'));
    let number = |field: &[u8]| std::str::from_utf8(field).ok()?.parse().ok();
    let answers = fields.map(|fields| fields.skip(3).map(number).collect());
    let tasks = report.iter().filter(|byte| **byte == b'\n').count();
    answers.take(tasks.saturating_sub(1)).collect()
}

fn of_two(asked: String, said: &str, (one, other): (Answer, Answer)) -> Difference {
    let words = |answer: Answer| match answer {
        Some(ticks) => format!("{ticks} ticks"),
        None => "unschedulable".to_string(),
    };
    Difference {
        asked,
        model: said.to_string(),
        library: format!("{} and {}", words(one), words(other)),
    }
}

#[cfg(test)]
mod tests {
    use super::*;
    use crate::figures::table_m;

    #[test]
    fn a_report_is_read_back() {
        let rows = Outcome::of(&table_m(), None).rows().to_vec();
        let answers: Vec<Vec<Answer>> = rows.iter().map(|row| row.answers.to_vec()).collect();
        assert_eq!(reported(&table_m()), answers);
        assert!(reported(b"").is_empty());
    }

    #[test]
    fn each_line_of_a_table_is_one_more() {
        for name in ["a", "b", "c"] {
            assert!(matches!(line_of(name, &table_m(), None), Ok(1..)));
        }
        let moved = line_of("a", &table_m(), Some(Error::ForgetsToMove));
        assert!(moved.is_err());
        assert!(matches!(line_of("d", &table_m(), None), Ok(0)));
    }
}
