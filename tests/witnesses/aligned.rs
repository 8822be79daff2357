// What the public functions of `aligned` answer.
use crate::{aligned_bytes, Cell, Content, Tone};
use ::heap::Global;

#[path = "common.rs"]
mod common;
use common::{number, text, Args};

// A cell: its tone from 0 to 3, and `n` with a number, `w` with words, or nothing.
fn cell(said: &str) -> Cell<'_> {
    let (tone, content) = (&said[..1], &said[1..]);
    Cell {
        content: match content.get(..1) {
            Some("n") => Content::Number(number(&content[1..])),
            Some("w") => Content::Words(content[1..].as_bytes()),
            _ => Content::Nothing,
        },
        tone: [Tone::Plain, Tone::Heading, Tone::Good, Tone::Bad][number(tone) as usize],
    }
}

fn answer(name: &str, args: &mut Args) -> String {
    assert_eq!(name, "aligned");
    let (colours, said) = (args.number() == 1, args.bytes());
    let said = String::from_utf8(said).expect("a text");
    let lines: Vec<[Cell<'_>; 8]> = said
        .lines()
        .map(|line| {
            let cells: Vec<Cell<'_>> = line.split('\t').map(cell).collect();
            std::array::from_fn(|k| cells[k])
        })
        .collect();
    text(&aligned_bytes(Global, &lines, colours).unwrap())
}

pub fn main() {
    common::run(answer);
}
