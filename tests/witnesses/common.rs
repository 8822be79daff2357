// What the programs beside this file have in common: each reads cases, a line each, and answers each with a line. A case is a word, what is called, and what it is called with:
// numbers; lists of numbers, `3,4` or `-` for none; texts, `"K\t4\n"`, repeated and joined as in `"a"*16384+"\n"`.
use std::fmt::Debug;
use std::io::{BufRead, Write};
use std::panic::{catch_unwind, AssertUnwindSafe};

pub struct Args<'a>(std::vec::IntoIter<&'a str>);

impl<'a> Args<'a> {
    pub fn word(&mut self) -> &'a str {
        self.0.next().expect("a word is missing")
    }

    pub fn is_done(&self) -> bool {
        self.0.len() == 0
    }

    pub fn number(&mut self) -> u64 {
        number(self.word())
    }

    pub fn size(&mut self) -> usize {
        self.number() as usize
    }

    pub fn list(&mut self) -> Vec<u64> {
        let word = self.word();
        if word == "-" {
            vec![]
        } else {
            word.split(',').map(number).collect()
        }
    }

    pub fn bytes(&mut self) -> Vec<u8> {
        bytes(self.word())
    }

    // A buffer of so many bytes, none of which a text has.
    pub fn buffer(&mut self) -> Vec<u8> {
        vec![b'~'; self.size()]
    }
}

pub fn number(word: &str) -> u64 {
    word.parse().expect("a number")
}

fn bytes(word: &str) -> Vec<u8> {
    let mut text = vec![];
    let mut left = word.as_bytes();
    while !left.is_empty() {
        assert_eq!(left[0], b'"', "a text begins with a quotation mark");
        let mut piece = vec![];
        let mut k = 1;
        while left[k] != b'"' {
            if left[k] == b'\\' {
                k += 1;
                match left[k] {
                    b'n' => piece.push(b'\n'),
                    b't' => piece.push(b'\t'),
                    b'r' => piece.push(b'\r'),
                    b'x' => {
                        piece.push(
                            u8::from_str_radix(
                                std::str::from_utf8(&left[k + 1..k + 3]).unwrap(),
                                16,
                            )
                            .unwrap(),
                        );
                        k += 2;
                    }
                    other => piece.push(other),
                }
            } else {
                piece.push(left[k]);
            }
            k += 1;
        }
        left = &left[k + 1..];
        let mut times = 1;
        if left.first() == Some(&b'*') {
            let end = left.iter().position(|b| *b == b'+').unwrap_or(left.len());
            times = number(std::str::from_utf8(&left[1..end]).unwrap()) as usize;
            left = &left[end..];
        }
        for _ in 0..times {
            text.extend_from_slice(&piece);
        }
        left = left.strip_prefix(b"+").unwrap_or(left);
    }
    text
}

// A value, as Rust shows it.
pub fn show(value: impl Debug) -> String {
    format!("{:?}", value)
}

// A text, as it is written.
pub fn text(bytes: &[u8]) -> String {
    bytes.escape_ascii().to_string()
}

// What was answered, and what stands in a buffer then.
pub fn filled(answer: impl Debug, out: &[u8]) -> String {
    format!("{:?} {}", answer, text(out))
}

// The words of a line. A blank in a text is part of it.
fn words(line: &str) -> Vec<&str> {
    let mut found = vec![];
    let (mut start, mut inside, mut escaped) = (0, false, false);
    for (k, c) in line.char_indices() {
        if c == ' ' && !inside {
            if start < k {
                found.push(&line[start..k]);
            }
            start = k + 1;
        }
        if c == '"' && !escaped {
            inside = !inside;
        }
        escaped = c == '\\' && !escaped;
    }
    if start < line.len() {
        found.push(&line[start..]);
    }
    found
}

pub fn run(answer: impl Fn(&str, &mut Args) -> String) {
    std::panic::set_hook(Box::new(|_| {}));
    let out = std::io::stdout();
    for line in std::io::stdin().lock().lines() {
        let line = line.unwrap();
        let said = catch_unwind(AssertUnwindSafe(|| {
            let mut args = Args(words(&line).into_iter());
            let name = args.word();
            let said = answer(name, &mut args);
            assert!(args.is_done(), "a word too many");
            said
        }));
        let said = said.unwrap_or_else(|why| {
            let why = why
                .downcast_ref::<String>()
                .cloned()
                .or_else(|| why.downcast_ref::<&str>().map(|it| it.to_string()));
            format!("FAULT {}", why.unwrap_or_default().replace('\n', " "))
        });
        writeln!(out.lock(), "{}", said).unwrap();
    }
}

pub fn unknown(name: &str) -> String {
    panic!("nothing is called {}", name)
}
