// What the program does with readers and writers of every kind.
use crate::{run, Failure};

#[path = "common.rs"]
mod common;
use common::{show, text, Args};
#[path = "pieces.rs"]
mod pieces;
use pieces::{Room, Steps};

// Whether the promise of `run` is kept, which leaves it open when a read or a write fails: where it is done all that is printed of the bytes is written and how it went
// is told, where a write failed a part is written, and where no read failed as many of them are read as a text may have, and one more; where one failed nothing is written.
fn answer(name: &str, args: &mut Args) -> String {
    assert_eq!(name, "run");
    let (bytes, steps, room) = (args.bytes(), args.list(), args.size());
    let mut reader = Steps {
        left: bytes.clone(),
        steps: steps.into_iter(),
    };
    let mut writer = Room(vec![], room);
    let ran = run(&mut reader, &mut writer);
    let (read, unread) = bytes.split_at(bytes.len().min(16385));
    let mut out = [0u8; 2746];
    let printed = crpd::print(read, &mut out);
    let all = &out[..printed.len];
    let is_kept = match ran {
        Ok(outcome) => {
            show(outcome) == show(printed.outcome) && writer.0 == all && reader.left == unread
        }
        Err(Failure::Write(_)) => all.starts_with(&writer.0) && reader.left == unread,
        Err(Failure::Read) => writer.0.is_empty(),
    };
    if is_kept {
        "as promised".to_string()
    } else {
        format!("not as promised: {}", text(&writer.0))
    }
}

pub fn main() {
    common::run(answer);
}
