// What `streams` does with readers and writers of every kind.
use crate::{read_input, read_text, write_output};
use ::heap::Global;

#[path = "common.rs"]
mod common;
use common::{unknown, Args};
#[path = "pieces.rs"]
mod pieces;
use pieces::{Room, Steps};

// Whether a promise is kept, which leaves it open when a read or a write fails.
fn answer(name: &str, args: &mut Args) -> String {
    let is_kept = match name {
        "read_input" => {
            let (bytes, steps, room) = (args.bytes(), args.list(), args.size());
            let mut reader = Steps {
                left: bytes.clone(),
                steps: steps.clone().into_iter(),
            };
            let mut buf = vec![0; room];
            let (read, unread) = bytes.split_at(bytes.len().min(room));
            match read_input(&mut reader, &mut buf) {
                Ok(len) => &buf[..len] == read && reader.left == unread,
                Err(_) => steps.contains(&1),
            }
        }
        "read_text" => {
            let bytes = args.bytes();
            let most = bytes.len().min(16_385);
            matches!(read_text(Global, &mut &bytes[..]), Ok(text) if text[..] == bytes[..most])
        }
        "write_output" => {
            let (bytes, room) = (args.bytes(), args.size());
            let mut writer = Room(vec![], room);
            match write_output(&mut writer, &bytes) {
                Ok(()) => writer.0 == bytes,
                Err(_) => writer.0.len() < bytes.len() && bytes.starts_with(&writer.0),
            }
        }
        _ => return unknown(name),
    };
    if is_kept { "as promised" } else { "not as promised" }.to_string()
}

pub fn main() {
    common::run(answer);
}
