// What `answered` writes and tells.
use crate::{answer as answer_to, check, ending_checked, Question};
use ::endings::Answered;

#[path = "common.rs"]
mod common;
use common::{text, unknown, Args};

fn told(answered: Answered, out: &[u8]) -> String {
    format!("{} {} {}", text(out), common::show(answered.ending), answered.written.is_ok())
}

fn answer(name: &str, args: &mut Args) -> String {
    let bytes = args.bytes();
    let mut out = vec![];
    let question = match name {
        "check" => {
            let (list, method) = (args.bytes(), args.number());
            return told(check(&bytes, &list, method, &mut out), &out);
        }
        "ending_checked" => {
            let (list, method) = (args.bytes(), args.number());
            return common::show(ending_checked(&bytes, &list, method));
        }
        "report" => Question::Report,
        "answer" => Question::Answer { method: args.number(), position: args.number() },
        "explain" => Question::Explain { method: args.number(), position: args.number() },
        "growth" => Question::Growth { method: args.number() },
        "scaled" => Question::Scaled { method: args.number() },
        "edf" => Question::Edf,
        "replay" => Question::Replay { position: args.number() },
        _ => return unknown(name),
    };
    told(answer_to(question, &bytes, &mut out), &out)
}

pub fn main() {
    common::run(answer);
}
