// What the exported functions answer.
use crate::{
    crpd_answer, crpd_check, crpd_edf, crpd_explain, crpd_growth, crpd_print, crpd_replay, crpd_report,
    crpd_rewrite, crpd_scaled, crpd_ticks,
};

#[path = "common.rs"]
mod common;
use common::{filled, show, unknown, Args};

fn answer(name: &str, args: &mut Args) -> String {
    match name {
        "crpd_answer" => show(crpd_answer(&args.bytes(), args.number(), args.number())),
        "crpd_report" => {
            let (text, mut out) = (args.bytes(), args.buffer());
            filled(crpd_report(&text, &mut out), &out)
        }
        "crpd_explain" => {
            let (text, method, position, mut out) =
                (args.bytes(), args.number(), args.number(), args.buffer());
            filled(crpd_explain(&text, method, position, &mut out), &out)
        }
        "crpd_rewrite" => {
            let (text, mut out) = (args.bytes(), args.buffer());
            filled(crpd_rewrite(&text, &mut out), &out)
        }
        "crpd_growth" => show(crpd_growth(&args.bytes(), args.number())),
        "crpd_scaled" => {
            let (text, method, mut out) = (args.bytes(), args.number(), args.buffer());
            filled(crpd_scaled(&text, method, &mut out), &out)
        }
        "crpd_edf" => show(crpd_edf(&args.bytes())),
        "crpd_check" => {
            let (text, list, method, mut out) =
                (args.bytes(), args.bytes(), args.number(), args.buffer());
            filled(crpd_check(&text, &list, method, &mut out), &out)
        }
        "crpd_replay" => show(crpd_replay(&args.bytes(), args.number())),
        "crpd_ticks" => {
            let (text, from, mut out) = (args.bytes(), args.number(), args.buffer());
            filled(crpd_ticks(&text, from, &mut out), &out)
        }
        "crpd_print" => {
            let (text, mut out) = (args.bytes(), args.buffer());
            filled(crpd_print(&text, &mut out), &out)
        }
        _ => unknown(name),
    }
}

pub fn main() {
    common::run(answer);
}
