// What the public functions of `builds` answer, over a folder in memory.
use crate::{print, sort, write_report, write_reports, Build, Fate, Folder, Part, Unread, Unwritten};
use ::heap::{Global, Vec as Room};

#[path = "common.rs"]
mod common;
use common::{show, text, unknown, Args};

// Of each build its way, its text, and whether it is read and written: 0 both, 1 not read, 2 not written.
struct Held(Vec<(Vec<u8>, Vec<u8>, u64)>, Vec<(String, String)>);

impl Held {
    fn of(args: &mut Args) -> Held {
        let mut held = vec![];
        while !args.is_done() {
            held.push((args.bytes(), args.bytes(), args.number()));
        }
        Held(held, vec![])
    }

    fn builds(&self) -> Vec<Build> {
        let build = |way: &Vec<u8>| Build::at(Global, Room(way.clone())).unwrap();
        self.0.iter().map(|it| build(&it.0)).collect()
    }

    fn at(&self, build: &Build) -> &(Vec<u8>, Vec<u8>, u64) {
        self.0.iter().find(|it| it.0[..] == build.way[..]).unwrap()
    }
}

impl Folder for Held {
    fn read(&mut self, build: &Build, buf: &mut [u8]) -> Result<usize, Unread> {
        let (_, said, how) = self.at(build);
        if *how == 1 {
            return Err(Unread);
        }
        let len = said.len().min(buf.len());
        buf[..len].copy_from_slice(&said[..len]);
        Ok(len)
    }

    fn put(&mut self, build: &Build, report: &[u8]) -> Result<(), Unwritten> {
        if self.at(build).2 == 2 {
            return Err(Unwritten);
        }
        self.1.push((text(&build.way), text(report)));
        Ok(())
    }

    fn hear(&mut self, _: &Build, _: &[u8], _: Fate) {}
}

fn answer(name: &str, args: &mut Args) -> String {
    match name {
        "print_build" => {
            let mut out = [b'~'; 2746];
            let told = print(&args.bytes(), &mut out);
            format!("{} {}", show(&told), text(&out[..told.len]))
        }
        "build_at" => {
            let build = Build::at(Global, Room(args.bytes())).unwrap();
            format!("{} {}", text(&build.way), text(&build.name))
        }
        "part" => show(Part::new(args.size(), args.size())),
        "sort" => {
            let mut builds = Room(Held::of(args).builds());
            sort(&mut builds).unwrap();
            show(builds.iter().map(|it| text(&it.name)).collect::<Vec<_>>())
        }
        "write_report" => {
            let mut held = Held::of(args);
            let builds = held.builds();
            let fate = write_report(&mut held, &builds[0]);
            format!("{} {}", show(fate), show(&held.1))
        }
        "write_reports" => {
            let part = Part::new(args.size(), args.size()).unwrap();
            let mut held = Held::of(args);
            let builds = held.builds();
            let run = write_reports(Global, &mut held, &builds, part).unwrap();
            format!("{} {} {}", text(&run.list), show(&run.fates[..]), show(&held.1))
        }
        _ => unknown(name),
    }
}

pub fn main() {
    common::run(answer);
}
