#!/usr/bin/env python3
"""plain_rust.py OUT CRATE..: the sources of these crates, and of those below them, as plain Rust in OUT, compiled by rustc in seconds: contracts, ghosts and tactics are
taken out, and every type can be shown by `{:?}`. What comes out is proved by nobody. It is for what wants many builds or no proof: programs with an error in them, and counts
of turns. As a module: `build(root, out, names, changes)`.

What stands for a crate of the kit: `memchr` is a line below. A program's `main` gets a stand-in for Rattle's runtime, which has the three standard streams."""
import glob
import os
import re
import subprocess
import sys

# Vectors and texts whose memory may run out: here it does not.
HEAP = """
#[derive(Clone, Copy, Debug)]
pub struct Global;
#[derive(Clone, Copy, Debug)]
pub struct AllocError;
#[derive(Debug)]
pub struct Vec<T>(pub std::vec::Vec<T>);
impl<T> Vec<T> {
    pub fn new(_: Global) -> Self { Vec(vec![]) }
    pub fn from_slice(_: Global, them: &[T]) -> Result<Self, AllocError> where T: Clone { Ok(Vec(them.to_vec())) }
    pub fn push(&mut self, it: T) -> Result<(), AllocError> { Ok(self.0.push(it)) }
    pub fn extend_from_slice(&mut self, them: &[T]) -> Result<(), AllocError> where T: Clone { Ok(self.0.extend_from_slice(them)) }
    pub fn allocator(&self) -> &Global { &Global }
    pub fn as_slice(&self) -> &[T] { &self.0 }
    pub fn sort(&mut self) -> Result<(), AllocError> where T: Ord { Ok(self.0.sort()) }
    pub fn sort_by<F: FnMut(&T, &T) -> std::cmp::Ordering>(&mut self, by: F) -> Result<(), AllocError> { Ok(self.0.sort_by(by)) }
}
#[derive(Debug)]
pub struct String(pub std::string::String);
impl String {
    pub fn new(_: Global) -> Self { String(std::string::String::new()) }
    pub fn from_str(_: Global, it: &str) -> Result<Self, AllocError> { Ok(String(it.to_string())) }
    pub fn from_utf8_lossy(_: Global, them: &[u8]) -> Result<Self, AllocError> { Ok(String(std::string::String::from_utf8_lossy(them).into_owned())) }
    pub fn told(it: std::fmt::Arguments<'_>) -> Result<Self, AllocError> { Ok(String(it.to_string())) }
    pub fn push(&mut self, it: char) -> Result<(), AllocError> { Ok(self.0.push(it)) }
    pub fn push_str(&mut self, it: &str) -> Result<(), AllocError> { Ok(self.0.push_str(it)) }
    pub fn write_fmt(&mut self, it: std::fmt::Arguments<'_>) -> Result<(), AllocError> { Ok(self.0.push_str(&it.to_string())) }
    pub fn is_empty(&self) -> bool { self.0.is_empty() }
    pub fn as_str(&self) -> &str { &self.0 }
}
impl std::fmt::Display for String {
    fn fmt(&self, f: &mut std::fmt::Formatter<'_>) -> std::fmt::Result { f.write_str(&self.0) }
}
#[macro_export]
macro_rules! told {
    ($($it:tt)*) => { $crate::String::told(format_args!($($it)*)) };
}
impl From<AllocError> for std::io::Error {
    fn from(_: AllocError) -> Self { std::io::ErrorKind::OutOfMemory.into() }
}
impl<T> std::ops::Deref for Vec<T> {
    type Target = [T];
    fn deref(&self) -> &[T] { &self.0 }
}
"""

# Crates of the kit, and what stands for them here; `heap` for what is allocated.
KIT = {"memchr": "pub fn memchr(c: u8, s: &[u8]) -> Option<usize> { s.iter().position(|x| *x == c) }\n", "heap": HEAP}
ALLOCATES = re.compile(r"use std::alloc::(?:\{AllocError, Global\}|AllocError|Global);")

RUNTIME = """
pub struct HostRuntime;
impl HostRuntime {
    pub fn stdin(&self) -> std::io::Stdin { std::io::stdin() }
    pub fn stdout(&self) -> std::io::Stdout { std::io::stdout() }
    pub fn stderr(&self) -> std::io::Stderr { std::io::stderr() }
}
"""

# What begins a line and is no part of the program: a clause, or a ghost item.
GHOST = re.compile(r"^[ \t]*(?:pub )?(requires|ensures|ghost)\b", re.M)
MODEL = re.compile(r"^impl[^\n{]*\bModel for[^{]*\{", re.M)
TOLD = re.compile(r"\bformat!\(in [\w.()]+;")
TACTIC = re.compile(r"[ \t]*#!?\[tactic\([^\]]*\)\]\n?")
DERIVE = re.compile(r"[ \t]*#\[derive\(([^)]*)\)\]\n")
TYPE = re.compile(r"^([ \t]*)((?:pub(?:\([a-z]+\))? )?(?:struct|enum) )", re.M)


def behind(text, at):
    """The place behind the braces that open first from here on; in a clause they come in pairs."""
    depth = 0
    for at in range(text.index("{", at), len(text)):
        depth += {"{": 1, "}": -1}.get(text[at], 0)
        if depth == 0:
            return at + 1
    raise ValueError("braces that are not closed")


def clause_end(text, found):
    """The place behind a clause or a ghost item, with the comma or semicolon that ends it."""
    if re.match(r"[ \t]*ghost use\b", found[0] + text[found.end() :]):
        return text.index(";", found.end()) + 1
    end = behind(text, found.start())
    return end + text.startswith((",", ";") if found[1] == "ghost" else ",", end)


def derived(found):
    """What a type derives here: Debug is put to each, and no type needs the leave to be dropped."""
    kept = [it for it in re.split(r",\s*", found[1]) if it not in ("Drop", "Model", "Debug")]
    return "#[derive(%s)]\n" % ", ".join(kept) if kept else ""


def plain(text):
    """A file's text without what is proved."""
    while found := GHOST.search(text):
        text = text[: found.start()] + text[clause_end(text, found) :]
    while found := MODEL.search(text):
        text = text[: found.start()] + text[behind(text, found.start()) :]
    text = TACTIC.sub("", text).replace("use std::marker::Model;\n", "").replace("ErrorKind, Print, ", "ErrorKind, ")
    text = text.replace("use std::alloc::{AllocError, Global};", "use ::heap::{AllocError, Global, String, Vec};")
    text = re.sub(r"use std::alloc::(AllocError|Global);", r"use ::heap::{\1, Vec};", text)
    text = TOLD.sub("::heap::told!(", text)
    return TYPE.sub(r"\1#[derive(Debug)] \2", DERIVE.sub(derived, text))


def crates(root):
    """Of each crate of crates.txt the crates that it uses."""
    uses = {}
    with open(root + "/crates.txt", encoding="utf-8") as lines:
        for line in lines:
            name, colon, used = line.partition("#")[0].partition(":")
            if colon:
                uses[name.split()[0]] = used.split()
    for name in uses:
        texts = []
        for path in glob.glob("%s/crates/%s/src/**/*.rt" % (root, name), recursive=True):
            with open(path, encoding="utf-8") as it:
                texts.append(it.read())
        uses[name] += ["heap"] * any(ALLOCATES.search(text) for text in texts)
    return uses


def below(uses, names):
    """These crates and those below them, each behind those that it uses, with those of the kit."""
    order = []

    def visit(name):
        if name not in order:
            for used in uses.get(name, []):
                visit(used)
            order.append(name)

    for name in names:
        visit(name)
    return order


def sources(root, name, changes=None):
    """The files of a crate as plain Rust, by their path below src/, each ending in .rs. `changes` are texts that stand in place of a file's own, by its path in the crate
    (`src/lib.rt`)."""
    if name in KIT:
        return {"lib.rs": KIT[name]}
    top = "%s/crates/%s/src" % (root, name)
    found = {}
    for at, _, files in os.walk(top):
        for file in sorted(files):
            if file.endswith(".rt"):
                path = os.path.relpath("%s/%s" % (at, file), top)
                text = (changes or {}).get("src/" + path)
                if text is None:
                    with open("%s/%s" % (top, path), encoding="utf-8") as it:
                        text = it.read()
                text = plain(text)
                if file == "main.rt":
                    text = text.replace("fn main(rt: HostRuntime)", "fn main() -> ExitCode {\n    started(HostRuntime)\n}\n\nfn started(rt: HostRuntime)") + RUNTIME
                found[path[:-1] + "s"] = text
    return found


def write(folder, files):
    """Writes files below a folder."""
    for path, text in files.items():
        file = "%s/%s" % (folder, path)
        os.makedirs(os.path.dirname(file), exist_ok=True)
        with open(file, "w", encoding="utf-8") as it:
            it.write(text)


def rustc(words, folder):
    """Calls rustc, and says what it said where it fails."""
    ran = subprocess.run(["rustc", "--edition", "2021", "-A", "warnings", *words], cwd=folder, stdin=subprocess.DEVNULL, stdout=subprocess.PIPE, stderr=subprocess.STDOUT, text=True)
    if ran.returncode:
        raise ValueError("rustc %s:\n%s" % (" ".join(words), ran.stdout[-4000:]))


def used(out, uses, name):
    """The words by which rustc finds the libraries below a crate: whoever calls it may name others than it does itself."""
    words = ["-L", out]
    for it in below(uses, uses.get(name, [])):
        words += ["--extern", "%s=%s/lib%s.rlib" % (it, out, it)]
    return words


def build(root, out, names, changes=None, options=("-C", "opt-level=3")):
    """Builds these crates and those below them as rlibs in `out`, a folder: out/libNAME.rlib, from out/src/NAME/*.rs, or out/NAME of a program. `changes` has of a crate the texts in place of its
    files': {"search": {"src/hasten.rt": text}}. Returns the words with which rustc builds a program over them."""
    out, uses = os.path.abspath(out), crates(root)
    words = ["-L", out]
    for name in below(uses, names):
        files = sources(root, name, (changes or {}).get(name))
        write("%s/src/%s" % (out, name), files)
        root_file = "lib.rs" if "lib.rs" in files else "main.rs"
        kind = "rlib" if root_file == "lib.rs" else "bin"
        rustc(["--crate-type", kind, "--crate-name", name, *options, *used(out, uses, name), "--out-dir", out, "src/%s/%s" % (name, root_file)], out)
        if kind == "rlib":
            words += ["--extern", "%s=%s/lib%s.rlib" % (name, out, name)]
    return words


if __name__ == "__main__":
    print(" ".join(build(os.path.dirname(os.path.dirname(os.path.abspath(__file__))), sys.argv[1], sys.argv[2:])))
