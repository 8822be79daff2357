"""Builds for tests/pool.py: tables in folders, their reports, the list, and what must be there after a run."""
import collections
import contextlib
import functools
import itertools
import os
import random
import re
import stat
import tempfile

from common import all_printed, contents, examples, must, same, spelled, status_of, write

FOLDERS = [
    b"", b"a/", b"a/b/", b"a/b/c/", b"with space/", b"-j/", b"line\nend/", b"y.table/", b".hidden/", "é/".encode(),
    b"d/" * 100,
]
ODD = [
    b".table", b"-.table", b"--jobs.table", b"a b.table", b"a\tb.table", b"a\nb.table", b"aZ.table", b"back\\slash.table",
    b"back.table", b"\x1b[31m.table", b"x.table.table", b"x.report.table", b"\x7f.table", "ü.table".encode(),
    b"zz.table",
]
COUNT, DIFFERENT = 2000, 1000

Build = collections.namedtuple("Build", "text report")


def corrected(pick, text):
    """A table of other figures, which may be refused for them."""
    lines = [line.split(b"\t") for line in text.splitlines()]
    for fields in lines:
        if fields[0] == b"T":
            longer = pick.choice((1, 1, 2, 3))
            fields[2] = b"%d" % pick.randrange(1, longer * int(fields[2]) + 2)
            fields[3] = b"%d" % (int(fields[3]) * longer + pick.randrange(9))
            fields[5] = b"%d" % pick.choice((0, 0, 0, 1, 30))
    lines[0][2] = b"%d" % pick.choice((0, 1, 2, 5, 10))
    if pick.random() < 0.1:
        at = pick.randrange(len(lines))
        lines[at][pick.randrange(len(lines[at]))] = pick.choice((b"", b"x", b"0", b"\xff"))
    return b"\n".join(b"\t".join(fields) for fields in lines) + pick.choice((b"\n",) * 30 + (b"",))


@functools.cache
def builds():
    """Builds by the names of their tables below a folder."""
    pick = random.Random(2000)
    known = list(examples().values())
    texts = [b"", b"x" * 16384 + b"\n", b"x" * 100000] + [corrected(pick, pick.choice(known)) for _ in range(DIFFERENT - 3)]
    texts = [texts[n % DIFFERENT] for n in range(COUNT)]
    names = ODD + [FOLDERS[n % len(FOLDERS)] + b"build-%d.table" % n for n in range(COUNT - len(ODD))]
    return {name: Build(text, report) for name, text, report in zip(names, texts, all_printed(texts))}


def some(count):
    """The first builds, those with odd names and texts among them."""
    return dict(itertools.islice(builds().items(), count))


def small(count, different):
    """Builds with plain names and so many different texts, none of which is long or empty."""
    texts = [build for build in builds().values() if 0 < len(build.text) < 1000][:different]
    return {b"%d.table" % n: texts[n % different] for n in range(count)}


def report_of(name):
    return name[: -len(b".table")] + b".report"


def listed(made, failed=()):
    """The list; of a table that could not be read or its report not written, `failed` has which of the two."""
    last = lambda name: b"F\t" + failed[name] if name in failed else made[name].report.splitlines()[-1]
    return b"".join(sorted(b"%s\t%s\n" % (spelled(name), last(name)) for name in {*made, *failed}))


def worst(made):
    return max((status_of(build.report) for build in made.values()), default=0)


def found(folder):
    """All files below a folder by their names, with their contents; None for what is no regular file."""
    start = os.fsencode(folder)
    files = {}
    for path, _, names in os.walk(start):
        for name in names:
            file = os.path.join(path, name)
            files[os.path.relpath(file, start)] = contents(file) if stat.S_ISREG(os.lstat(file).st_mode) else None
    return files


def lay(folder, made, order=None):
    """Writes the tables into a folder, in the order of their names in a list where one is given."""
    for name in order or made:
        path = os.path.join(os.fsencode(folder), name)
        os.makedirs(os.path.dirname(path), exist_ok=True)
        write(path, made[name].text)


@contextlib.contextmanager
def laid(made, order=None):
    with tempfile.TemporaryDirectory() as folder:
        lay(folder, made, order)
        yield folder


def all_there(folder, made, more=None):
    """The folder has the tables and their reports, and nothing else but what is named."""
    tables = {name: build.text for name, build in made.items()}
    reports = {report_of(name): build.report for name, build in made.items()}
    expected = {**tables, **reports, **(more or {})}
    got = found(folder)
    same("what is missing in the folder", sorted(expected.keys() - got.keys())[:5], [])
    same("what else is in the folder", sorted(got.keys() - expected.keys())[:5], [])
    same("files that are not as expected", [name for name in expected if got[name] != expected[name]][:5], [])


def plain_progress(err, count):
    """Standard error of a run without a terminal, whose last line tells how many builds there were."""
    must(not re.search(rb"[\r\x1b]", err), "standard error has control characters: %.300r", err)
    last = err.decode(errors="surrogateescape").splitlines()[-1].replace(",", "")
    must(re.search(r"(?<!\d)%d builds?\b" % count, last), "the last line is %r, and there were %d builds", last, count)


def as_expected(folder, ended, made):
    same("the list", ended.out, listed(made))
    same("the status", ended.status, worst(made))
    all_there(folder, made)
    plain_progress(ended.err, len(made))


def reports_there(folder, made):
    """The names of the tables whose reports are there; each of them is whole."""
    start = os.fsencode(folder)
    there = {}
    for name in made:
        with contextlib.suppress(FileNotFoundError):
            there[name] = contents(os.path.join(start, report_of(name)))
    same("reports that are not as expected", [name for name, report in there.items() if report != made[name].report][:5], [])
    return list(there)
