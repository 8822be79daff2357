#!/usr/bin/env python3
"""changes.py [COMMAND..]: runs `crpd changes`, or another command that is to do the same, over pairs of tables and of folders. What it must print is made here, from the
texts of the tables and from what crpd-report prints of each. One line for each case; the last line is `N passed, M failed`."""
import itertools
import os
import random
import re
import subprocess
import sys
import tempfile

from cases.builds import Build, builds, corrected, laid, lay, some
from common import METHODS, ROOT, SECONDS, Ended, all_printed, build, contents, examples, must, obeying_modes, printed, run, same, spelled, tell, write

TASK = ["C", "T", "D", "J", None, "UCB", "ECB"]  # the columns after the name; B is always 0
ACCESS = ["task", "ceiling", "length", "UCB"]


# what must be printed


def text_of(*lines):
    return b"".join("\t".join(line.split()).encode() + b"\n" for line in lines)


def fields_of(text):
    return [line.split("\t") for line in text.decode().splitlines()]


def sets_of(field, head, counted):
    """A figure of cache sets, apart from the number of digits that it is written with: how many blocks each cache set has."""
    if counted and len(head) == 4:
        return tuple(int(digit) for digit in reversed(field.lstrip("0")))
    number = int(field, 16)
    return tuple(number >> s & 1 for s in range(number.bit_length()))


class Table:
    """A table that is accepted, and its report."""

    def __init__(self, text, report):
        lines = fields_of(text)
        self.head = lines[0]
        self.tasks = {line[1]: line[2:] for line in lines if line[0] == "T"}
        self.accesses = [line[1:] for line in lines if line[0] == "A"]
        told = fields_of(report)
        self.answers = {line[1]: line[3:] for line in told if line[0] == "R"}
        self.verdicts = told[-1][1:]


def moved_figures(old, new):
    """Of each figure that moved the line, the column, the old and the new value."""
    for at, column in enumerate(["cache sets", "BRT", "ways"], 1):
        pair = [(table.head[at : at + 1] or ["-"])[0] for table in (old, new)]
        if pair[0] != pair[1]:
            yield ["K", column, *pair]
    for name in [*new.tasks, *(name for name in old.tasks if name not in new.tasks)]:
        pair = [priority(name, table, other) for table, other in ((old, new), (new, old))]
        if pair[0] != pair[1]:
            yield ["T", name, "priority", *pair]
        yield from moved_columns(["T", name], TASK, old, new, old.tasks.get(name), new.tasks.get(name))
    for n, (before, now) in enumerate(itertools.zip_longest(old.accesses, new.accesses)):
        yield from moved_columns(["A", "#%d" % n], ACCESS, old, new, before, now)


def priority(name, table, other):
    if name not in table.tasks:
        return "-"
    return str(list(it for it in table.tasks if name not in other.tasks or it in other.tasks).index(name))


def moved_columns(line, columns, old, new, before, now):
    for at, column in enumerate(columns):
        if not column:
            continue
        pair = [row[at] if row else "-" for row in (before, now)]
        values = pair
        if column in ("UCB", "ECB"):
            values = [sets_of(field, table.head, column == "UCB") if row else None for field, table, row in zip(pair, (old, new), (before, now))]
        if values[0] != values[1]:
            yield [*line, column, *pair]


def moved_answers(old, new):
    for name in [*new.tasks, *(name for name in old.tasks if name not in new.tasks)]:
        pairs = zip(METHODS, *(table.answers.get(name, ["-"] * 6) for table in (old, new)))
        yield from (["R", name, method, *pair] for method, *pair in pairs if pair[0] != pair[1])
    yield from (["V", method, *pair] for method, *pair in zip(METHODS, old.verdicts, new.verdicts) if pair[0] != pair[1])


def last_of(made, name, failed):
    """The last line of a build's report, and what stands in its place."""
    if name in failed:
        return b"F\tread"
    return made[name].report.splitlines()[-1] if name in made else b"-"


def expected(old, new, failed=((), ())):
    """All lines; `failed` has the names of what cannot be read in each of the two."""
    lines = []
    for name in sorted({*old, *new, *failed[0], *failed[1]}, key=spelled):
        last = [last_of(made, name, lost) for made, lost in zip((old, new), failed)]
        if all(line.startswith(b"V") for line in last):
            tables = [Table(*made[name]) for made in (old, new)]
            for found in moved_figures(*tables), moved_answers(*tables):
                lines += [b"%s\t%s\n" % (spelled(name), "\t".join(fields).encode()) for fields in found]
        elif last[0] != last[1]:
            lines += [b"%s\t%s\t%s\n" % (spelled(name), when, line) for when, line in zip((b"was", b"now"), last)]
    return b"".join(lines)


def made_of(texts):
    """Builds of these texts, by their names."""
    return {name: Build(text, report) for (name, text), report in zip(texts.items(), all_printed(list(texts.values())))}


def as_expected(old, new, **more):
    """Tells two folders of builds apart, as it must."""
    with laid(old) as first, laid(new) as second:
        ended = run("changes", first, second, **more)
        same("what is printed", ended.out, expected(old, new))
        same("the status", ended.status, int(ended.out != b""))
        return ended


# the cases

OLD = text_of("K 8 10", "T a 40 200 200 0 0 00 0f", "T b 100 500 500 0 0 07 3f", "T c 300 1000 1000 0 0 f8 ff", "A c b 5 01")


def pairs(change):
    """That table, and one of other lines."""
    lines = [line.decode().replace("\t", " ") for line in OLD.splitlines()]
    return made_of({b"x.table": OLD}), made_of({b"x.table": text_of(*change(lines))})


def each_kind():
    """Each column, tasks that come, go and change places, accesses that come and go."""
    changes = {
        "BRT": lambda it: ["K 8 11", *it[1:]],
        "C": lambda it: [*it[:2], it[2].replace("b 100", "b 101"), *it[3:]],
        "T": lambda it: [*it[:2], it[2].replace("500 500", "600 500"), *it[3:]],
        "D": lambda it: [*it[:2], it[2].replace("500 500", "500 400"), *it[3:]],
        "J": lambda it: [*it[:2], it[2].replace("500 500 0", "500 500 7"), *it[3:]],
        "UCB": lambda it: [*it[:2], it[2].replace("07", "0f"), *it[3:]],
        "ECB": lambda it: [*it[:2], it[2].replace("3f", "7f"), *it[3:]],
        "priority": lambda it: [it[0], it[2], it[1], *it[3:]],
        "new": lambda it: [*it[:2], "T d 1 900 900 3 0 01 01", *it[2:]],
        "gone": lambda it: [it[0], *it[2:]],
        "renamed": lambda it: [it[0], it[1].replace("a", "z"), *it[2:]],
        "task": lambda it: [*it[:4], "A b b 5 01"],
        "ceiling": lambda it: [*it[:4], "A c a 5 01"],
        "length": lambda it: [*it[:4], "A c b 6 01"],
        "access UCB": lambda it: [*it[:4], "A c b 5 03"],
        "no access": lambda it: it[:4],
        "two accesses": lambda it: [*it, "A b a 3 00"],
        "refused": lambda it: [*it[:2], it[2].replace("500 500", "50 500"), *it[3:]],
    }
    for what, change in changes.items():
        old, new = pairs(change)
        ended = as_expected(old, new)
        back = as_expected(new, old)
        for lines in ended, back:
            must(lines.out, "nothing is told of %s", what)
        column = {"access UCB": "UCB", "new": "priority", "gone": "priority", "renamed": "priority", "no access": "length", "two accesses": "length"}.get(what, what)
        must(what == "refused" or b"\t%s\t" % column.encode() in ended.out, "%s is not told: %r", what, ended.out)


def by_hand():
    """Lines that were written by hand."""
    old, new = pairs(lambda it: ["K 8 12", *it[1:3], it[3].replace("c 300", "c 310"), it[4]])
    ended = as_expected(old, new)
    for line in b"x.table\tK\tBRT\t10\t12", b"x.table\tT\tc\tC\t300\t310":
        must(line in ended.out.splitlines(), "no line %r: %r", line, ended.out)
    old, new = pairs(lambda it: [it[0], *it[2:]])
    same("the first line of a task that is gone", as_expected(old, new).out.splitlines()[0], b"x.table\tT\ta\tpriority\t0\t-")


def ways():
    """A table of counts, and the same of more ways; with 1 way that is named the figures are those of none."""
    old = made_of({b"x.table": contents(os.path.join(ROOT, "examples", "two-ways.table"))})
    for line in b"K\t4\t1\t3", b"K\t4\t2\t2":
        as_expected(old, made_of({b"x.table": line + old[b"x.table"].text[7:]}))
    one = text_of("K 4 1", "T a 1 20 20 0 0 5 f", "T b 2 40 40 0 0 3 f")
    other = text_of("K 4 1 1", "T a 1 20 20 0 0 0101 f", "T b 2 40 40 0 0 0011 f")
    same("ways that are named", as_expected(made_of({b"x.table": one}), made_of({b"x.table": other})).out, b"x.table\tK\tways\t-\t1\n")
    wider = text_of("K 8 1", "T a 1 20 20 0 0 05 0f", "T b 2 40 40 0 0 03 0f")
    same("cache sets more", as_expected(made_of({b"x.table": one}), made_of({b"x.table": wider})).out, b"x.table\tK\tcache sets\t4\t8\n")


def two_days(count):
    """The builds of two days: some are the same, others corrected, new, gone, or refused on one of the days."""
    pick = random.Random(count)
    old, texts = {}, {}
    for name, made in some(count).items():
        fate = pick.randrange(8)
        if fate != 0:
            old[name] = made
        if fate == 1:
            continue
        texts[name] = made.text if fate in (2, 3) else turned(pick, made.text)
    return old, made_of(texts)


def turned(pick, text):
    """A table with one thing changed, if it is one."""
    lines = text.splitlines(keepends=True)
    tasks = [n for n, line in enumerate(lines) if line.startswith(b"T\t")]
    accesses = [n for n, line in enumerate(lines) if line.startswith(b"A\t")]
    if accesses and pick.random() < 0.5:
        fields = lines[accesses[0]].split(b"\t")
        lines[accesses[0]] = b"\t".join([*fields[:3], b"%d" % pick.randrange(1, 5), *fields[4:]])
        return b"".join(lines)
    if len(tasks) < 2 or pick.random() < 0.5:
        try:
            return corrected(pick, text)
        except (IndexError, ValueError):
            return text
    one, other = pick.sample(tasks, 2)
    lines[one], lines[other] = lines[other], lines[one]
    return b"".join(lines)


def folders():
    """Two days' builds, laid in any order, with reports beside them that are wrong; standard error tells of those that are refused now."""
    old, new = two_days(900)
    out = expected(old, new)
    must(out.count(b"\n") > 1000 and all(b"\t%s\t" % kind in out for kind in (b"K", b"T", b"A", b"R", b"V", b"was", b"now")), "there is too little to tell")
    names = [list(old), list(new)]
    for seed in range(2):
        for those in names:
            random.Random(seed).shuffle(those)
        with laid(old, names[0]) as first, laid(new, names[1]) as second:
            for folder in first, second:
                write(os.path.join(folder, "-.report"), b"V\tyes\n")
            ended = run("changes", first, second)
            same("what is printed", ended.out, out)
            same("the status", ended.status, 1)
            refused = sum(made.report.startswith(b"E") for made in new.values())
            same("how many refusals are told", len(re.findall(rb"^crpd: .* \(\d+\)$", ended.err, re.M)), refused)
            same("a folder and itself", run("changes", second, second)[::2], (b"", 0))
            must(sorted(os.listdir(first)) == sorted({name.split(b"/")[0].decode("utf-8", "surrogateescape") for name in old} | {"-.report"}), "something was written")


def unreadable():
    """What cannot be read is told, and stops nothing; the status is 4. A name that is no UTF-8 cannot be opened."""
    old, new = some(40), some(40)
    names = list(new)
    with laid(old) as first, laid(new) as second:
        start = os.fsencode(second)
        os.chmod(os.path.join(start, names[20]), 0)
        os.remove(os.path.join(start, names[21]))
        os.mkfifo(os.path.join(start, names[21]))
        write(os.path.join(start, b"\xff.table"), OLD)
        os.mkdir(os.path.join(start, b"\xfe"))
        ended = run("changes", first, second, before=obeying_modes())
        failed = (names[20], names[21], b"\xff.table")
        there = {name: made for name, made in new.items() if name not in failed}
        same("what is printed", ended.out, expected(old, there, ((), failed)))
        same("the status", ended.status, 4)
        for name in *failed, b"\xfe":
            must(spelled(name) in ended.err, "%r is not told: %r", name, ended.err)
        same("the same in both", run("changes", second, second, before=obeying_modes())[::2], (b"", 4))


def tables():
    """Two tables: their lines have the name of the new one. One may be standard input."""
    with tempfile.TemporaryDirectory() as folder:
        old = write(os.path.join(folder, "old"), OLD)
        other = OLD.replace(b"40\t200", b"41\t200")
        new = write(os.path.join(folder, "n\tew"), other)
        name = spelled(os.fsencode(new))
        lines = expected({b"": Build(OLD, printed(OLD))}, {b"": Build(other, printed(other))})
        told = lambda name: b"".join(name + line for line in lines.splitlines(keepends=True))
        same("two tables", run("changes", old, new), Ended(told(name), b"", 1))
        same("from standard input", run("changes", "-", new, text=OLD), Ended(told(name), b"", 1))
        same("to standard input", run("changes", old, "-", text=other), Ended(told(b"-"), b"", 1))
        same("a table and itself", run("changes", old, old), Ended(b"", b"", 0))
        ended = run("changes", old, "-", text=b"K\n")
        same("refused now", (ended.out.splitlines()[1], ended.status), (b"-\tnow\t" + printed(b"K\n").strip(), 1))
        must(ended.err.startswith(b"crpd: standard input: line 1: "), "it is not told: %r", ended.err)
        ended = run("changes", "-", old, text=b"K\n")
        same("no longer refused", (ended.err, ended.status, ended.out.splitlines()[1]), (b"", 1, spelled(os.fsencode(old)) + b"\tnow\t" + printed(OLD).splitlines()[-1]))


def statuses():
    """Wrong use is 3, and what is not there 4."""
    with tempfile.TemporaryDirectory() as folder:
        old = write(os.path.join(folder, "old.table"), OLD)
        for words in (), (old,), (old, old, old), (old, folder), (folder, old), ("-", "-"), ("-o", "x", old, old), ("--part", "1/2", folder, folder), ("--nosuch", old, old):
            ended = run("changes", *words)
            same("status and output of %s" % (words,), (ended.status, ended.out), (3, b""))
            must(ended.err.startswith(b"crpd: "), "it is not told: %r", ended.err)
        for words in (old, folder + "/nosuch"), (folder + "/nosuch", old):
            same("what is not there", run("changes", *words)[::2], (b"", 4))


WORDS = {
    "a corrected figure": (
        lambda it: [*it[:2], it[2].replace("b 100", "b 120"), *it[3:]],
        ["  b: C 120, was 100", "  b under none: 165 ticks, was 145: 20 later", "  In no line is the new table easier than the old one, so no response can have become sooner."],
    ),
    "an easier one": (lambda it: ["K 8 9", *it[1:]], ["  line 1: BRT 9, was 10", "  In no line is the new table harder than the old one, so no response can have become later."]),
    "neither": (lambda it: ["K 8 9", it[1].replace("a 40", "a 41"), *it[2:]], ["  a: C 41, was 40"]),
    "a new task": (lambda it: [*it[:2], "T d 1 900 900 3 0 01 01", *it[2:]], ["  d is new", "  d under none: 41 ticks, was none"]),
    "one that is gone": (lambda it: [it[0], *it[2:]], ["  a is gone", "  a under none: no response, was 40 ticks"]),
    "another order": (lambda it: [it[0], it[2], it[1], *it[3:]], ["  b: priority 0, was 1 among the tasks of both tables, the highest 0"]),
    "a refusal": (lambda it: [*it[:2], it[2].replace("500 500", "50 500"), *it[3:]], ["  It was accepted, and now it is refused (8, line 3)."]),
    "no access": (lambda it: it[:4], ["  access #0 is gone"]),
}


def in_words():
    """Build by build, and at the end how many there are."""
    for what, (change, lines) in WORDS.items():
        old, new = pairs(change)
        with laid(old) as first, laid(new) as second:
            ended = run("changes", "--words", first, second)
            told = ended.out.decode().splitlines()
            same("the first and the last line of %s" % what, (told[0], told[-1].partition(" changed")[0], ended.status), ("x.table", "1 build: 1", 1))
            for line in lines:
                must(line in told, "%s: no line %r in %s", what, line, told)
            relations = sum("In no line" in line for line in told)
            same("what is said of the relation", relations, sum("In no line" in line for line in lines))
            turned = {line[1] for line in map(bytes.split, run("changes", first, second).out.splitlines()) if line[1] == b"V"}
            must(("turned" in told[-1]) and bool(turned) <= any(line.startswith("  It no longer passes") or line.startswith("  It passes now") for line in told), "%s", told)


def counted():
    """The last line, of many builds."""
    old, new = two_days(300)
    with laid(old) as first, laid(new) as second:
        ended = run("changes", "--words", first, second)
        lines = run("changes", first, second).out.splitlines()
        changed = {line.split(b"\t")[0] for line in lines}
        verdicts = {}
        for line in map(lambda it: it.split(b"\t"), lines):
            if line[1] in (b"was", b"now"):
                yes = tuple(field == b"yes" for field in line[3:]) if line[2] == b"V" else (False,) * 6
                verdicts.setdefault(line[0], []).append(yes)
            elif line[1] == b"V":
                verdicts[line[0]] = [0, 1]
        turned = sum(pair[0] != pair[1] for pair in verdicts.values())
        same("the last line", ended.out.splitlines()[-1].decode(), "%d builds: %d changed, %d turned" % (len({*old, *new}), len(changed), turned))
        same("nothing moved", run("changes", "--words", first, first).out.decode(), "%d builds: 0 changed, 0 turned\n" % len(old))


def closed():
    """A closed pipe ends it quietly."""
    old, new = two_days(300)
    with laid(old) as first, laid(new) as second:
        reading, writing = os.pipe()
        os.close(reading)
        ended = run("changes", first, second, stdin=subprocess.DEVNULL, stdout=writing)
        os.close(writing)
        same("the status", ended.status, 1)


def main():
    build()
    return tell([
        ("each kind of change, there and back", each_kind),
        ("lines by hand", by_hand),
        ("ways, and cache sets", ways),
        ("the builds of two days, in any order", folders),
        ("what cannot be read", unreadable),
        ("two tables", tables),
        ("statuses", statuses),
        ("in words", in_words),
        ("what is counted", counted),
        ("a closed pipe", closed),
    ])


if __name__ == "__main__":
    sys.exit(main())
