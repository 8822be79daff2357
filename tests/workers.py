#!/usr/bin/env python3
"""workers.py [COMMAND..]: runs crpd-report, or another command that is to do the same, on some tables by several workers in any order, each table
in a process of its own, and holds what is printed to what is printed of it alone. And it looks whether the static library has anything in which
a call could leave something to the next. Needs target/staticlib/libcrpd.a (`tools/library.sh`). One line for each case; the last line is
`N passed, M failed`."""
import glob
import os
import queue
import random
import struct
import subprocess
import sys
import threading

import common

ROOT = os.path.join(os.path.dirname(os.path.abspath(__file__)), "..")
COMMAND = sys.argv[1:] or [os.path.join(ROOT, "bin", "crpd-report")]
LIBRARY = os.path.join(ROOT, "target", "staticlib", "libcrpd.a")
OUTSIDE = {"memcpy", "memmove", "memset"}  # what the library may call, which keeps nothing either


def report(table, seconds=60):
    """What the program prints of a table, with the status that goes with it."""
    done = subprocess.run(COMMAND, input=table, stdout=subprocess.PIPE, timeout=seconds)
    if done.returncode != common.status_of(done.stdout):
        raise ValueError("status %d where %.300r was printed" % (done.returncode, done.stdout))
    return done.stdout


def lines(table):
    return table.splitlines(keepends=True)


def corrected(table, by):
    """The same build with so many ticks more for its last task."""
    rows = lines(table)
    at = max(n for n, row in enumerate(rows) if row.startswith(b"T\t"))
    fields = rows[at].split(b"\t")
    fields[2] = b"%d" % (int(fields[2]) + by)
    rows[at] = b"\t".join(fields)
    return b"".join(rows)


def builds():
    """The example tables, each with a correction or two, and one that is refused."""
    tables = []
    for name in sorted(glob.glob(os.path.join(ROOT, "examples", "*.table"))):
        with open(name, "rb") as file:
            tables.append(file.read())
    return tables + [corrected(table, by) for by in (1, 2) for table in tables] + [tables[0][:-1]]


def by_workers(tables, count):
    """Each table twice, in any order, by so many workers: what each of them printed."""
    waiting = queue.SimpleQueue()
    places = list(range(len(tables))) * 2
    random.Random(count).shuffle(places)
    for place in places:
        waiting.put(place)
    printed = []

    def works():
        while True:
            try:
                place = waiting.get_nowait()
            except queue.Empty:
                return
            printed.append((place, report(tables[place])))

    workers = [threading.Thread(target=works) for _ in range(count)]
    for worker in workers:
        worker.start()
    for worker in workers:
        worker.join()
    return printed


def agrees(tables, alone, count):
    printed = by_workers(tables, count)
    return len(printed) == 2 * len(tables) and all(text == alone[place] for place, text in printed)


def objects(archive):
    """The object files of an archive: after its mark, each has a head of 60 bytes and starts at an even place."""
    if archive[:8] != b"!<arch>\n":
        raise ValueError("no archive")
    at = 8
    while at < len(archive):
        name, size = archive[at : at + 16].rstrip(), int(archive[at + 48 : at + 58])
        at += 60
        if name not in (b"/", b"//"):  # the archive's own lists of names
            yield archive[at : at + size]
        at += size + size % 2


class Object:
    """The sections of an object file for x86-64."""

    def __init__(self, elf):
        machine, = struct.unpack_from("<H", elf, 18)
        if elf[:6] != b"\x7fELF\x02\x01" or machine != 62:
            raise ValueError("no object file for x86-64")
        start, = struct.unpack_from("<Q", elf, 40)
        size, count, names = struct.unpack_from("<HHH", elf, 58)
        self.elf = elf
        # of each: name, kind, flags, address, place, length, number of the section that it goes with
        self.sections = [struct.unpack_from("<IIQQQQI", elf, start + size * n) for n in range(count)]
        self.names = names

    def text(self, section, at):
        """The text at a place of a section of names."""
        start = self.sections[section][4] + at
        return self.elf[start : self.elf.index(b"\0", start)].decode()

    def writable(self):
        """Its sections that hold something and are writable (flag 1) while a program runs (flag 2)."""
        return [self.text(self.names, name) for name, _, flags, _, _, length, _ in self.sections if flags & 3 == 3 and length]

    def from_outside(self):
        """The symbols that stand in none of its sections: those of others (0), and variables that the linker makes room for (0xfff2)."""
        for _, kind, _, _, place, length, names in self.sections:
            if kind == 2:
                for at in range(place, place + length, 24):
                    name, _, _, section = struct.unpack_from("<IBBH", self.elf, at)
                    if name and section in (0, 0xFFF2):
                        yield self.text(names, name)


def library():
    with open(LIBRARY, "rb") as file:
        found = [Object(elf) for elf in objects(file.read())]
    if not found:
        raise ValueError("the library is empty")
    return found


def holds(unwanted):
    if unwanted:
        print("    found: %s" % ", ".join(sorted(unwanted)))
    return not unwanted


def keeps_nothing():
    return holds({name for part in library() for name in part.writable()})


def leaves_nothing_elsewhere():
    return holds({name for part in library() for name in part.from_outside()} - OUTSIDE)


def changed_round():
    """The order of the lines is that of the priorities: with two of them changed round there are other answers."""
    with open(os.path.join(ROOT, "examples", "two-solutions.table"), "rb") as file:
        head, first, second = lines(file.read())
    yes = b"V" + b"\tyes" * 6 + b"\n"
    row = lambda name, limit, answer: b"R\t%s\t%d" % (name, limit) + b"\t%d" % answer * 6 + b"\n"
    given = row(b"a", 5, 2) + row(b"b", 8, 5) + yes
    turned = row(b"b", 8, 3) + row(b"a", 5, 5) + yes
    return report(head + first + second) == given and report(head + second + first) == turned


def main():
    report(b"", seconds=3600)  # where the program is still to be built, this builds it
    tables = builds()
    alone = [report(table) for table in tables]
    cases = [
        ("tables that differ, with reports and a refusal", lambda: len(set(tables)) == len(tables) and {text[:1] for text in alone} == {b"R", b"E"}),
        ("two lines changed round", changed_round),
        ("the library has no place to keep anything in", keeps_nothing),
        ("the library calls nothing that could keep anything", leaves_nothing_elsewhere),
    ]
    cases += [("%d tables twice by %d at a time" % (len(tables), n), lambda n=n: agrees(tables, alone, n)) for n in (1, 2, 7)]
    failed = 0
    for name, case in cases:
        good = case()
        failed += not good
        print("%s: %s" % ("ok" if good else "FAILED", name), flush=True)
    print("%d passed, %d failed" % (len(cases) - failed, failed))
    return 1 if failed else 0


if __name__ == "__main__":
    sys.exit(main())
