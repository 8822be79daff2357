#!/usr/bin/env python3
"""The numbers of the rules that stand in several places: the refusals, each with its number, and the limits of a table and of what is written. Of the refusals the
code has the list (`Reason`, in crates/texts/src/refusals.rt), and of the limits the constants of the crates; the definitions, the wrappers for C and Rust, the command
and the pages are held to them. Each place is counted once; the last line is `N passed, M failed`."""
import os
import re
import sys

ROOT = os.path.join(os.path.dirname(os.path.abspath(__file__)), "..")
# 25 is told of table values alone, which Rattle code hands over: no wrapper has a function that takes one
OF_VALUES = {"NoText"}
# those of a call, and not of a text: the command's words for them stand where it reads what it is asked for
OF_CALLS = {"Method", "Position", "ShortBuffer", "ListLine", "ListName"}

# a limit's constant, where the code has it, and the places that tell its number
LIMITS = [
    ("LONGEST", "crates/cache/src/units.rt", ["docs/RULES.md"]),
    ("LONGEST_RELOAD", "crates/cache/src/units.rt", ["docs/RULES.md"]),
    ("MOST_SETS", "crates/cache/src/sets.rt", ["docs/RULES.md"]),
    ("MOST_WAYS", "crates/cache/src/useful.rt", ["docs/RULES.md"]),
    ("MOST_TASKS", "crates/table/src/lib.rt", ["docs/RULES.md"]),
    ("MOST_ACCESSES", "crates/table/src/lib.rt", ["docs/RULES.md"]),
    ("LONGEST_TEXT", "crates/table/src/lib.rt", ["docs/RULES.md", "docs/LIBRARY.md", "bindings/c/crpd.h", "bindings/rust/src/lib.rs"]),
    ("ROOM", "crates/writing/src/writer.rt", ["docs/LIBRARY.md", "bindings/c/crpd.h", "bindings/rust/src/lib.rs"]),
    ("LONGEST_EXPLANATION", "crates/report/src/explanation.rt", ["docs/RULES.md", "docs/LIBRARY.md", "bindings/c/crpd.h", "bindings/rust/src/lib.rs"]),
    ("LONGEST_FINDINGS", "crates/claims/src/lib.rt", ["docs/RULES.md", "docs/LIBRARY.md", "bindings/c/crpd.h", "bindings/rust/src/lib.rs"]),
    ("LONGEST_REPLAY", "crates/replay/src/lib.rt", ["docs/RULES.md", "bindings/c/crpd.h", "bindings/rust/src/lib.rs"]),
    ("PAGE", "crates/replay/src/ticks.rt", ["docs/RULES.md", "bindings/c/crpd.h", "bindings/rust/src/lib.rs"]),
    ("LONGEST_PAGE", "crates/replay/src/ticks.rt", ["docs/RULES.md", "docs/LIBRARY.md", "bindings/c/crpd.h", "bindings/rust/src/lib.rs"]),
    ("MOST", "crates/growth/src/scaling.rt", ["docs/RULES.md", "bindings/c/crpd.h"]),
]


def read(path):
    with open(os.path.join(ROOT, path), encoding="utf-8") as text:
        return text.read()


def refusals():
    """The number of each refusal, by its name in the code."""
    said = re.search(r"pub enum Reason \{(.*?)\}", read("crates/texts/src/refusals.rt"), re.S).group(1)
    return {name: int(number) for name, number in re.findall(r"(\w+) = (\d+),", said)}


def numbers_in(words):
    """All numbers of some words, where `1 to 11` says each of them."""
    found = set()
    for low, high in re.findall(r"\b(\d+)(?: to (\d+))?\b", words):
        found.update(range(int(low), int(high or low) + 1))
    return found


def differ(told, numbers):
    told, numbers = set(told), set(numbers)
    return ["%s is not told" % n for n in sorted(numbers - told)] + ["%s is none" % n for n in sorted(told - numbers)]


def definition(found):
    said = dict(re.findall(r"^reason_number (\w+) = (\d+)$", read("crates/texts/specs/Numbers.antt"), re.M))
    return differ(["%s = %s" % it for it in said.items()], ["%s = %d" % it for it in found.items()])


def wrapper(path, begins):
    def of(found):
        words = re.sub(r"\n(?: \*|///) ?", " ", read(path))
        told = re.search(begins + r"(.*?)docs/RULES\.md", words, re.S).group(1)
        return differ(numbers_in(told), [number for name, number in found.items() if name not in OF_VALUES])

    return of


def rules(found):
    told = [int(number) for number in re.findall(r"^\| (\d+) \|", read("docs/RULES.md").split("\n## Refusals\n")[1], re.M)]
    twice = ["%d stands there twice" % n for n in sorted(set(told)) if told.count(n) > 1]
    return differ(told, found.values()) + twice


def command(found):
    """Each refusal of a text has words of its own."""
    told = set(re.findall(r"\bReason::(\w+)", read("crates/refused/src/finding.rt")))
    return ["%s has no words" % name for name in sorted(set(found) - OF_VALUES - OF_CALLS - told)] + ["%s is none" % name for name in sorted(told - set(found))]


def toolchain(_found):
    """What `crpd --version` tells is what the repository is pinned to."""
    return [] if '"%s"' % read(".rattle-version").strip() in read("crates/crpd_command/src/version.rt") else ["it is not that of .rattle-version"]


def page(path):
    """A page tells no refusal that is not there."""

    def of(found):
        told = re.findall(r"\b(?:refusals?|refused with|refuses it with) (\d+)\b", read(path))
        return ["%d is none" % n for n in sorted({int(n) for n in told} - set(found.values()))]

    return of


REFUSALS = [
    ("crates/texts/specs/Numbers.antt", definition),
    ("bindings/c/crpd.h", wrapper("bindings/c/crpd.h", r"refusals of a text are ")),
    ("bindings/rust/src/lib.rs", wrapper("bindings/rust/src/lib.rs", r"Those of a text are ")),
    ("docs/RULES.md", rules),
    ("crates/refused/src/finding.rt", command),
    ("crates/crpd_command/src/version.rt", toolchain),
    ("docs/LIBRARY.md", page("docs/LIBRARY.md")),
    ("docs/COMMAND.md", page("docs/COMMAND.md")),
    ("README.md", page("README.md")),
]


def limit(name, path):
    return int(re.search(r"\bconst %s: \w+ = (\d+);" % name, read(path)).group(1))


def tells(path, number):
    """Whether a place tells a number, with or without marks between its thousands."""
    marked = "{:,}".format(number)
    ways = {str(number), marked, marked.replace(",", "_")}
    return any(re.search(r"(?<![\d,._])%s(?![\d_]|,\d{3})" % re.escape(way), read(path)) for way in ways)


def main():
    passed = failed = 0
    found = refusals()
    checks = [(path, check(found)) for path, check in REFUSALS]
    for name, path, places in LIMITS:
        number = limit(name, path)
        checks += [(place, [] if tells(place, number) else ["%s = %d (%s) is not told" % (name, number, path)]) for place in places]
    for place, wrong in checks:
        for words in wrong:
            print("%s: %s" % (place, words))
        passed, failed = passed + (not wrong), failed + bool(wrong)
    print("%d passed, %d failed" % (passed, failed))
    return bool(failed)


sys.exit(main())
