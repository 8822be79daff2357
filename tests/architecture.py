#!/usr/bin/env python3
"""Holds docs/ARCHITECTURE.md to crates.txt, so that the page cannot say what is no longer so. Each crate stands once in the drawing, as [NAME],
and once in the list, as a row that begins | `NAME` |, and no other name does. In the drawing each stands on a line below those of all crates
that it uses, and of two that a line joins the lower uses the upper. None uses a crate that its row names in the last column, where it says
what the crate may not know. Each public module of a crate stands once in the list of modules, as a row that begins | `NAME::MODULE` |, and no other
does. Each name is counted once; the last line is `N passed, M failed`."""
import itertools
import os
import re
import sys

ROOT = os.path.join(os.path.dirname(os.path.abspath(__file__)), "..")
DRAWING = re.compile(r"^```text\n(.*?)^```$", re.M | re.S)  # the page's code
DRAWN = re.compile(r"\[(\w+)\]")
ROW = re.compile(r"^\| `(\w+)` \| (.+) \| (.+) \|$", re.M)
MODULE_ROW = re.compile(r"^\| `(\w+::\w+)` \|", re.M)
MODULE = re.compile(r"^pub mod (\w+);", re.M)
NAMED = re.compile(r"`(\w+)`")
UP, DOWN, LEFT, RIGHT = (-1, 0), (1, 0), (0, -1), (0, 1)
LEADS = {
    "│": (UP, DOWN),
    "─": (LEFT, RIGHT),
    "┌": (DOWN, RIGHT),
    "┐": (DOWN, LEFT),
    "└": (UP, RIGHT),
    "┘": (UP, LEFT),
    "┬": (DOWN, LEFT, RIGHT),
    "┴": (UP, LEFT, RIGHT),
    "├": (UP, DOWN, RIGHT),
    "┤": (UP, DOWN, LEFT),
    "┼": (UP, DOWN, LEFT, RIGHT),
}


def uses(text):
    """Of each crate of crates.txt what it uses, the kit's libraries too."""
    lines = (line.partition("#")[0].partition(":") for line in text.splitlines())
    return {name.split()[0]: used.split() for name, colon, used in lines if colon}  # what kind of crate it is may stand after the name


def modules(name):
    """The public modules of a crate, each as NAME::MODULE. A program has none."""
    path = os.path.join(ROOT, "crates", name, "src", "lib.rt")
    if not os.path.exists(path):
        return []
    with open(path, encoding="utf-8") as file:
        return ["%s::%s" % (name, module) for module in MODULE.findall(file.read())]


def boxes(drawing):
    """Each [NAME] of the drawing, and the places that it covers: its own, and one more at either end, where a space may stand before a line."""
    for y, line in enumerate(drawing.splitlines()):
        for box in DRAWN.finditer(line):
            yield box[1], [(y, x) for x in range(box.start() - 1, box.end() + 1)]


def joined(drawing):
    """The names that a line joins, line by line. An arrow's head ends a line."""
    covered = {place: name for name, places in boxes(drawing) for place in places}
    left = {(y, x): LEADS[c] for y, line in enumerate(drawing.splitlines()) for x, c in enumerate(line) if c in LEADS}
    while left:
        names, todo = set(), [next(iter(left))]
        while todo:
            y, x = todo.pop()
            for dy, dx in left.pop((y, x), ()):
                there = (y + dy, x + dx)
                if there in covered:
                    names.add(covered[there])
                elif (-dy, -dx) in left.get(there, ()):
                    todo.append(there)
        yield names


def complaints(used, there, page):
    """Of each crate, of each public module (there), and of each other name on the page, what the page has wrong."""
    drawing = "".join(DRAWING.findall(page))
    drawn = [(name, places[0][0]) for name, places in boxes(drawing)]
    height = dict(drawn)
    rows = ROW.findall(page)
    crates_and_libraries = set(used).union(*used.values())
    wrong = {name: [] for name in [*used, *height, *(row[0] for row in rows)]}

    for name, found in wrong.items():
        if name not in used:
            found.append("crates.txt has no such crate")
        for where, names in ("drawing", [name for name, _ in drawn]), ("list", [row[0] for row in rows]):
            if names.count(name) != 1:
                found.append("it stands %d times in the %s" % (names.count(name), where))
        for other in used.get(name, []):
            if name in height and other in height and height[name] <= height[other]:
                found.append("it does not stand below %s, which it uses" % other)
    for names in joined(drawing):
        for upper, lower in itertools.permutations(sorted(names), 2):
            if height[upper] < height[lower] and upper not in used.get(lower, []):
                wrong[lower].append("a line joins it to %s, which it does not use" % upper)
    for name, _, unknown in rows:
        for other in NAMED.findall(unknown):
            if other not in crates_and_libraries:
                wrong[name].append("it may not know %s, of which crates.txt has nothing" % other)
            elif other in used.get(name, []):
                wrong[name].append("it may not know %s, and uses it" % other)
    listed = MODULE_ROW.findall(page)
    for module in dict.fromkeys([*there, *listed]):
        wrong[module] = []
        if module not in there:
            wrong[module].append("there is no such module")
        if listed.count(module) != 1:
            wrong[module].append("it stands %d times in the list of modules" % listed.count(module))
    return wrong


def main():
    with open(os.path.join(ROOT, "crates.txt"), encoding="utf-8") as file:
        used = uses(file.read())
    with open(os.path.join(ROOT, "docs", "ARCHITECTURE.md"), encoding="utf-8") as file:
        wrong = complaints(used, [module for name in used for module in modules(name)], file.read())
    for name, found in wrong.items():
        for complaint in found:
            print("docs/ARCHITECTURE.md: %s: %s" % (name, complaint))
    failed = sum(map(bool, wrong.values()))
    print("%d passed, %d failed" % (len(wrong) - failed, failed))
    return 1 if failed else 0


if __name__ == "__main__":
    sys.exit(main())
