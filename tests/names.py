#!/usr/bin/env python3
"""One name, one meaning: each name that a file of some crate's specs/ defines is defined there alone. Each name is counted once; the last line is
`N passed, M failed`."""
import glob
import os
import re
import sys

ROOT = os.path.join(os.path.dirname(os.path.abspath(__file__)), "..")
# a definition's first line: what kind it is, and its name, before its type or its parameters
DEFINED = re.compile(r"^(?:(?:abbrev|unfoldable|pub|record|data) )+(?!use |mod )([^\s:({]+) *[:({]", re.M)


def definitions():
    """Of each name that is defined the files that define it."""
    found = {}
    for path in sorted(glob.glob(os.path.join(ROOT, "crates", "*", "specs", "**", "*.antt"), recursive=True)):
        with open(path, encoding="utf-8") as text:
            for name in DEFINED.findall(text.read()):
                found.setdefault(name, []).append(os.path.relpath(path, ROOT))
    return found


def main():
    found = definitions()
    twice = {name: paths for name, paths in found.items() if len(paths) > 1}
    for name, paths in sorted(twice.items()):
        print("%s: defined in %s" % (name, " and in ".join(paths)))
    if not found:
        print("no definition was found")
    print("%d passed, %d failed" % (len(found) - len(twice), len(twice) or not found))
    return bool(twice) or not found


sys.exit(main())
