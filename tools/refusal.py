#!/usr/bin/env python3
"""refusal.py CRATE/LABEL: checks a crate with a must-fail edit, on a copy of the sources, and prints what is not proved of it, each goal with
what it says: a promise, an invariant, a call's `requires`, a bound, or a name that the edit took away. rt's own try of the edit says the first of these lines alone. It takes as
long as a check of the crates below, over what other copies kept, and one after a change. Of a goal that is not proved it is not known that it is false: that a witness shows (tests/witnesses.py)."""
import os
import re
import shutil
import subprocess
import sys
import tempfile

ROOT = os.path.dirname(os.path.dirname(os.path.abspath(__file__)))
sys.path.insert(0, ROOT + "/tests")
sys.dont_write_bytecode = True
import refused_by_facts
import witnesses

LOST = re.compile(r"has no field|is not in scope|has no `|was not admitted")


def main():
    (edit,) = witnesses.edits(sys.argv[1:2])
    if edit.bad:
        sys.exit(edit.bad)
    with tempfile.TemporaryDirectory() as room:
        for file in ("crates.txt", "HANDLES"):
            if os.path.exists("%s/%s" % (ROOT, file)):
                shutil.copy("%s/%s" % (ROOT, file), room)
        # sources alone, and no links, which rt takes for what lies outside: it begins with what checks kept in other copies of the same crates
        shutil.copytree(ROOT + "/crates", room + "/crates", ignore=shutil.ignore_patterns("must-fail", "out"))
        own = "%s/crates/%s" % (room, edit.crate)
        for file, text in edit.texts.items():
            with open("%s/%s" % (own, file), "w", encoding="utf-8") as it:
                it.write(text)
        ran = subprocess.run(["rt", "check", "--jobs", "1"], cwd=own, stdin=subprocess.DEVNULL, stdout=subprocess.PIPE, stderr=subprocess.STDOUT, text=True, errors="replace")
    for line in ran.stdout.split("\n"):
        if not re.match(r"(note: )?\S+:\d+:\d+:", line):
            continue
        kind, goal = refused_by_facts.kind_of(line)
        if LOST.search(line):
            print("a lost name: %.300s" % line)
        elif goal:
            print("%s (%s): %.300s" % (kind, goal, line))
        elif ": error" in line:
            print("an error: %.300s" % line)
    print(next((line for line in reversed(ran.stdout.split("\n")) if line.startswith("logic=")), "no verdict"))


main()
