#!/usr/bin/env python3
"""Each must-fail edit that README.md or a page of docs/ names is there. `CRATE/must-fail/LABEL` names one; labels in backquotes that follow behind commas are of the same crate. So
an edit that is deleted, or called otherwise, is noticed where it was cited. Each is counted once; the last line is `N passed, M failed`."""
import glob
import os
import re
import sys

ROOT = os.path.dirname(os.path.dirname(os.path.abspath(__file__)))
NAMED = re.compile(r"`(?:crates/)?([a-z0-9_]+)/must-fail/([a-z0-9_]+)(?:\.edit)?`((?:(?:,| and|, and)\s+`[a-z0-9_]+`)*)")


def named(text):
    """The edits that a text names."""
    return {(crate, label) for crate, first, more in NAMED.findall(text) for label in [first, *re.findall(r"`(\w+)`", more)]}


def main():
    failed, every = 0, set()
    for path in [ROOT + "/README.md", *sorted(glob.glob(ROOT + "/docs/**/*.md", recursive=True))]:
        with open(path, encoding="utf-8") as it:
            found = named(it.read())
        every |= found
        for crate, label in sorted(found):
            if not os.path.exists("%s/crates/%s/must-fail/%s.edit" % (ROOT, crate, label)):
                failed += 1
                print("%s: there is no edit %s/%s" % (os.path.relpath(path, ROOT), crate, label))
    if not every:
        print("no edit is named")
    print("%d passed, %d failed" % (len(every) - min(failed, len(every)), failed or not every))
    return bool(failed) or not every


sys.exit(main())
