#!/usr/bin/env python3
"""No table takes seconds: the turns that searches take on the tables of tests/slow, which are hard to search, are counted and held against bounds. Turns, since they are
the same on every machine. The sources are built as plain Rust by tools/plain_rust.py, with a counter put in; nothing of that is proved. The last line is `N passed, M failed`."""
import glob
import os
import subprocess
import sys
import tempfile

ROOT = os.path.dirname(os.path.dirname(os.path.abspath(__file__)))
sys.path.insert(0, os.path.join(ROOT, "tools"))
import plain_rust  # noqa: E402

COUNTER = "pub static MADE: std::sync::atomic::AtomicU64 = std::sync::atomic::AtomicU64::new(0);\n"
COUNT = "crate::hasten::MADE.fetch_add(1, std::sync::atomic::Ordering::Relaxed);"
# where a turn is counted: a line of the file, which is to stand there once, and what takes its place
COUNTED = {
    "src/hasten.rt": [
        ("// After how many turns rounds are made.\n", COUNTER + "// After how many turns rounds are made.\n"),
        ("    let mut demand = own;\n", "    %s\n    let mut demand = own;\n" % COUNT),
    ],
    "src/response.rt": [("        time = advance(own.0, terms, time, counts);\n", "        %s\n        time = advance(own.0, terms, time, counts);\n" % COUNT)],
}

# The most turns of one call: of a report of a table without accesses, and of any other. `coprime` has eighteen periods below 120 ticks of which few divide a common round.
REPORT, OTHERS = 100_000, 1_500_000
BOUNDS = {
    ("coprime", "none", "report"): 3_000_000,
    ("coprime", "none", "growth"): 4_000_000,
}


def counted(path):
    """A file of `search` with turns counted."""
    with open("%s/crates/search/%s" % (ROOT, path), encoding="utf-8") as it:
        text = it.read()
    for old, new in COUNTED[path]:
        if text.count(old) != 1:
            raise ValueError("%s: %r stands there %d times" % (path, old, text.count(old)))
        text = text.replace(old, new)
    return text


def main():
    with tempfile.TemporaryDirectory() as out:
        words = plain_rust.build(ROOT, out, ["crpd"], {"search": {path: counted(path) for path in COUNTED}})
        plain_rust.rustc(["-O", "--crate-name", "turns", *words, "-o", out + "/turns", ROOT + "/tests/slow/turns.rs"], out)
        tables = sorted(glob.glob(ROOT + "/tests/slow/*.table"))
        told = subprocess.run([out + "/turns", *tables], stdin=subprocess.DEVNULL, stdout=subprocess.PIPE, text=True, check=True).stdout
    passed = failed = 0
    for line in told.splitlines():
        table, accesses, operation, turns = line.split()
        bound = BOUNDS.get((table, accesses, operation), REPORT if (accesses, operation) == ("none", "report") else OTHERS)
        if int(turns) <= bound:
            passed += 1
        else:
            failed += 1
        print("%-15s %-8s %-12s %10d of %d%s" % (table, accesses, operation, int(turns), bound, "" if int(turns) <= bound else ": TOO MANY"))
    if passed + failed != 12 * len(tables) or not tables:
        print("%d lines of %d tables" % (passed + failed, len(tables)))
        failed += 1
    print("%d passed, %d failed" % (passed, failed))
    return failed != 0


sys.exit(main())
