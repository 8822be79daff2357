#!/usr/bin/env python3
"""refused_by_facts.py LOG: reads what `rt ci` printed, and fails for each must-fail edit that was not refused there, as far as that can be read: one that no line names, that
could not be tried, that a limit of the prover refused, or only a proof file that names what the edit took away. Of a refusal rt keeps one line, the first that is no such name,
and none of the goals behind it. It is counted what these lines are of; whether it is the promise that fails, and not a written answer or a search, tests/witnesses.py shows, by a
call that the edited code answers wrongly. The last line is `N passed, M failed`."""
import collections
import glob
import os
import re
import sys

EDIT = re.compile(r"rt: must-fail (\w+/[^:]+\.edit): (.*)")
REFUSED = "refused, as it must be"
GOAL = re.compile(r"error: `([^`]+)`|it is not proved that .*\(`([^`]+)`\)")
KINDS = [
    (re.compile(r"^returns"), "a promise"),
    (re.compile(r"-(init|preserved|smaller)$"), "an invariant"),
    (re.compile(r"^(overflow_|nonzero_|bounds-|slice_bounds-|offset_bounds-)"), "a bound"),
    (re.compile(r"-requires"), "what a call asks for"),
    (re.compile(r"^invariant_of-"), "what a type keeps"),
]


def kind_of(line):
    """What the goal is of that a line of the prover names, and the goal."""
    found = GOAL.search(line)
    goal = found and (found[1] or found[2])
    return next((kind for name, kind in KINDS if goal and name.search(goal)), "something else"), goal


def told(path):
    """Of each edit what the log says of it last."""
    with open(path, encoding="utf-8", errors="replace") as lines:
        return {found[1]: found[2] for found in map(EDIT.match, lines) if found}


def main():
    of_edit, kinds = told(sys.argv[1]), collections.Counter()
    passed = failed = 0
    for path in sorted(glob.glob("crates/*/must-fail/*.edit")):
        name = "%s/%s" % (path.split(os.sep)[1], os.path.basename(path))
        said = of_edit.get(name, "no line in the log")
        if said.startswith(REFUSED) and not said.startswith(REFUSED + " (only"):
            passed += 1
            kinds[kind_of(said)[0]] += 1
        else:
            failed += 1
            print("%s: not refused by a fact: %.300s" % (name, said))
    print("first told: " + ", ".join("%s %d" % it for it in kinds.most_common()))
    print("%d passed, %d failed" % (passed, failed))
    return failed > 0


if __name__ == "__main__":
    sys.exit(main())
