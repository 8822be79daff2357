#!/usr/bin/env python3
"""Every public function has two must-fail edits that turn its meaning: one counts where it is made in the function itself, or where its witness (tests/witnesses) calls it.
tests/public_functions.txt has a line for each function, NAME: CALLS, with the words by which cases call it, and behind `|` why there are fewer, where there are. It fails for a
function without a line, a line without a function, and fewer edits without a reason or a reason with two. Crates of which no more is proved than that they end and stay in
range (SAFE) are tested by tests/command.py and tests/dossier.py, and have no edits. The last line is `N passed, M failed`; `--list` prints how many each has."""
import glob
import os
import re
import sys

HERE = os.path.dirname(os.path.abspath(__file__))
sys.path[:0] = [HERE, HERE + "/witnesses"]
sys.dont_write_bytecode = True
import cases as made
import witnesses

ROOT = witnesses.ROOT
SAFE = {"test_vectors", "refused", "evaluated", "asked", "worded", "timelines", "change_lines", "dossier", "wording", "console", "files", "command_line", "crpd_show", "crpd_command"}
IMPL = re.compile(r"impl(?:<[^>]*>)? (?:(\w+)(?:<[^>]*>)? for )?(&?[^{]*?) \{")
FUNCTION = re.compile(r'\s*(pub )?(?:extern "C" )?fn (\w+)')


def functions(crate):
    """Of each file of a crate its functions, in their order: where each begins, its name, and whether it is public. A trait's function is public in each `impl`."""
    found = {}
    for path in sorted(glob.glob("%s/crates/%s/src/**/*.rt" % (ROOT, crate), recursive=True)):
        file = os.path.relpath(path, "%s/crates/%s" % (ROOT, crate))
        module = file[len("src/") : -len(".rt")].replace("/", "::")
        prefix = [crate] + ([] if module in ("lib", "main") else [module])
        owner, of_trait, at, listed = None, False, 0, []
        with open(path, encoding="utf-8") as lines:
            for line in lines:
                if line.startswith("}"):
                    owner = None
                elif block := IMPL.match(line):
                    of_trait = block[1] is not None
                    owner = "%s for %s" % (block[1], block[2]) if of_trait else re.sub(r"<.*", "", block[2])
                elif line.startswith("pub trait "):
                    owner, of_trait = None, False
                elif (function := FUNCTION.match(line)) and (owner or not line.startswith(" ")):
                    name = "::".join([*prefix, *([owner] if owner else []), function[2]])
                    listed.append((at, name, bool(function[1]) or (owner is not None and of_trait)))
                at += len(line)
        found[file] = listed
    return found


def lines():
    """Of each function the words that call it, and why it has fewer than two edits, if it has."""
    found = {}
    with open(HERE + "/public_functions.txt", encoding="utf-8") as text:
        for line in text:
            if line.strip() and not line.startswith("#"):
                name, _, rest = line.rstrip("\n").partition(": ")
                calls, _, why = rest.partition("|")
                found[name] = calls.split(), why.strip()
    return found


def main():
    crates = [it for it in witnesses.plain_rust.crates(ROOT) if it not in SAFE]
    known, found, edits = lines(), {}, {}
    for crate in crates:
        cases, every = witnesses.witnesses(crate), functions(crate)
        public = [name for listed in every.values() for _, name, is_public in listed if is_public]
        called = {word: name for name in public for word in known.get(name, ([], ""))[0]}
        edits.update({name: set() for name in public})
        for edit in witnesses.edits([crate]):
            if edit.bad or not edit.is_of_code():
                continue
            for file, at in edit.places:
                inside = [name for start, name, _ in every.get(file, []) if start <= at]
                if inside and inside[-1] in edits:
                    edits[inside[-1]].add(edit.label)
            word = made.called(cases.get(edit.label, ""))
            if word in called:
                edits[called[word]].add(edit.label)
        found.update({name: crate for name in public})
    told = []
    for name in sorted(found):
        count, why = len(edits[name]), known.get(name, ([], ""))[1]
        if "--list" in sys.argv:
            print("%3d %s: %s%s" % (count, name, ", ".join(sorted(edits[name])), " | " + why if why else ""))
        if name not in known:
            told.append("%s: no line in tests/public_functions.txt" % name)
        elif count < 2 and not why:
            told.append("%s: %d edits" % (name, count))
        elif 2 <= count and why:
            told.append("%s: it has %d edits, so there is nothing to explain" % (name, count))
    told += ["%s: there is no such function" % name for name in sorted(known) if name not in found]
    print("\n".join(told + ["%d passed, %d failed" % (len(found) - len(told), len(told))]))
    return bool(told)


if __name__ == "__main__":
    sys.exit(main())
