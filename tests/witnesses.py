#!/usr/bin/env python3
"""witnesses.py [CRATE[/LABEL]..]: shows of each must-fail edit that it is a wrong program. tests/witnesses/CRATE.txt has a line for each edit, LABEL: CASE, a call of a public
function of the crate whose promise leaves one answer; the crate is built as plain Rust with and without the edit, and both are called so. It fails for an edit of no code, one
with no such line, and one whose answer is the same; and where the edit answers nothing, since an index, a sum or a difference leaves its range first, unless
tests/witnesses/bounds.txt says of it why that is the error. Last it tries the edits of tests/same_meaning, on every case that there is: they mean the same as the code, so none
may have a witness. The last line is `N passed, M failed`.

`witnesses.py --show CRATE/LABEL..` prints both answers; `witnesses.py --find [CRATE[/LABEL]..]` looks for witnesses among the cases of tests/witnesses/cases.py, those first that
call a function of the file that is edited, keeps what is one still, and writes the files; `witnesses.py --call CRATE < CASES` prints what the crate as it stands answers."""
import concurrent.futures
import glob
import os
import re
import subprocess
import sys
import tempfile

ROOT = os.path.dirname(os.path.dirname(os.path.abspath(__file__)))
HERE = ROOT + "/tests/witnesses"
sys.path[:0] = [ROOT + "/tools", HERE]
sys.dont_write_bytecode = True
import plain_rust

SECONDS = 60  # that the cases of one call may take
SOON = 10  # the same where witnesses are looked for, among cases on which an edit may not end
TOGETHER = 8  # edits of a crate in one program
SOME = 3000  # cases on which an edit of the same meaning is tried
OPTIONS = ["-C", "opt-level=0", "-C", "debuginfo=0"]


class Edit:
    """A must-fail edit: `texts` are those of the files that it changes, by their path in the crate."""

    def __init__(self, crate, path):
        self.crate, self.label = crate, os.path.basename(path)[: -len(".edit")]
        self.name = "%s/%s" % (self.crate, self.label)
        self.was, self.texts, self.places, self.bad = {}, {}, [], None
        with open(path, encoding="utf-8") as lines:
            for line in lines.read().split("\n"):
                if line.startswith("file: "):
                    file = line[len("file: ") :].strip()
                elif line.startswith("old: "):
                    old = line[len("old: ") :]
                elif line.startswith("new:"):
                    self.put(file, old, line[len("new:") :].removeprefix(" "))

    def put(self, file, old, new):
        if file not in self.texts:
            with open("%s/crates/%s/%s" % (ROOT, self.crate, file), encoding="utf-8") as it:
                self.was[file] = self.texts[file] = it.read()
        if self.texts[file].count(old) != 1:
            self.bad = "an `old:` text is in %s %d times" % (file, self.texts[file].count(old))
            return
        self.places.append((file, self.texts[file].index(old)))
        self.texts[file] = self.texts[file].replace(old, new)

    def is_tried(self):
        return not self.bad and self.is_of_code()

    def is_of_code(self):
        """Whether it changes the program, and not a definition, a contract or a proof alone."""
        return any(file.startswith("src/") and plain_rust.plain(text) != plain_rust.plain(self.was[file]) for file, text in self.texts.items())


def edits(names=()):
    """The edits of these crates or of these names; all where there are none."""
    found = []
    for path in sorted(glob.glob(ROOT + "/crates/*/must-fail/*.edit")):
        crate, label = path.split(os.sep)[-3], os.path.basename(path)[: -len(".edit")]
        if not names or crate in names or "%s/%s" % (crate, label) in names:
            found.append(Edit(crate, path))
    return found


def listed(path):
    """The lines `NAME: WORDS` of a file, by their names."""
    if not os.path.exists(path):
        return {}
    with open(path, encoding="utf-8") as lines:
        return {label: said for label, _, said in (line.rstrip("\n").partition(": ") for line in lines if not line.startswith("#"))}


def witnesses(crate):
    """Of each label the case that is its witness."""
    return listed("%s/%s.txt" % (HERE, crate))


def write_witnesses(crate, cases):
    with open("%s/%s.txt" % (HERE, crate), "w", encoding="utf-8") as out:
        out.write("# Of each must-fail edit of `%s` a call that it answers wrongly: see tests/witnesses.py.\n" % crate)
        for label in sorted(cases):
            out.write("%s: %s\n" % (label, cases[label]))


class Programs:
    """Builds programs that call a crate's functions, as they stand and with edits, over the libraries below as they stand."""

    def __init__(self, room, crates):
        self.room, self.uses = room, plain_rust.crates(ROOT)
        plain_rust.build(ROOT, room, sorted({low for crate in crates for low in self.uses[crate]}), options=OPTIONS)

    def build(self, crate, variants):
        """Builds one program of a crate with each of these variants as a module of it: of each a name that a module can have, and the texts in place of the files'. Returns for
        each the command that calls it."""
        folder = tempfile.mkdtemp(dir=self.room)
        calls = "".join("        Some(%r) => %s::calls::main(),\n" % (name, name) for name in variants).replace("'", '"')
        mods = "".join("mod %s;\n" % name for name in variants)
        files = {"main.rs": "mod common;\n%s\nfn main() {\n    match std::env::args().nth(1).as_deref() {\n%s        _ => panic!(),\n    }\n}\n" % (mods, calls)}
        parts = {}
        for part in ("common", "pieces", "reasons", "tables", "terms", crate):
            with open("%s/%s.rs" % (HERE, part), encoding="utf-8") as it:
                parts[part + ".rs"] = it.read()
        files["common.rs"], driver = parts.pop("common.rs"), parts.pop(crate + ".rs")
        driver = driver.replace('#[path = "common.rs"]\nmod common;', "use crate::common;")
        for name, changes in variants.items():
            own = plain_rust.sources(ROOT, crate, changes)
            root = "lib.rs" if "lib.rs" in own else "main.rs"
            own["mod.rs"] = own.pop(root) + "\npub mod calls;\n"
            own.update({"calls.rs": driver, **parts})
            for path, text in own.items():
                text = text.replace("#[unsafe(no_mangle)]", "").replace("crate::common", "CRATE::common")
                files["%s/%s" % (name, path)] = re.sub(r"\bcrate(?=::| as )", "crate::" + name, text).replace("CRATE::common", "crate::common")
        plain_rust.write(folder, files)
        words = ["--crate-type", "bin", "--crate-name", crate, *OPTIONS, *plain_rust.used(self.room, self.uses, crate), "-o", "calls"]
        plain_rust.rustc([*words, "main.rs"], folder)
        return {name: [folder + "/calls", name] for name in variants}


def call(command, cases, seconds=SECONDS):
    """What a command answers to cases, a line each. A case on which it hangs or is killed is answered FAULT."""
    said = []
    while len(said) < len(cases):
        given = "".join(case + "\n" for case in cases[len(said) :]).encode()
        try:
            out = subprocess.run(command, input=given, stdout=subprocess.PIPE, stderr=subprocess.DEVNULL, timeout=seconds).stdout
        except subprocess.TimeoutExpired as late:
            out = late.stdout or b""
        lines = out.decode(errors="replace").split("\n")[:-1]
        said += lines
        if len(said) < len(cases):
            said.append("FAULT no answer")
    return said


def in_turn(work, things):
    with concurrent.futures.ThreadPoolExecutor(os.cpu_count()) as pool:
        return list(pool.map(work, things))


def is_fault(said):
    return said.startswith("FAULT")


def why_nothing(edit, case, command, right, bounds):
    """Why an edit shows nothing, or None: it is called by `command`, and `right` is what the crate as it stands answers to the case."""
    if edit.bad:
        return edit.bad
    if not edit.is_of_code():
        return "the program is the same with it: it changes a definition, a contract or a proof alone"
    if case is None:
        return "it has no witness in tests/witnesses/%s.txt" % edit.crate
    if is_fault(right):
        return "its witness cannot be called: %s" % right
    wrong = call(command, [case])[0]
    if wrong == right:
        return "its witness is answered as before: %s" % case
    if is_fault(wrong) and edit.name not in bounds:
        return "it answers nothing on its witness (%s): %s" % (wrong, case)
    if not is_fault(wrong) and edit.name in bounds:
        return "it stands in tests/witnesses/bounds.txt, and answers its witness"
    return None


def shares(things, most):
    return [things[at : at + most] for at in range(0, len(things), most)]


def together(programs, chosen, work):
    """What `work` gives of each of these edits, from the commands that call the crate with the edit and as it stands: several are built together, and where that fails each alone."""

    def of(share):
        variants = {"as_it_stands": None, **{"edit_%d" % k: edit.texts for k, edit in enumerate(share) if edit.is_tried()}}
        try:
            commands = programs.build(share[0].crate, variants)
        except ValueError as why:
            if len(share) == 1:
                return ["it is not compiled: %s" % why]
            return [said for edit in share for said in of([edit])]
        return [work(edit, commands.get("edit_%d" % k), commands["as_it_stands"]) for k, edit in enumerate(share)]

    every = [share for crate in sorted({it.crate for it in chosen}) for share in shares([it for it in chosen if it.crate == crate], TOGETHER)]
    said = in_turn(of, sorted(every, key=len, reverse=True))
    found = {edit.name: it for share, some in zip(sorted(every, key=len, reverse=True), said) for edit, it in zip(share, some)}
    return [found[it.name] for it in chosen]


def check(names):
    import cases as made

    chosen = edits(names)
    cases, bounds = {it.crate: witnesses(it.crate) for it in chosen}, listed(HERE + "/bounds.txt")
    same = [] if names else [Edit(path.split(os.sep)[-2], path) for path in sorted(glob.glob(ROOT + "/tests/same_meaning/*/*.edit"))]

    def why_not(edit, command, plain):
        case = cases[edit.crate].get(edit.label)
        return why_nothing(edit, case, command, call(plain, [case])[0] if case and edit.is_tried() else None, bounds)

    def why_not_same(edit, command, plain):
        """Why the check would take an edit that means the same as the code, or None."""
        if not edit.is_tried():
            return edit.bad or "it changes no code"
        every = sorted(set(made.of(edit.crate)) | set(witnesses(edit.crate).values()), key=len)[:SOME]
        found = next((case for case, one, other in zip(every, call(plain, every), call(command, every)) if one != other), None)
        return found and "it means something else: %s" % found

    with tempfile.TemporaryDirectory() as room:
        programs = Programs(room, {it.crate for it in chosen + same})
        reasons = together(programs, chosen, why_not) + together(programs, same, why_not_same)
    told = ["%s: %s" % (edit.name, why) for edit, why in zip(chosen + same, reasons) if why]
    if not names:
        there = {it.name for it in chosen}
        told += ["%s/%s: a witness of no edit" % (crate, label) for crate in cases for label in cases[crate] if "%s/%s" % (crate, label) not in there]
        told += ["%s: a line of bounds.txt for no edit" % name for name in bounds if name not in there]
    print("\n".join(told + ["%d passed, %d failed" % (len(reasons) - sum(map(bool, reasons)), len(told))]))
    return bool(told)


def show(names):
    chosen = edits(names)
    with tempfile.TemporaryDirectory() as room:
        programs = Programs(room, {it.crate for it in chosen})

        def both(edit, command, plain):
            case = witnesses(edit.crate).get(edit.label)
            if case is None or not edit.is_tried():
                return "%s: no witness" % edit.name
            return "%s: %s\n  right: %s\n  wrong: %s" % (edit.name, case, call(plain, [case])[0], call(command, [case])[0])

        print("\n".join(together(programs, chosen, both)))
    return False


def words_of(crate, file):
    """The words by which cases call the public functions of a file."""
    import public_functions

    known = public_functions.lines()
    return {word for _, name, _ in public_functions.functions(crate).get(file, []) if name in known for word in known[name][0]}


def find(names):
    import cases as made

    chosen, lost = edits(names), []
    with tempfile.TemporaryDirectory() as room:
        programs = Programs(room, {it.crate for it in chosen})
        for crate in sorted({it.crate for it in chosen}):
            known = witnesses(crate)
            every = sorted(set(made.of(crate)) | set(known.values()), key=lambda it: (len(it), it))
            said = dict(zip(every, call(programs.build(crate, {"as_it_stands": None})["as_it_stands"], every)))
            odd = [it for it in every if is_fault(said[it])]
            if odd:
                print("%s: %d of %d cases cannot be called, as %s: %s" % (crate, len(odd), len(every), odd[0][:200], said[odd[0]]))
            every = [it for it in every if not is_fault(said[it])]

            def witness(edit, command, plain):
                """A case that is a witness, or None, and why there is none that is answered."""
                if not edit.is_tried():
                    return None, edit.bad or "a definition, a contract or a proof alone"
                case = known.get(edit.label)
                if case in said and (wrong := call(command, [case])[0]) != said[case] and not is_fault(wrong):
                    return case, None
                fault, near = None, {word for file, _ in edit.places for word in words_of(crate, file)}
                for part in shares(sorted(every, key=lambda it: made.called(it) not in near), 500):
                    for case, wrong in zip(part, call(command, part, SOON)):
                        if wrong != said[case]:
                            if not is_fault(wrong):
                                return case, None
                            fault = fault or case
                return fault, "a fault alone" if fault else "no witness"

            own = [it for it in chosen if it.crate == crate]
            for edit, found in zip(own, together(programs, own, witness)):
                case, why = (None, found) if isinstance(found, str) else found
                known.pop(edit.label, None)
                if case:
                    known[edit.label] = case
                if why:
                    lost.append("%s: %s" % (edit.name, why))
                    print(lost[-1], flush=True)
            there = {it.label for it in edits([crate])}
            write_witnesses(crate, {label: case for label, case in known.items() if label in there})
    print("%d passed, %d failed" % (len(chosen) - len(lost), len(lost)))
    return bool(lost)


def main():
    words = sys.argv[1:]
    if words[:1] == ["--show"]:
        return show(words[1:])
    if words[:1] == ["--find"]:
        return find(words[1:])
    if words[:1] == ["--call"]:
        with tempfile.TemporaryDirectory() as room:
            plain = Programs(room, [words[1]]).build(words[1], {"as_it_stands": None})["as_it_stands"]
            print("\n".join(call(plain, sys.stdin.read().splitlines())))
            return False
    return check(words)


if __name__ == "__main__":
    sys.exit(main())
