#!/usr/bin/env python3
"""Holds README.md and the pages of docs/ to the tree.

Each block of code on a page is `console`, `sh` or `text`. In a `console` block a line that begins with `$ ` is a command, and the lines below it, up to
the next one, are what it prints, standard error too: the commands of a page run one after the other in a scratch copy, as from the repository, and each
must print just that. A `sh` block has commands that no test can run, which UNTRIED names; `text` has none. Each path that a page names is there, and each
section that it leads to. Each name in the pages that are maps of the tree is one of the tree, a law stands in the file that is told with it, and an edit
in the crate. docs/PROMISES.md lists each file of definitions once, and as those on which the operations rest just the ones that their
definitions reach. One line for each thing that is wrong; the last line is `N passed, M failed`."""
import glob
import os
import re
import shutil
import subprocess
import sys
import tempfile

from common import ROOT, SECONDS, build, environment

FIRST, MOST = "README.md", 10000  # whoever comes new reads no more bytes than these
HISTORY = "docs/PORT.md"  # it names what is gone
MAPS = "docs/ARCHITECTURE.md", "docs/DEVELOPING.md", "docs/PAPER.md", "docs/PROMISES.md"  # they name what stands where
PROMISES = "docs/PROMISES.md"
COPIED = "docs", "examples"  # what commands may write into; all else is lent to them as it is
UNTRIED = {  # the first words of commands that are shown and not run, and why
    ".ci/run": "it runs this test",
    "bindings/try.sh": "a step of the gate",
    "crpd": "it is shown as it is installed",
    "install": "it writes into the system",
    "parallel": "it wants hosts; tests/pool.py runs it on one",
    "rt": "it proves",
    "tools/library.sh": "a step of the gate",
}
ELSEWHERE = {  # names that they have of the language, the kit, Debian and a report
    "Bool", "Nat", "Perm", "Read", "Result", "Write", "abbrev", "apt-get", "bool", "contents", "crpd-report", "ensures", "errno", "f-2", "f-in-loop-j",
    "flat_map", "librsvg2-bin", "list_all", "nat_le", "nat_lt", "remaining", "requires", "result", "slice_index", "slice_index_or", "unfoldable",
    "unfolding", "while", "yes",
}

FENCE = re.compile(r"^```(\w*)\n(.*?)^```$", re.M | re.S)
CODE = re.compile(r"`([^`\n]+)`")
LINK = re.compile(r"\]\(([^)#\s]+)\)")
PAGE = re.compile(r"\b(?:docs/(?:\w+/)?[\w-]+\.md|README\.md)")
ELSE = re.compile(r'(README\.md|docs/\w+\.md),? "([^"]+)"')  # a section of another page
HERE = re.compile(r'"([^"\n]+)", (?:above|below)')  # one of this page
PLACED = re.compile(r"((?:`[^`]+`(?: \((?![^()]*\.antt)[^()]*\))?(?:, | and )?)+) \(`(\w+/(?:specs|proofs)/[\w/]+\.antt)`\)")  # names and the file that has them
MADE = re.compile(r"(?:target|crates/\w+/out)(?:/|$)")  # what is built and not kept
# what code, and what definitions and proofs, give a name
DECLARED = re.compile(r"\b(?:fn|struct|enum|trait|mod|const|static|type|def|impl(?:<[^>]*>)?(?: [\w:<>]+ for)?) +([A-Za-z_]\w*)")
FIELD = re.compile(r"^\s+(?:pub )?([a-z]\w*): |^\s+(?:ensures|requires) (\w+) \{", re.M)
DEFINED = re.compile(r"^ *(?:(?:abbrev|unfoldable|pub|record|data|intro) )*([^\s:(){}.,;`]+) *(?:[({].*)?:", re.M)
VARIANT = re.compile(r"^\s+(?:pub )?([A-Z]\w*)\b", re.M)
USED = re.compile(r"^(?:pub )?use Rattle\.(\w+)\.specs\.([\w.]+)\.\{", re.M)
LISTED = re.compile(r"^\| `(\w+)` \| ((?:`[\w/]+`(?:, )?)+) \|", re.M)


def read(path):
    with open(os.path.join(ROOT, path), encoding="utf-8") as file:
        return file.read()


def there(path):
    return os.path.exists(os.path.join(ROOT, path)) or MADE.match(path)


def files(*patterns):
    found = [path for pattern in patterns for path in glob.glob(os.path.join(ROOT, pattern), recursive=True)]
    return sorted(path for path in (os.path.relpath(path, ROOT) for path in found) if "/out/" not in path)


def prose(text):
    """A page without its blocks; each line keeps its number."""
    return FENCE.sub(lambda fence: "\n" * fence[0].count("\n"), text)


def place(page, text, found):
    return "%s:%d" % (page, text.count("\n", 0, found.start()) + 1)


# Each check gives pairs: where it looked, and what is wrong there, or nothing.


# commands


def scratch(folder):
    """Fills a folder with the repository as the commands see it."""
    for name in os.listdir(ROOT):
        if name in COPIED:
            shutil.copytree(os.path.join(ROOT, name), os.path.join(folder, name))
        elif name != ".git":
            os.symlink(os.path.join(ROOT, name), os.path.join(folder, name))


def ran(command, folder):
    """What a command prints."""
    streams = {"stdin": subprocess.DEVNULL, "stdout": subprocess.PIPE, "stderr": subprocess.STDOUT}
    done = subprocess.run(["bash", "-c", command], cwd=folder, env=environment(LC_ALL="C.UTF-8"), timeout=SECONDS, **streams)
    return done.stdout.decode("utf-8", "replace")


def commands(page, text):
    with tempfile.TemporaryDirectory() as folder:
        scratch(folder)
        for fence in FENCE.finditer(text):
            kind, block = fence.groups()
            where = place(page, text, fence)
            if kind == "console":
                before, *parts = re.split(r"^\$ ", block, flags=re.M)
                yield where, "a console block does not begin with a command" if before or not parts else ""
                for part in parts:
                    command, shown = part.split("\n", 1)
                    printed = ran(command, folder)
                    yield "%s: $ %s" % (where, command), "" if printed == shown else "it prints\n" + printed
            elif kind == "sh":
                for line in re.split(r" && |\n", block):
                    word = line.partition(" ")[0]
                    yield where, "" if not word or word in UNTRIED else "%s is shown and not run" % word
            else:
                yield where, "" if kind == "text" else "a block is console, sh or text"


# places


def sections(page, text):
    text = prose(text)
    for found, other, title in [(f, *f.groups()) for f in ELSE.finditer(text)] + [(f, page, f[1]) for f in HERE.finditer(text)]:
        right = there(other) and re.search(r"^(?:#+ %s$|\*\*%s)" % ((re.escape(title),) * 2), prose(read(other)), re.M)
        yield place(page, text, found), "" if right else "%s has no section %r" % (other, title)


def paths(page, text):
    tops, crates = os.listdir(ROOT), os.listdir(os.path.join(ROOT, "crates"))
    text = prose(text)
    named = [(link, os.path.normpath(os.path.join(os.path.dirname(page), link[1]))) for link in LINK.finditer(text)]
    named += [(other, other[0]) for other in PAGE.finditer(text)]
    for code in CODE.finditer(text):
        top, slash, rest = code[1].partition(" ")[0].partition("/")
        path = "%s/%s" % (top, rest)
        if slash and re.fullmatch(r"[\w./-]+", path) and not re.search(r"\b[A-Z]{2,}\b(?!\.md)|\.\.", path):
            if top in crates:
                named.append((code, "crates/%s%s" % (path, ".edit" if re.search("must-fail/.", path) else "")))
            elif top in tops:
                named.append((code, path))
    for found, path in named:
        yield place(page, text, found), "" if there(path) else "there is no %s" % path


# names


def spans(path):
    """What a file of crates/ declares and defines."""
    text = read(path)
    if path.endswith(".rt"):
        return {*DECLARED.findall(text), *sum(FIELD.findall(text), ()), *VARIANT.findall(text)}
    return {*DEFINED.findall(text), *VARIANT.findall(text)}


class Names:
    """What is called what in the tree."""

    def __init__(self):
        self.of = {path: spans(path) for path in files("crates/*/src/**/*.rt", "crates/*/specs/**/*.antt", "crates/*/proofs/**/*.antt")}
        self.all = ELSEWHERE.union(*self.of.values())
        for path in files("tests/**/*.py", "tools/*", "crates/*", "crates/*/specs/*.antt", "*", ".*"):
            self.all |= {os.path.basename(path), os.path.basename(path).partition(".")[0]}
            if path.endswith((".rs", ".py")):
                self.all |= set(DECLARED.findall(read(path)))
        self.edits = {tuple(re.findall(r"crates/(\w+)/must-fail/(\w+)\.edit", path)[0]) for path in files("crates/*/must-fail/*.edit")}
        self.labels = {label for _, label in self.edits}

    def path_is(self, name):
        """Whether there is a function, type or module with this path, of crates, modules and types."""
        sources = ((path.removesuffix(".rt").split("/"), found) for path, found in self.of.items() if path.endswith(".rt"))
        return any(all(part in homes or part in found for part in name.split("::")) for homes, found in sources)


def names(page, text):
    """Those of a map of the tree: what is written as code and is one word, or words with :: between."""
    tree = Names()
    text = prose(text)
    for found in CODE.finditer(text):
        name = re.sub(r"\(.*\)$", "", found[1])  # of a call what is called
        start = max(text.rfind("\n\n", 0, found.start()), text.rfind("\n|", 0, found.start()), text.rfind(" | ", 0, found.start()))
        crate = re.findall(r"`(\w+)/must-fail/", text[start : found.start()])  # an edit is named without the folder where it stands beside another one
        if re.fullmatch(r"\w+(?:::\w+)+", name):
            right = tree.path_is(name)
        elif crate and name in tree.labels:
            right = (crate[-1], name) in tree.edits
        elif re.fullmatch(r"[^\W\d][\w-]{2,}", name):
            right = name in tree.all or name in tree.labels
        else:
            continue
        yield place(page, text, found), "" if right else "nothing is called %s" % found[1]
    for found in PLACED.finditer(text):
        for name in CODE.findall(re.sub(r" \([^()]*\)", "", found[1])):
            right = name in tree.of.get("crates/" + found[2], ()) or "::" in name
            yield place(page, text, found), "" if right else "%s does not stand in %s" % (name, found[2])


def reached(path):
    """The files of definitions that one of them rests on, and itself."""
    found, todo = set(), [path]
    while todo:
        path = todo.pop()
        if path not in found and there(path):
            found.add(path)
            todo += ["crates/%s/specs/%s.antt" % (crate, file.replace(".", "/")) for crate, file in USED.findall(read(path))]
    return found


def definitions(page, text):
    listed = [["crates/%s/specs/%s.antt" % (crate, file) for crate, row in LISTED.findall(part) for file in CODE.findall(row)]
              for part in re.split(r"^\| Crate \|", text, flags=re.M)]
    everywhere = sum(listed, [])
    for path in sorted({*everywhere, *files("crates/*/specs/**/*.antt")}):
        if not path.endswith("/Lib.antt"):
            yield page, "" if everywhere.count(path) == 1 and there(path) else "%s is listed %d times" % (path, everywhere.count(path))
    rested = {path for root in files("crates/crpd*/specs/*.antt") for path in reached(root) if not path.endswith("/Lib.antt")}
    for path in sorted(rested ^ set(listed[1])):
        yield page, "the operations rest on %s" % path if path in rested else "no operation rests on %s" % path


def checks(page):
    text = read(page)
    yield from commands(page, text)
    if page == FIRST:
        yield page, "" if len(text.encode()) <= MOST else "it is longer than %d bytes" % MOST
    if page != HISTORY:
        yield from sections(page, text)
        yield from paths(page, text)
    if page in MAPS:
        yield from names(page, text)
    if page == PROMISES:
        yield from definitions(page, text)


def main():
    build()
    passed = failed = 0
    for page in files("README.md", "docs/*.md"):
        for where, wrong in checks(page):
            passed += not wrong
            failed += bool(wrong)
            if wrong:
                print("%s: %s" % (where, wrong))
    print("%d passed, %d failed" % (passed, failed))
    return 1 if failed or not passed else 0


if __name__ == "__main__":
    sys.exit(main())
