"""Replays: when first jobs end, their pictures, and tables that are refused."""
import functools
import os

from cases import pictures
from cases.asking import BEYOND, EXAMPLE, LATER, REFUSED, SHARED, TWO, alone, ask, fine, fresh, fresh_folder, responses, tasks, unwanted, wrong_use
from cases.deadlines import without_the_rest
from cases.refused_texts import marks, text_of
from common import contents, must, printed, run, same

LATE = b"K\t4\t0\nT\ta\t2\t5\t5\t0\t0\t0\t0\nT\tb\t3\t8\t4\t0\t0\t0\t0\n"  # b needs 5 and has 4
PREEMPTED = b"K\t4\t0\nT\ta\t1\t4\t4\t0\t0\t0\t0\nT\t-\t2\t8\t8\t0\t0\t0\t0\nT\tc\t9\t60\t60\t0\t0\t0\t0\n"
LONG = text_of(["K\t4\t0", "T\ta\t1\t3\t3\t0\t0\t0\t0", "T\tb\t1800\t4000\t3000\t0\t0\t0\t0"])


def first_ends(text):
    """The first job of each task ends at its response under none, or is unfinished."""
    for turn, (task, row) in enumerate(zip(tasks(text), responses(printed(text)))):
        asked = [task.name, "#%d" % turn][turn % 2]
        answer, late = row[1].encode() + b"\n", int(row[1] == "-")
        fine(ask(turn, text, "replay", asked), answer, late, "the end of " + task.name)
        out = os.path.join(fresh_folder(), "x.svg")
        fine(ask(turn, text, "replay", asked, "-o", out), b"", late)
        alone(out)
        name = "standard input"
        told = "is unfinished at its deadline, %d." % task.d if late else "ends at %s; its deadline is %d." % (row[1], task.d)
        drawn = run("replay", asked, "-o", "-", text=text)
        lines = pictures.texts(drawn.out)
        fine(drawn, drawn.out, late)
        same("the title, and what is told", lines[:2], ["Replay: " + name, "The first job of %s %s" % (task.name, told)])
        same("what the rows leave out", [other.name for other in tasks(text) if other.name not in lines], [])


def shapes(text, task):
    """How many bars, ends and waits a picture has beside its white ground and the marks that it explains."""
    drawn = run("replay", task, "-o", "-", text=text).out
    return drawn.count(b"<rect") - 1, drawn.count(b"<circle") - 1, drawn.count(b"stroke-dasharray") - 1


def what_is_drawn():
    same("the bars, ends and waits of b", shapes(contents(TWO), "b"), (2, 2, 0))
    # a-- c a cc a cc ..: a runs at 0, 4, 8 .., - for two ticks from 1, 9, 17, and c in between
    runs = ["a", "-", "-", "c", "a", "c", "c", "c", "a", "-", "-", "c", "a", "c", "c", "c", "a", "-", "-", "c"]
    same("the ticks until c ends", (runs.count("c"), runs[-1]), (9, "c"))
    same("when c ends", run("replay", "c", text=PREEMPTED).out, b"20\n")
    same("the bars, ends and waits of c", shapes(PREEMPTED, "c"), (5 + 3 + 5, 5 + 3 + 1, 4))
    drawn = run("replay", "b", "-o", "-", text=LONG).out
    same("when b ends", run("replay", "b", text=LONG).out, b"2700\n")
    must(b"Marks that would lie upon each other are left out." in drawn, "it is not said that marks are left out")
    must(len(drawn) < 200000, "a long replay is drawn with %d bytes", len(drawn))


def looked_at():
    for text, task in (contents(TWO), "b"), (PREEMPTED, "c"), (LONG, "b"), (LATE, "b"):
        pictures.looked_at(run("replay", task, "-o", "-", text=text).out)


def kept_picture():
    """The picture of the README."""
    root = os.path.dirname(os.path.dirname(TWO))
    drawn = run("replay", "b", "examples/two-solutions.table", "-o", "-", cwd=root)
    fine(drawn, contents(os.path.join(root, "docs", "replay.svg")), 0)


def refused(text, number, words, line=None, field=None):
    place = "" if line is None else "line %d: " % line
    below = ""
    if line is not None:
        shown = text.decode().splitlines()[line - 1]
        below = "%s\n%s\n" % (shown, marks(shown.split("\t"), field))
    for asked in ["b"], ["b", "-o", "-"]:
        ended = run("replay", *asked, text=text)
        unwanted(ended, 2)
        same("standard error", ended.err.decode(), "crpd: standard input: %s%s (%d)\n%s" % (place, words, number, below))


def tables_refused():
    refused(LATER, 21, "the jitter is above 0: this is not answered where there is one", 2, 5)
    shared = contents(SHARED)
    line = 1 + shared[: shared.index(b"\nA\t") + 1].count(b"\n")
    refused(shared, 22, "there is an access: this is not answered where there is one", line, 0)
    same("a jitter before a task that is not there", run("replay", "nosuch", text=LATER).status, 2)
    far = b"K\t4\t0\nT\ta\t2\t5\t5\t0\t0\t0\t0\nT\tb\t3\t100001\t100001\t0\t0\t0\t0\n"
    refused(far, 24, "the deadline of the task is above 100,000 ticks")
    fine(run("replay", "a", text=far), b"2\n", 0)
    fine(run("replay", "b", text=far.replace(b"100001", b"100000")), b"5\n", 0)
    same("the text first", run("replay", "nosuch", text=REFUSED).status, 2)


def wrong_uses():
    words = "crpd: %s: there is no task nosuch (13)\n" % TWO
    same("what is told", wrong_use(["replay", "nosuch", TWO]).err, words.encode())
    plain = fresh(contents(TWO), "plain")
    for args in [], ["#x", TWO], ["#2", TWO], ["b", TWO, TWO], ["b", TWO, "--words"], ["b", TWO, "-o", "x.table"], ["b", plain, "-o", plain]:
        wrong_use(["replay", *args])
    unwanted(run("replay", "b", TWO, "-o", "/nosuch/x.svg"), 4)
    unwanted(run("replay", "b", "/nosuch/x.table"), 4)
    same("the table", contents(plain), contents(TWO))


def cases():
    known = {"late": LATE, "pre-empted": PREEMPTED, "beyond": BEYOND, "long": LONG}
    more = {name: without_the_rest(contents(path)) for name, path in EXAMPLE.items()}
    return [
        *[("replay of " + name, functools.partial(first_ends, text)) for name, text in {**more, **known}.items()],
        ("replay: what is drawn", what_is_drawn),
        ("replay: a renderer draws the pictures", looked_at),
        ("replay: the picture of README.md", kept_picture),
        ("replay: tables that are refused", tables_refused),
        ("replay: wrong uses", wrong_uses),
    ]
