"""A partner's list: what is found of each claim, as lines and in words, and lists that are refused."""
import functools
import os

from cases.asking import CONTROLLER, EXAMPLE, HOPELESS, REFUSED, TWO, fine, fresh, fresh_folder, responses, tables, tasks, unwanted, wrong_use
from cases.refused_texts import marks, text_of
from common import METHODS, contents, must, printed, run, same

SEVERAL = b"K\t4\t1\nT\ta\t1\t5\t5\t0\t0\t0\tf\nT\tb\t1\t20\t20\t0\t0\t0\t0\nT\tc\t1\t100\t100\t0\t0\t0\t0\nA\tc\tb\t4\t0\nA\tc\tb\t1\t3\n"
NAMES = ["a", "b"]  # of the tasks of TWO
FORM = "a line of a list is R, a task's name, and a number of ticks or -, parted by tabs"
MISNAMED = "the name is not 1 to 12 of the characters a-z, 0-9 and -"
MALFORMED = "the response is neither - nor a number: 0, or up to nine digits that do not start with 0"


def listed(names, claims):
    return text_of("R\t%s\t%s" % claim for claim in zip(names, claims))


def found(names, words):
    return text_of("C\t%s\t%s" % word for word in zip(names, words))


def check(text, claims, method, *options):
    """What is found of these claims for a table."""
    return run("check", *options, method, fresh(listed([task.name for task in tasks(text)], claims), "x.list"), text=text)


def worked_out():
    """The claims of docs/RULES.md."""
    for method in METHODS:
        for claim, word in ("4", "bad"), ("5", "ok"), ("6", "bad"), ("7", "ok"), ("9", "bad"), ("-", "open"):
            fine(check(contents(TWO), ["2", claim], method), found(NAMES, ["ok", word]), int(word == "bad"))
    fine(check(SEVERAL, ["1", "7", "-"], "ucb-only"), found("abc", ["ok", "open", "open"]), 0)


def of_our_own(text):
    """Our own responses are ok where at most one access blocks, and no lower number is; one above the limit is bad, and `-` is open."""
    names, rows = [task.name for task in tasks(text)], responses(printed(text))
    for method in range(6):
        limits, ours = [row[0] for row in rows], [row[1 + method] for row in rows]
        known = ["open" if claim == "-" else "ok" for claim in ours]
        fine(check(text, ours, str(method)), found(names, known), 0)
        lower = ["0" if claim == "-" else str(int(claim) - 1) for claim in ours]
        fine(check(text, lower, METHODS[method]), found(names, ["bad"] * len(names)), 1)
        fine(check(text, [str(int(limit) + 1) for limit in limits], METHODS[method]), found(names, ["bad"] * len(names)), 1)
        fine(check(text, ["-"] * len(names), str(method)), found(names, ["open"] * len(names)), 0)


def in_words():
    done = "ok: all that is asked for by then is done by then"
    for claim, counts, status, line in (
        ("4", (1, 0, 1), 1, "4 ticks, bad: by then more is asked for; our response is 5 ticks, 1 above"),
        ("5", (2, 0, 0), 0, "5 ticks, %s; our response is the same" % done),
        ("6", (1, 0, 1), 1, "6 ticks, bad: by then more is asked for; our response is 5 ticks, 1 lower"),
        ("7", (2, 0, 0), 0, "7 ticks, %s; our response is 5 ticks, 2 lower" % done),
        ("9", (1, 0, 1), 1, "9 ticks, bad: its limit is 8 ticks; our response is 5 ticks, 4 lower"),
        ("-", (1, 1, 0), 0, "-, open: no response is claimed; our response is 5 ticks"),
    ):
        text = "Under combined: %d ok, %d open, %d bad.\na: 2 ticks, %s; our response is the same.\nb: %s.\n" % (*counts, done, line)
        fine(check(contents(TWO), ["2", claim], "5", "--words"), text.encode(), status)
    told = check(SEVERAL, ["1", "7", "-"], "2", "--words").out.decode().splitlines()[2]
    must(told.startswith("b: 7 ticks, open: two or more accesses may block the task, and beside one of them more is asked for by then; "), "of b is told %r", told)
    none = check(HOPELESS, ["1", "-"], "0", "--words").out.decode().splitlines()
    same("what is told of a task without a response", none[2], "b: -, open: no response is claimed; our response is 2 ticks.")
    late = contents(EXAMPLE["controller.table"])
    told = check(late, ["40", "180", "-"], "1", "--words").out.decode().splitlines()[3]
    same("what is told where there is none", told, "log: -, open: no response is claimed; we find none either.")
    told = check(late, ["40", "180", "999"], "1", "--words").out.decode().splitlines()[3]
    same("what is told where there is none", told, "log: 999 ticks, bad: by then more is asked for; we find no response.")


def refused(lines, number, line, words, shown=None, marked=None):
    """How the command tells of a list for TWO that is refused."""
    file = fresh(lines if isinstance(lines, bytes) else text_of(lines), "x.list")
    place = "crpd: %s: line %d: %s (%d)\n" % (file, line, words, number)
    below = "" if shown is None else shown + "\n" + ("" if marked is None else marked + "\n")
    ended = run("check", "none", file, TWO)
    unwanted(ended, 2)
    same("standard error", ended.err.decode(), place + below)


def lists_refused():
    one, two = "R\ta\t2", "R\tb\t5"
    for wrong, words, first, last in (
        ("C\tb\t5", FORM, 0, 0),
        ("", FORM, 0, 0),
        ("R\tb", FORM, 2, 2),
        ("R\tb\t5\tx\ty", FORM, 3, 4),
        ("R\tB\t5", MISNAMED, 1, 1),
        ("R\t\t5", MISNAMED, 1, 1),
        ("R\tb\t05", MALFORMED, 2, 2),
        ("R\tb\t--", MALFORMED, 2, 2),
        ("R\tb\t1000000000", MALFORMED, 2, 2),
    ):
        refused([one, wrong], 19, 2, words, wrong, marks(wrong.split("\t"), first, last))
    refused([one, two, "x"], 19, 3, FORM, "x", "^")
    refused(b"R\ta\t2\nR\tb\t5", 19, 2, "the last line has no line end", two, marks(two.split("\t"), 3))
    refused([two, one], 20, 1, "the task at this place of the table is a", two, marks(two.split("\t"), 1))
    refused([one, two, two], 20, 3, "the line is one too many, for the table has 2 tasks", two, "^")
    refused([one], 20, 2, "the line of b is missing")
    refused([], 20, 1, "the line of a is missing")


def where_lists_come_from():
    """LIST or FILE may be standard input, and not both; a list may go on for ever."""
    text, claims, expected = contents(TWO), listed(NAMES, "25"), found(NAMES, ["ok", "ok"])
    fine(run("check", "none", "-", TWO, text=claims), expected, 0)
    file = fresh(claims, "x.list")
    fine(run("check", "none", file, text=text), expected, 0)
    fine(run("check", "none", file, "-", text=text), expected, 0)
    for args in ["-"], ["-", "-"]:
        wrong_use(["check", "none", *args], text)
    for args in [os.path.join(fresh_folder(), "nosuch"), TWO], [file, "/nosuch/x.table"]:
        unwanted(run("check", "none", *args), 4)
    unwanted(run("check", "none", fresh(b"x"), text=REFUSED), 2)
    with open("/dev/zero", "rb") as zeros:
        unwanted(run("check", "none", "-", CONTROLLER, stdin=zeros), 2)


def cases():
    plain = {name: text for name, text in tables().items() if text.count(b"\nA\t") < 2}
    return [
        ("check: the claims of docs/RULES.md", worked_out),
        *[("check: our own responses of " + name, functools.partial(of_our_own, text)) for name, text in plain.items()],
        ("check --words", in_words),
        ("check: lists that are refused", lists_refused),
        ("check: where lists come from", where_lists_come_from),
    ]
