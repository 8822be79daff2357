"""Earliest deadline first: the verdict, the first time that is exceeded in words, and tables that are refused."""
import functools
import math

from cases.asking import BEYOND, EXAMPLE, FIGURE, LATER, SHARED, ask, fine, fresh, unwanted
from cases.refused_texts import marks, text_of
from common import contents, run, same

TIGHT = b"K\t4\t1\nT\ta\t1\t4\t3\t0\t0\t0\t7\nT\tb\t2\t12\t11\t0\t0\t6\tf\nT\tc\t1\t24\t11\t0\t0\tf\tf\n"
TOGETHER = b"K\t4\t0\nT\ta\t2\t4\t4\t0\t0\t0\t0\nT\tb\t3\t8\t4\t0\t0\t0\t0\n"
YES = b"Yes: at no time is more asked for than there is by the jobs that are released and due by then.\n"


def sets_of(digits, sets):
    """The cache sets that hex digits have, which are the lowest four in the last digit."""
    return {n for n in range(sets) if int(digits, 16) >> n & 1}


def charged(text):
    """Of each task its name, the time that each of its jobs is charged, its deadline and its period."""
    lines = [line.split("\t") for line in text.decode().splitlines()]
    sets, reload = int(lines[0][1]), int(lines[0][2])
    rows = [(line[1], *map(int, line[2:5]), sets_of(line[7], sets), sets_of(line[8], sets)) for line in lines[1:]]
    for name, c, t, d, useful, _ in rows:
        yield name, c + sum(reload * len(useful & other[5]) * -(-(d - other[3]) // other[2]) for other in rows if other[3] < d), d, t


def jobs(x, deadline, period):
    return max(0, (x - deadline) // period + 1)


def first_exceeded(text):
    """The first time that is exceeded, up to the least common multiple of the periods."""
    rows = list(charged(text))
    for x in range(1 + math.lcm(*(period for _, _, _, period in rows))):
        if x < sum(time * jobs(x, deadline, period) for _, time, deadline, period in rows):
            return x
    return None


def verdict(text):
    x = first_exceeded(text)
    for turn in range(3):
        fine(ask(turn, text, "edf"), b"yes\n" if x is None else b"no\n", int(x is not None))
    told = run("edf", "--words", text=text)
    if x is None:
        fine(told, YES, 0)
        return
    rows = [(name, jobs(x, deadline, period), time) for name, time, deadline, period in charged(text)]
    first, empty, *lines = told.out.decode().splitlines()
    need = sum(count * time for _, count, time in rows)
    words = "No: the jobs that are released and due within %d ticks ask for %d ticks. Within no shorter time is more asked for than there is."
    same("what is told", (first, empty), (words % (x, need), ""))
    parts = [[name, *("%d job%s x %d" % (count, "" if count == 1 else "s", time)).split(), str(count * time)] for name, count, time in rows]
    same("the sum", [line.split() for line in lines], parts + [["-" * len(str(need))], ["together", str(need)]])
    fine(told, told.out, 1)


def worked_out():
    """The table of docs/RULES.md: within 11 ticks 16 are asked for, and with a BRT of 0 six."""
    same("the first time", (first_exceeded(TIGHT), first_exceeded(TIGHT.replace(b"4\t1\n", b"4\t0\n", 1))), (11, None))
    same("the charges", [time for _, time, _, _ in charged(TIGHT)], [1, 6, 7])


def without_the_rest(text):
    """A table with neither jitter nor access."""
    lines = [line.split("\t") for line in text.decode().splitlines() if not line.startswith("A")]
    return text_of("\t".join(line[:5] + ["0"] + line[6:] if line[0] == "T" else line) for line in lines)


def refused(text, number, line, words, field):
    shown = text.decode().splitlines()[line - 1]
    for options in [], ["--words"]:
        ended = run("edf", *options, text=text)
        unwanted(ended, 2)
        told = "crpd: standard input: line %d: %s (%d)\n%s\n%s\n" % (line, words, number, shown, marks(shown.split("\t"), field))
        same("standard error", ended.err.decode(), told)


def tables_refused():
    refused(LATER, 21, 2, "the jitter is above 0: this is not answered where there is one", 5)
    shared = contents(SHARED)
    line = 1 + shared[: shared.index(b"\nA\t") + 1].count(b"\n")
    refused(shared, 22, line, "there is an access: this is not answered where there is one", 0)
    primes = text_of(["K\t4\t0"] + ["T\tt%d\t1\t%d\t%d\t0\t0\t0\t0" % (n, n, n) for n in (631, 641, 643)])
    ended = run("edf", fresh(primes))
    unwanted(ended, 2)
    must_end = b": the least common multiple of the periods is above 250,000,000 ticks (23)\n"
    same("standard error", ended.err[-len(must_end) :], must_end)
    same("the shown lines", ended.err.count(b"\n"), 1)


def cases():
    known = {"tight": TIGHT, "together": TOGETHER, "figure": contents(FIGURE), "beyond": BEYOND}
    more = {name: without_the_rest(contents(path)) for name, path in EXAMPLE.items() if contents(path).split(b"\n")[0].count(b"\t") == 2}
    return [
        ("edf: the table of docs/RULES.md", worked_out),
        *[("edf of " + name, functools.partial(verdict, text)) for name, text in {**more, **known}.items()],
        ("edf: tables that are refused", tables_refused),
    ]
