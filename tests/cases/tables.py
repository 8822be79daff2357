"""What the command gives for a table, by each of its commands."""
import collections
import functools
import itertools
import os
import re

from cases import pictures
from cases.asking import CONTROLLER, FIGURE, LATER, SHARED, TWO, ask, fine, responses, tables, tasks, verdicts
from cases.refused_texts import text_of
from common import METHODS, ROOT, must, on_terminal, printed, run, same, status_of


def same_report(text):
    expected = printed(text, [os.path.join(ROOT, "bin", "crpd-report")])
    for turn in range(3):
        fine(ask(turn, text, "report"), expected, status_of(expected))


def questions(text):
    """Each method and position, spelled in turn by number and by name."""
    for turn, (method, (position, task)) in enumerate(itertools.product(range(6), enumerate(tasks(text)))):
        spelling = [str(method), METHODS[method]][turn % 2]
        yield turn, method, position, (spelling, [task.name, "#%d" % position][turn // 2 % 2])


def same_answers(text):
    rows = responses(printed(text))
    for turn, method, position, args in questions(text):
        answer = rows[position][1 + method]
        fine(ask(turn, text, "answer", *args), answer.encode() + b"\n", int(answer == "-"), "the answer to %s %s" % args)


def adds_up(text, method, position, out):
    """The need that an explanation tells, which is one of this question and comes to that need."""
    table, reload = tasks(text), int(text.split(b"\n")[0].split(b"\t")[2])
    task = table[position]
    first, *rows = [line.split("\t") for line in out.decode().splitlines()]
    kind, name, explained, need, limit, own, blocked = first
    same("the start of the line X", (kind, name, int(limit), int(own)), ("X", task.name, task.d - task.j, task.c))
    must(int(explained) in ((3, 4) if method == 5 else (method,)), "method %d is explained by %s", method, explained)
    if need == "beyond":
        same("what follows", rows, [])
        return None
    same("the lines I", [row[:2] for row in rows], [["I", above.name] for above in table[:position]])
    for above, (_, _, activations, _, _) in zip(table, rows):
        same("the activations of " + above.name, int(activations), -(-(int(need) + above.j) // above.t))
    costs = [int(activations) * (above.c + reload * int(reloads)) for above, (_, _, activations, reloads, _) in zip(table, rows)]
    same("the sum", int(own) + int(blocked) + sum(costs), int(need))
    return int(need)


def same_explanations(text):
    rows = responses(printed(text))
    for turn, method, position, args in questions(text):
        limit, answer = rows[position][0], rows[position][1 + method]
        ended = ask(turn, text, "explain", *args)
        need = adds_up(text, method, position, ended.out)
        late = need is None or int(limit) < need
        must(late if answer == "-" else str(need) == answer, "it needs %s, and the answer is %s", need, answer)
        fine(ended, ended.out, int(late))


def in_words(text):
    """The sentences have the names and numbers of the plain explanation, and a sum."""
    for turn, _, _, args in questions(text):
        plain, told = ask(turn, text, "explain", *args), ask(turn, text, "explain", "--words", *args)
        fine(told, told.out, plain.status)
        (_, name, _, need, limit, own, blocked), *rows = [line.split("\t") for line in plain.out.decode().splitlines()]
        lines = told.out.decode().splitlines()
        wanted = {name, limit} if need == "beyond" else {name, need, limit, own, blocked} - {"0"}
        same("what the words leave out", sorted(wanted - set(pictures.words(lines))), [])
        if need != "beyond":
            sums_up(lines, int(need), rows)


def sums_up(lines, need, rows):
    """The last of the numbers at the lines' ends is the sum of the others, and some line says whence each part comes."""
    found = re.compile(r"\s\s([\d,]+)$")
    ended = [(line, int(found.search(line)[1].replace(",", ""))) for line in lines if found.search(line)]
    *parts, whole = [end for _, end in ended]
    same("the sum, that of its parts, and how many there are", (whole, sum(parts), len(parts)), (need, need, 2 + len(rows)))
    for _, name, activations, reloads, victim in rows:
        part = any({name, activations, reloads} - {"0"} <= set(pictures.words([line])) for line, _ in ended)
        must(part, "no line of the sum has the part of %s", name)
        hit = any({name, reloads, victim} - {"-"} <= set(pictures.words([line])) for line in lines)
        must(hit or reloads == "0", "no line has the %s reloads for %s, and that they hit %s", reloads, name, victim)


def scaled_by(text, growth):
    lines = [line.split("\t") for line in text.decode().splitlines()]
    for fields in lines:
        if fields[0] == "T":
            fields[2] = str(-(-int(fields[2]) * growth // 1000))
    return text_of("\t".join(fields) for fields in lines)


def passes(text, method):
    report = printed(text)
    return report.startswith(b"R") and verdicts(report)[method] == "yes"


def same_growths(text):
    """The growth passes, a thousandth more does not, and the scaled table has it."""
    for method in range(6):
        told = ask(method, text, "growth", [str(method), METHODS[method]][method % 2])
        must(re.fullmatch(rb"\d+\n", told.out), "no growth: %.100r", told.out)
        growth = int(told.out)
        fine(told, b"%d\n" % growth, int(growth < 1000))
        must(growth == 0 or passes(scaled_by(text, growth), method), "%d does not pass under method %d", growth, method)
        must(growth == 4000 or not passes(scaled_by(text, growth + 1), method), "%d passes under method %d", growth + 1, method)
        scaled = ask(method + 1, text, "scaled", [METHODS[method], str(method)][method % 2])
        fine(scaled, scaled_by(text, growth or 1000), int(growth < 1000))


def shown(text):
    """One heading, one line for each task and one for the verdicts, in columns."""
    report = printed(text)
    ended = ask(len(text), text, "show")
    fine(ended, ended.out, status_of(report))
    lines = ended.out.decode().splitlines()
    rows = [line.replace(",", "").split() for line in lines]
    same("the heading's end", rows[0][-6:], METHODS)
    same("the lines of the tasks", rows[1:-1], [[task.name] + row for task, row in zip(tasks(text), responses(report))])
    same("the verdicts", rows[-1][-6:], verdicts(report))
    must(b"\x1b" not in ended.out, "escape sequences")
    places = [[(word.start(), word.end()) for word in re.finditer(r"\S+", line)] for line in lines]
    for column in range(-6, 0):
        aligned(column, [row[column] for row in places])
    aligned(1, [row[1] for row in places[1:-1]])


def aligned(column, places):
    starts, ends = map(set, zip(*places))
    must(1 in (len(starts), len(ends)), "column %d is not aligned", column)


def coloured():
    plain = run("show", CONTROLLER).out
    told, status = on_terminal("show", CONTROLLER)
    must(b"\x1b[" in told, "no colours on a terminal: %.200r", told)
    same("what is left without the colours", re.sub(rb"\x1b\[[\d;]*m", b"", told), plain)
    same("the status", status, 1)
    for without in {"NO_COLOR": "1"}, {"TERM": "dumb"}:
        told, _ = on_terminal("show", CONTROLLER, **without)
        same("what a terminal gets with %s" % without, told, plain)


def drawn(text):
    """The names, the limits, each response and a word for each that is not there."""
    report = printed(text)
    ended = ask(len(text) + 1, text, "plot", "-o", "-")
    fine(ended, ended.out, status_of(report))
    texts = pictures.texts(ended.out)
    values = [value for row in responses(report) for value in row]
    wanted = collections.Counter([value for value in values if value != "-"] + [task.name for task in tasks(text)])
    same("what the picture leaves out", wanted - collections.Counter(pictures.words(texts)), collections.Counter())
    same("how often the picture says that there is no response", texts.count("no response"), values.count("-"))


def as_in_the_rules():
    """The figures that docs/RULES.md tells, with their statuses."""
    for method, growth in enumerate((1425, 970, 925, 1050, 1125, 1125)):
        fine(run("growth", METHODS[method], CONTROLLER), b"%d\n" % growth, int(growth < 1000))
        fine(run("growth", str(method), SHARED), b"4000\n", 0)
        fine(run("growth", str(method), TWO), b"1000\n", 0)
    rows = [(b"valve", 45, 200, b"00", b"0f"), (b"motor", 113, 500, b"07", b"3f"), (b"log", 338, 1000, b"f8", b"ff")]
    scaled = b"".join(b"T\t%s\t%d\t%d\t%d\t0\t0\t%s\t%s\n" % (name, c, t, t, ucb, ecb) for name, c, t, ucb, ecb in rows)
    fine(run("scaled", "combined", CONTROLLER), b"K\t8\t10\n" + scaled, 0)
    fine(run("explain", "5", "#2", FIGURE), b"X\tc\t4\t9\t60\t2\t0\nI\ta\t1\t2\tb\nI\tb\t1\t2\tc\n", 0)
    fine(run("explain", "0", "#1", text=LATER), b"X\tb\t0\t7\t6\t3\t0\nI\ta\t2\t0\t-\n", 1)
    fine(run("explain", "combined", "b", SHARED), b"X\tb\t4\t7\t40\t2\t2\nI\ta\t1\t2\tc\n", 0)
    fine(run("answer", "0", "b", TWO), b"5\n", 0)


def largest():
    """A table with as many tasks, accesses and cache sets as there may be."""
    text = text_of(
        ["K\t256\t100000"]
        + ["T\ttask-number%d\t1%d00\t250000000\t250000000\t0\t0\t%064x\t%s" % (n, n, n, "f" * 64) for n in range(10)]
        + ["T\tt%d\t100\t250000000\t250000000\t1%d\t0\t%064x\t%s" % (n, n, 1, "f" * 64) for n in range(22)]
        + ["A\tt21\ttask-number0\t100000000\t%s" % ("0f" * 32)] * 32
    )
    for check in same_report, shown, same_growths, drawn:
        check(text)


def cases():
    checks = {
        "report": same_report, "answer": same_answers, "explain": same_explanations, "explain --words": in_words,
        "growth and scaled": same_growths, "show": shown, "plot": drawn,
    }
    pairs = itertools.product(checks.items(), tables().items())
    return [("%s of %s" % (command, name), functools.partial(check, text)) for (command, check), (name, text) in pairs] + [
        ("show on a terminal", coloured),
        ("the figures of docs/RULES.md", as_in_the_rules),
        ("the largest table", largest),
    ]
