"""How refusals are told: the words, the line and the marks of each, of long and odd lines, and of made-up texts."""
import functools
import os
import random
import re
import shlex

from cases import refused_texts
from cases.asking import fresh, fresh_folder, given, tables
from common import Ended, all_printed, contents, must, run, same, status_of, write

WIDE = 80  # columns, which every terminal has


def on_error(refusal, file="standard input"):
    """What standard error must have."""
    place = "line %d: " % refusal.line if refusal.line else ""
    lines = ["crpd: %s: %s%s (%d)" % (file, place, refusal.words, refusal.number), refusal.shown, refusal.marks]
    return "".join(line + "\n" for line in lines if line is not None).encode()


def told(refusal):
    ended = run("report", text=refusal.text)
    same("what is printed, and the status", (ended.out, ended.status), (b"E\t%d\t%d\n" % (refusal.number, refusal.line), 2))
    err = without_remark(ended.err)
    if err != on_error(refusal) and WIDE < len((refusal.shown or "").expandtabs()):
        told_in_part(err, refusal)
    else:
        same("standard error", err, on_error(refusal))


def without_remark(err):
    """What is told, without a line in brackets that may stand below the marks."""
    return re.sub(rb"(\^\n)\([^\n]*\)\n$", rb"\1", err)


def told_in_part(err, refusal):
    """A long line may be cut to the part around the mark."""
    first, shown, _ = err.decode().split("\n", 2)
    same("the words", first, on_error(refusal).decode().split("\n")[0])
    must("..." in shown and shown.removeprefix("...").removesuffix("...") in refusal.shown, "%r is no part of the line", shown)
    same("what is marked", above_marks(err), refusal.shown[refusal.marks.index("^") : len(refusal.marks)])


def told_by_all():
    """Each command tells the same of a text, and all but report leave standard output empty."""
    out = os.path.join(fresh_folder(), "x.svg")
    refusal = next(refused_texts.between_fields())
    asked = "answer 0 a", "explain 0 #0", "explain --words 5 nosuch", "growth 3", "scaled 4", "edf", "edf --words", "replay a", "replay #9 -o -", "show", "plot -o - ", "plot -o " + out
    for line in asked:
        for turn in range(3):
            file, text = given(refusal.text, turn)
            expected = Ended(b"", on_error(refusal, "standard input" if text else file[0]), 2)
            same("crpd " + line, run(*line.split(), *file, text=text), expected)
    must(not os.path.exists(out), "there is a picture of a refused table")


def told_as_given():
    """FILE is told as it was given."""
    refusal = next(refused_texts.between_fields())
    folder = os.path.dirname(fresh(refusal.text))
    for file in "x.table", "./x.table", "../%s/x.table" % os.path.basename(folder):
        same("the end", run("report", file, cwd=folder), Ended(b"E\t8\t3\n", on_error(refusal, file), 2))


def one_digit():
    """A table of four sets has one digit for them."""
    ended = run("report", text=b"K\t4\t1\nT\ta\t1\t20\t20\t0\t0\t00\tf\n")
    words = rb"crpd: standard input: line 2: the useful cache sets are not 1 digit of 0-9 and a-f \(7\)\n"
    must(re.match(words, ended.err), "what is told is %r", ended.err)


def thousand_fields():
    ended = run("report", text=b"K\t8\t1\nT" + b"\ta" * 1001 + b"\n")
    must(b"line 2: a line T has 9 fields, and this one 1,002 (3)\n" in ended.err, "what is told is %.200r", ended.err)


def above_marks(err):
    """What stands above the marks, where each tab before them has a tab below it."""
    _, shown, marks = err.decode().split("\n")[:3]
    must(re.fullmatch(r"[ \t]*\^[\^\t]*", marks), "the marks are %r", marks)
    at = marks.index("^")
    same("what stands before the marks", marks[:at], re.sub("[^\t]", " ", shown[:at]))
    return shown[at : len(marks)]


def narrow(err):
    """That no terminal breaks the line that is shown, nor its marks."""
    widest = max(err.decode().split("\n")[1:], key=lambda line: len(line.expandtabs()))
    must(len(widest.expandtabs()) <= WIDE, "a line has %d columns: %r", len(widest.expandtabs()), widest)


def ended_by_cr():
    """That lines end with CR and LF is said, where it is so."""
    remark = b"(the line ends with CR and LF; those of a table end with LF alone)\n"
    must(run("report", text=b"K\t8\t1\r\n").err.endswith(b"^\n" + remark), "the remark is missing")
    for text in b"K\t8\t1\r", b"K\t8\t1\rx\n", b"K\t8\tx\nT\r\n":
        must(b"CR" not in run("report", text=text).err, "there is a remark on %r", text)


def long_lines():
    """Only the part of a long line around the mark is shown."""
    zeros = "0" * 6000
    for line, marked in (
        ("\t".join(["T", "a", "1", "20", "20", "0", "0", zeros, zeros, "surplus"]), "surplus"),
        ("\t".join(["T", "a", "1", "20", "20", "0", "0", zeros, "0f"]), "000"),
        ("\t".join(["T", "a", "x", "20", "20", "0", "0", "00", zeros]), "x"),
        ("\t".join(["T", "a", "1", "20", "20", "0", "0", "00", zeros]), "000"),
        ("y" * (16384 - len("K\t8\t1\n\n")), "yyy"),
        ("T\t" + "a" * 16000, ""),
        ("T\t" + "\x1b" * 16000, ""),
        ("T" + "\ta" * 8000, "a"),
    ):
        ended = run("report", text=b"K\t8\t1\n" + line.encode() + b"\n")
        same("the status", ended.status, 2)
        must(b"..." in ended.err and len(ended.err) < 1000, "the line is not cut: %d bytes", len(ended.err))
        narrow(ended.err)
        above = above_marks(ended.err)
        must(above.startswith(marked), "%r is marked, and not %r", above, marked)
        must(len(marked) != 1 or above == marked or "\t" in above, "%r is marked, and not only %r", above, marked)
    unended = run("report", text=b"x" * 16384).err
    must(unended.startswith(b"crpd: standard input: the last line has no line end (2)\n..."), "what is told is %.300r", unended)
    same("what is above the mark after the end, and its length", (above_marks(unended), len(unended) < 1000), ("", True))


def odd_bytes():
    """All that is no letter or digit, and what is no UTF-8."""
    single = [bytes([odd]) for odd in range(256) if odd not in b"\t\n" and not chr(odd).isalnum()]
    return single + [b"\xc2\x9b31m", b"\xc2\x80", b"\xe2\x82", b"\xed\xa0\x80", b"\xf4\x90\x80\x80", b"\xc0\x80", b"\xff\xfe\xfd"]


def safe_for_terminals():
    """No control character comes through, nor a byte that is no UTF-8."""
    odd = odd_bytes()
    for part in (odd[n : n + 12] for n in range(0, len(odd), 12)):
        ended = run("report", text=b"K\t8\t1\nT\t" + b" ".join(part) + b"\n")
        must(not re.search("[\x00-\x08\x0b-\x1f\x7f-\x9f]", ended.err.decode()), "control characters come through: %r", ended.err)
        narrow(ended.err)
        above_marks(ended.err)


# made-up texts


def with_other_fields(pick, line):
    """A line with two fields swapped, another field, one less or one more."""
    fields = line.split(b"\t")
    one, other = pick.randrange(len(fields)), pick.randrange(len(fields))
    kind = pick.randrange(4)
    if kind == 0:
        fields[one], fields[other] = fields[other], fields[one]
    elif kind == 1:
        values = b"", b"0", b"1", b"250000000", b"250000001", b"00", b"ff", b"a", b"c", b"-", b"\x1b[2J", b"\xff", b"T", b"\xc3\xa9"
        fields[one] = pick.choice(values)
    elif kind == 2:
        del fields[one]
    else:
        fields.insert(one, pick.choice([b"", b"1", b"x y"]))
    return b"\t".join(fields)


def with_other_lines(pick, text):
    """A text with a line doubled, left out or spoilt."""
    lines = text.splitlines()
    at = pick.randrange(len(lines))
    kind = pick.randrange(5)
    if kind == 0:
        lines.insert(pick.randrange(len(lines) + 1), lines[at])
    elif kind == 1:
        del lines[at]
    else:
        lines[at] = with_other_fields(pick, lines[at])
    return b"".join(line + b"\n" for line in lines)


def with_other_bytes(pick, text):
    changed = bytearray(text)
    for _ in range(pick.randrange(1, 4)):
        changed[pick.randrange(len(text))] = pick.choice([*b"\t\n09Aa-", pick.randrange(256)])
    return bytes(changed)


def made_up(count):
    """Texts of any bytes, and tables that are spoilt or changed a little."""
    pick = random.Random(20)
    known = list(tables().values())
    for n in range(count):
        if n % 5 == 0:
            yield pick.randbytes(pick.randrange(120)) + (b"\n" if n % 2 else b"")
            continue
        text = pick.choice(known)
        for _ in range(pick.choice((1, 1, 2, 4))):
            text = pick.choice((with_other_lines, with_other_lines, with_other_bytes))(pick, text or b"\n")
        yield text


def right_words(err, report):
    """That standard error fits what crpd-report printed."""
    if not report.startswith(b"E"):
        same("standard error", err, b"")
        return
    _, number, line = report.decode().split()
    err = without_remark(err)
    first, *more = err.decode().split("\n")
    place = "" if line == "0" else "line %s: " % line
    words = r"crpd: standard input: %s(?!line )[^\x00-\x1f\x7f]+ \(%s\)" % (place, number)
    must(re.fullmatch(words, first), "for %s %s is told %r", number, line, first)
    must(len(more) <= 3 and more[-1] == "", "standard error is %r", err)
    must(not re.search("[\x00-\x08\x0b-\x1f\x7f-\x9f]", err.decode()), "control characters come through: %r", err)
    narrow(err)
    if len(more) == 3:
        above_marks(err)


def made_up_singly():
    texts = list(made_up(100))
    for text, report in zip(texts, all_printed(texts)):
        ended = run("report", text=text)
        same("what is printed of %.200r, and the status" % text, (ended.out, ended.status), (report, status_of(report)))
        right_words(ended.err, report)


def made_up_by_the_pool():
    texts = list(made_up(500))
    reports = all_printed(texts)
    must({status_of(report) for report in reports} == {0, 1, 2}, "the texts are too much alike")
    must(len({report for report in reports if report.startswith(b"E")}) > 20, "the refusals are too few")
    folder = fresh_folder()
    for n, text in enumerate(texts):
        write(os.path.join(folder, "%03d.table" % n), text)
    same("the status", run("reports", "--jobs", "2", folder).status, 2)
    for n, (text, report) in enumerate(zip(texts, reports)):
        same("what is printed of %.200r" % text, contents(os.path.join(folder, "%03d.report" % n)), report)


def cases():
    rows = [(name, n, refusal) for name, part in refused_texts.refusals() for n, refusal in enumerate(part, 1)]
    return [("%s, %d: %s" % (name, n, refusal.words), functools.partial(told, refusal)) for name, n, refusal in rows] + [
        ("a refusal by each command", told_by_all),
        ("a refusal in a file by several names", told_as_given),
        ("one digit", one_digit),
        ("a thousand fields", thousand_fields),
        ("lines that end with CR and LF", ended_by_cr),
        ("long lines", long_lines),
        ("odd bytes", safe_for_terminals),
        ("100 made-up texts, one by one", made_up_singly),
        ("500 made-up texts by the pool", made_up_by_the_pool),
    ]
