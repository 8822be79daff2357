"""Texts that are refused: each with the refusal's number and line, the words that tell it, the line that is shown below them and the
marks below that."""
import collections
import re

Refusal = collections.namedtuple("Refusal", "text number line words shown marks")

TABLE = [
    "K\t8\t1",
    "T\ta\t1\t20\t20\t0\t0\t00\t0f",
    "T\tb\t2\t40\t40\t0\t0\t03\tff",
    "A\tb\ta\t2\t03",
]
COUNTED = [
    "K\t8\t1\t2",
    "T\ta\t1\t20\t20\t0\t0\t00000000\t0f",
    "T\tb\t2\t40\t40\t0\t0\t00000012\tff",
    "A\tb\ta\t2\t00000021",
]
SETS, RELOAD, WAYS = "the number of cache sets", "the block reload time", "the number of ways"
NAME, USEFUL, EVICTING = "the name", "the useful cache sets", "the evicting cache sets"
TASK_NUMBERS = ["the execution time", "the period", "the deadline", "the jitter", "the blocking"]
OF_TASK, OF_CEILING, LENGTH = "the name of the task", "the name of the ceiling", "the length"
MISNAMED = "%s is not 1 to 12 of the characters a-z, 0-9 and -"
MALFORMED = "%s is not a number: 0, or up to nine digits that do not start with 0"
MOST = "250,000,000"

# of each: line, field, what it is called, and the range where it is a number
NUMBERS = [(1, 1, SETS, "4", "256"), (1, 2, RELOAD, "0", "100,000")]
NUMBERS += [(2, 2 + n, words, "1" if n < 3 else "0", MOST) for n, words in enumerate(TASK_NUMBERS)]
NUMBERS += [(4, 3, LENGTH, "1", MOST)]
NAMES = [(2, 1, NAME), (4, 1, OF_TASK), (4, 2, OF_CEILING)]
CACHES = [(3, 7, USEFUL), (3, 8, EVICTING), (4, 4, USEFUL)]


def marks(fields, first, last=None):
    """Marks below the fields from the first to the last, or below the end of the line; the tabs are those of the line."""
    if first == len(fields):
        return re.sub("[^\t]", " ", "\t".join(fields)) + "^"
    before = "".join(field + "\t" for field in fields[:first])
    marked = "\t".join(fields[first : (first if last is None else last) + 1])
    return re.sub("[^\t]", " ", before) + (re.sub("[^\t]", "^", marked) or "^")


def text_of(lines):
    return "".join(line + "\n" for line in lines).encode()


def other_line(number, line, words, shown, first, last=None, table=TABLE):
    """The table with another line in the place of this one, which is refused there."""
    lines = [*table[: line - 1], shown, *table[line:]]
    return Refusal(text_of(lines), number, line, words, shown, marks(shown.split("\t"), first, last))


def other_field(number, line, field, words, value, table=TABLE):
    """The table with another value in one field, which is refused for it."""
    fields = table[line - 1].split("\t")
    fields[field] = value
    return other_line(number, line, words, "\t".join(fields), field, table=table)


def numbers():
    """Refusals 5 and 6."""
    for line, field, words, low, high in NUMBERS:
        for value in "", "01", "x", "1000000000", "-1":
            yield other_field(5, line, field, MALFORMED % words, value)
        outside = "%s is not in the range from %s to %s" % (words, low, high)
        above = {"256": "260", "100,000": "100001", MOST: "250000001"}[high]
        for value in ([] if low == "0" else ["0"]) + [above, "999999999"]:
            if value != "999999999" or field != 1:  # that is no multiple of 4 either
                yield other_field(6, line, field, outside, value)
    yield other_field(6, 1, 1, "the number of cache sets is no multiple of 4", "6")
    yield other_field(6, 1, 1, "the number of cache sets is no multiple of 4", "254")


def names_and_caches():
    """Refusals 4 and 7."""
    for line, field, words in NAMES:
        for value in "", "A", "a_b", "1234567890abc", "a b":
            yield other_field(4, line, field, MISNAMED % words, value)
    for line, field, words in CACHES:
        for value in "", "0", "000", "0F", "g0":
            yield other_field(7, line, field, "%s are not 2 digits of 0-9 and a-f" % words, value)


def shapes():
    """Refusal 3."""
    first, neither = "the first line does not start with the field K", "the line starts with neither T nor A"
    for shown in "X\t8\t1", "KK\t8\t1", "k\t8\t1", "", "\t8\t1", "T\ta\t1\t20\t20\t0\t0\t00\t0f", " K\t8\t1":
        yield other_line(3, 1, first, shown, 0)
    for shown in "X", "", "TT\ta", "t\ta", "K\t8\t1", "\tT\ta", "# a remark":
        yield other_line(3, 3, neither, shown, 0)
    for line, kind, least, count in (1, "K", 3, 4), (2, "T", 9, 9), (4, "A", 5, 5):
        wanted = "%d or %d" % (least, count) if least < count else str(count)
        words = "a line %s has %s fields, and this one %%d" % (kind, wanted)
        fields = (COUNTED if line == 1 else TABLE)[line - 1].split("\t")
        for few in 1, least - 1:
            yield other_line(3, line, words % few, "\t".join(fields[:few]), few)
        for surplus in ["x"], ["", "yz"], ["0", "11", "222"]:
            shown = "\t".join(fields + surplus)
            yield other_line(3, line, words % (count + len(surplus)), shown, count, count + len(surplus) - 1)
    yield other_line(3, 5, "a task line stands below an access line", "T\tc\t1\t20\t20\t0\t0\t00\t0f", 0)


def counted():
    """Refusals 5 to 7 and 18 where line 1 names the ways."""
    for value in "", "01", "x", "1000000000":
        yield other_field(5, 1, 3, MALFORMED % WAYS, value, COUNTED)
    for value in "0", "9", "999999999":
        yield other_field(6, 1, 3, "%s is not in the range from 1 to 8" % WAYS, value, COUNTED)
    for line, field in (3, 7), (4, 4):
        for value in "", "12", "000000123", "0000000a", "0000000-":
            yield other_field(7, line, field, USEFUL + " are not 8 digits of 0-9, one for each cache set", value, COUNTED)
        for value in "00000003", "90000000", "00011132":
            yield other_field(18, line, field, USEFUL + " have a count above the 2 ways of a cache set", value, COUNTED)
    yield other_field(7, 3, 8, EVICTING + " are not 2 digits of 0-9 and a-f", "fff", COUNTED)
    ways = ["K\t8\t1\t1", COUNTED[1]]
    yield other_line(18, 3, USEFUL + " have a count above the 1 way of a cache set", COUNTED[2], 7, table=[*ways, COUNTED[2]])
    yield other_line(18, 3, USEFUL + " have a count above the 2 ways of a cache set", "T\ta\t2\t40\t41\t0\t0\t00000013\tff", 7, table=COUNTED)
    yield other_line(18, 4, USEFUL + " have a count above the 2 ways of a cache set", "A\tc\tc\t1\t00000003", 4, table=COUNTED)


def whole_texts():
    """Refusals 1, 2 and 11."""
    longer = "the text is longer than 16,384 bytes"
    yield Refusal(b"x" * 16384 + b"\n", 1, 0, longer, None, None)
    yield Refusal(b"K\t8\t1\n" * 4000, 1, 0, longer, None, None)
    yield Refusal(b"", 2, 0, "the text is empty", None, None)
    unended = "the last line has no line end"
    yield Refusal(text_of(TABLE)[:-1], 2, 0, unended, TABLE[3], marks(TABLE[3].split("\t"), 5))
    yield Refusal(b"K", 2, 0, unended, "K", " ^")
    yield Refusal(b"K\t8\t1\nT\t", 2, 0, unended, "T\t", " \t^")
    yield Refusal(b"K\t8\t1\n", 11, 1, "there is no task line", "K\t8\t1", None)


def between_fields():
    """Refusals 8, 9, 15 and 17."""
    deadline, jitter = "the deadline is longer than the period", "the jitter is longer than the deadline"
    yield other_field(8, 3, 4, deadline, "41")
    yield other_field(8, 3, 5, jitter, "41")
    yield other_line(8, 3, deadline, "T\tb\t2\t40\t41\t42\t0\t03\tff", 4)
    for line, words in (2, "the name stands on line 2 already"), (3, "the name stands on line 3 already"):
        name = TABLE[line - 1].split("\t")[1]
        table = [*TABLE[:3], "T\tc\t2\t40\t40\t0\t0\t03\tff"]
        yield other_field(9, 4, 1, words, name, table)
    yield other_field(15, 4, 1, "no task has the name of the task", "c")
    yield other_field(15, 4, 2, "no task has the name of the ceiling", "c")
    yield other_line(15, 4, "no task has the name of the task", "A\tc\td\t2\t03", 1)
    yield other_line(15, 4, "the ceiling is below the task", "A\ta\tb\t2\t03", 2)
    blocking = "the blocking is above 0: what blocks a task stands on access lines"
    yield other_field(17, 2, 6, blocking, "3")
    yield other_field(17, 3, 6, blocking, "250000000")
    both = [*TABLE[:2], "T\tb\t2\t40\t40\t0\t4\t03\tff", TABLE[3]]
    yield other_field(17, 2, 6, blocking, "1", both)
    yield other_field(17, 3, 6, blocking, "1", TABLE[:3])


def too_many():
    """Refusals 10 and 16, which come before all others of their line."""
    tasks = ["T\tt%d\t1\t20\t20\t0\t0\t00\t0f" % n for n in range(33)]
    accesses = ["A\tb\ta\t2\t03"] * 33
    for last in tasks[32], "T", "T\tT\tT":
        yield other_line(10, 34, "there are more than 32 task lines", last, 0, table=TABLE[:1] + tasks)
    for last in accesses[32], "A", "A\tX\tX\tX\tX\tX":
        yield other_line(16, 36, "there are more than 32 access lines", last, 0, table=TABLE[:3] + accesses)


def order():
    """The number that comes first is told, and of several fields with it the first."""
    yield other_line(4, 3, MISNAMED % NAME, "T\tB\tx\t999999999\t41\t42\t0\tx\tx", 1)
    yield other_line(5, 3, MALFORMED % "the blocking", "T\ta\t0\t40\t41\t42\tx\tx\tx", 6)
    yield other_line(6, 3, "the execution time is not in the range from 1 to " + MOST, "T\ta\t0\t0\t41\t42\t0\tx\tx", 2)
    yield other_line(7, 3, EVICTING + " are not 2 digits of 0-9 and a-f", "T\ta\t2\t40\t41\t42\t0\t03\tx", 8)
    yield other_line(5, 1, MALFORMED % SETS, "K\tx\tx", 1)
    yield other_line(6, 1, "the number of cache sets is no multiple of 4", "K\t6\t100001", 1)
    yield other_line(4, 4, MISNAMED % OF_TASK, "A\tB\tA\tx\tx", 1)
    yield other_line(4, 4, MISNAMED % OF_CEILING, "A\tc\tA\t0\tx", 2)
    yield other_line(7, 4, USEFUL + " are not 2 digits of 0-9 and a-f", "A\tc\tc\t1\tx", 4)
    yield other_line(7, 3, USEFUL + " are not 2 digits of 0-9 and a-f", "T\tb\t2\t40\t40\t0\t0\tx\tx", 7)
    yield other_line(8, 3, "the deadline is longer than the period", "T\ta\t2\t40\t41\t0\t0\t03\tff", 4)


def odd_bytes():
    """Bytes that must not come through as they are."""
    rest = "\t1\t20\t20\t0\t0\t00\t0f"
    for odd, shown in (
        (b"a\x1b[31mb", "a\\x1b[31mb"),
        (b"\x1b]0;title\x07", "\\x1b]0;title\\x07"),
        (b"\0", "\\x00"),
        (b"a\x7f", "a\\x7f"),
        (b"a\xff\xfe", "a\\xff\\xfe"),
        (b"\xc3", "\\xc3"),
        (b"\x08\x08a", "\\x08\\x08a"),
        ("é".encode(), "\\xc3\\xa9"),
    ):
        text = b"K\t8\t1\nT\t" + odd + rest.encode() + b"\n"
        yield Refusal(text, 4, 2, MISNAMED % NAME, "T\t" + shown + rest, " \t" + "^" * len(shown))
    yield Refusal(b"K\t8\t1\r\n", 5, 1, MALFORMED % RELOAD, "K\t8\t1\\x0d", " \t \t^^^^^")
    before = "T\t\\xc3\\xa9\\x1b\\xff\t1\t20\t20\t0\t0\t00\t0f\tx"
    text = b"K\t8\t1\nT\t" + "é".encode() + b"\x1b\xff\t1\t20\t20\t0\t0\t00\t0f\tx\n"
    yield Refusal(text, 3, 2, "a line T has 9 fields, and this one 10", before, re.sub("[^\t]", " ", before[:-1]) + "^")
    yield Refusal(b"K\t8\t1\nT\0\n", 3, 2, "the line starts with neither T nor A", "T\\x00", "^^^^^")


def refusals():
    parts = (whole_texts, shapes, numbers, names_and_caches, counted, between_fields, too_many, order, odd_bytes)
    return [(part.__doc__.splitlines()[0].rstrip("."), list(part())) for part in parts]
