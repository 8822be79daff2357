"""cases.py: cases to look for witnesses among, by crate: some of each kind that the public functions tell apart, and some that are drawn, always the same."""
import math
import random

FULL = [2**64 - 1] * 4
SETS = [[0] * 4, [1, 0, 0, 0], [0, 2, 0, 0], [0, 0, 4, 0], [0, 0, 0, 8], [1, 2, 4, 8], [3, 5, 9, 17], [7, 7, 7, 7], FULL]
METHODS = range(6)
TIMES = (0, 1, *range(3, 24), 30, 41, 60, 250000000)


def text(bytes_or_str):
    """A text as a word of a case; long runs of one byte are written short."""
    found, last = [], bytes_or_str.encode("latin-1") if isinstance(bytes_or_str, str) else bytes_or_str
    said = "".join({10: "\\n", 9: "\\t", 34: '\\"', 92: "\\\\"}.get(b, chr(b) if 32 <= b < 127 else "\\x%02x" % b) for b in last)
    found.append('"%s"' % said)
    return "".join(found)


def words(numbers):
    return ",".join(map(str, numbers)) or "-"


def name(k):
    return "abcdefghijklmnopqrstuvwxyz"[k % 26] + ("" if k < 26 else str(k // 26))


def digits(mask, sets):
    return "%0*x" % (sets // 4, mask)


def head(sets, brt):
    return "K\t%d\t%d\n" % (sets, brt)


def task(k, work, period, deadline, jitter, blocking, ucb, ecb, sets, called=None):
    return "T\t%s\t%d\t%d\t%d\t%d\t%d\t%s\t%s\n" % (called or name(k), work, period, deadline, jitter, blocking, digits(ucb, sets), digits(ecb, sets))


def access(k, c, lasts, ucb, sets):
    return "A\t%s\t%s\t%d\t%s\n" % (name(k), name(c), lasts, digits(ucb, sets))


def table(draw, n=None, light=True):
    """A text that is accepted, of n tasks; with accesses, or without."""
    sets = draw.choice([4, 4, 8, 8, 64, 128, 256])
    n = n or draw.randint(1, 6)
    has_accesses = draw.choice([False, True])
    lines = [head(sets, draw.choice([0, 1, 1, 2, 3]))]
    for k in range(n):
        period = draw.randint(8, 40) * (k + 1) * (2 if light else 1)
        deadline = draw.choice([period, draw.randint(max(1, period // 2), period)])
        work = draw.randint(1, max(1, period // (n + draw.randint(0, 3))))
        jitter = draw.choice([0, 0, draw.randint(0, deadline // 3)])
        lines.append(task(k, work, period, deadline, jitter, 0, mask(draw, sets), mask(draw, sets), sets))
    if has_accesses:
        for _ in range(draw.randint(1, 4)):
            k = draw.randrange(n)
            lines.append(access(k, draw.randint(0, k), draw.randint(1, 9), mask(draw, sets), sets))
    return "".join(lines), n


def mask(draw, sets):
    return draw.getrandbits(sets) & (draw.getrandbits(sets) | draw.getrandbits(sets))


def tables(seed, count, light=True):
    draw = random.Random(seed)
    return [table(draw, light=draw.random() < 0.6) for _ in range(count)]


def many_tasks(n, last=""):
    return head(4, 1) + "".join("T\t%s\t1\t%d\t%d\t0\t0\t3\tf\n" % (name(k), 100 + k, 100 + k) for k in range(n)) + last


def several_accesses():
    """Tables in which several accesses may block a task, and the longest is not the worst under every method, or a shorter one before it as bad."""
    lines = head(8, 2) + "T\ta\t1\t30\t30\t0\t0\t0f\tff\nT\tb\t2\t60\t60\t0\t0\tf3\t3f\nT\tc\t2\t90\t90\t0\t0\tff\tf0\n"
    pairs = [("c\tb\t5\t00", "c\tb\t4\tff"), ("c\tb\t4\tff", "c\tb\t5\t00"), ("c\tb\t5\t00", "c\ta\t3\tff"), ("c\tb\t5\t0f", "c\tb\t5\tf0"), ("b\ta\t2\tff", "c\tb\t2\tff")]
    found = [lines + "A\t%s\nA\t%s\n" % pair for pair in pairs] + [lines + "A\tc\tb\t1\tff\nA\tc\tb\t3\t00\nA\tc\tb\t2\tcf\nA\tb\ta\t9\t01\n"]
    found.append(head(8, 1) + "T\ta\t1\t30\t30\t0\t0\t00\tff\nT\tb\t2\t60\t60\t0\t0\t00\t3f\nT\tc\t2\t90\t90\t0\t0\t00\tf0\nA\tc\tb\t4\t01\nA\tc\tb\t5\t00\n")
    return [(it, 3) for it in found]


def counted_tables():
    """Tables of 2 and 3 ways, where counts of two tasks are more than the ways, and where they are not."""
    found = []
    for ways in (2, 3):
        for a, b, c, d in (("0012", "2100", "0022", "0201"), ("2222", "2222", "1111", "1212"), ("0001", "0010", "0100", "0011"), ("1111", "0202", "2020", "0000")):
            lines = "K\t4\t1\t%d\nT\ta\t1\t60\t60\t0\t0\t%s\tf\nT\tb\t2\t120\t120\t0\t0\t%s\t7\nT\tc\t2\t180\t180\t0\t0\t%s\tc\n" % (ways, a, b, c)
            found += [(lines, 3), (lines + "A\tc\ta\t5\t%s\n" % d, 3), (lines + "A\tb\tb\t5\t%s\nA\tc\tb\t4\t%s\n" % (d, a), 3)]
    return found


def many_accesses(n, last=""):
    return head(4, 1) + task(0, 1, 20, 20, 0, 0, 3, 15, 4) + task(1, 1, 30, 30, 0, 0, 3, 15, 4) + "A\tb\ta\t1\t3\n" * n + last


def lines():
    """Lines of a table below line 1 that tell fields, ranges and their order apart; the table has 4 cache sets."""
    good = ["T", "a", "1", "20", "20", "0", "0", "0", "f"]
    found = ["\t".join(good)]
    swaps = {0: ["U", "t", "TT", ""], 1: ["", "A", "a-1", "b", "abcdefgh-012", "abcdefgh-0123", "a\0", "_", "/", ":", "`", "{", "a b", "a\xc8"], 7: ["g", "", "0f", "F", "1", "/", ":", "`"], 8: ["g", "", "00", "1", "F", "a", "e"]}
    for k in range(2, 7):
        swaps[k] = ["", "x", "01", "00", "0", "1", "2", "19", "21", "250000000", "250000001", "999999999", "1000000000", "+1", "-", "2o", "/", ":", "9", "10"]
    for k, values in swaps.items():
        for value in values:
            found.append("\t".join([*good[:k], value, *good[k + 1 :]]))
            for j in range(k + 1, 9):
                for other in swaps[j][:3]:
                    found.append("\t".join([*good[:k], value, *good[k + 1 : j], other, *good[j + 1 :]]))
    for k in range(10):
        found += ["\t".join(good[:k]), "\t".join(good[:k]) + "\t", "\t".join([*good[:k], "0", *good[k:]])]
    found += ["\t".join([*good, "0"]), "\t".join([*good, ""]), "\t".join([*good, "0", "0"]), "\t".join(good) + "\r", "", "T\ta\t1\t9\t9\t8\t7\t3\tc", "T\ta\t1\t40\t10\t20\t0\t3\tc", "T\ta\t1\t40\t10\t40\t0\t3\tc", "T\ta\t1\t40\t30\t20\t10\t3\tc"]
    return sorted(set(found))


def access_lines():
    good = ["A", "c", "a", "5", "3"]
    swaps = {0: ["a", "T", "AA", ""], 1: ["C", "d", "b", "a", ""], 2: ["A", "d", "b", "c", ""], 3: ["x", "0", "1", "05", "250000000", "250000001", "1000000000", "9", ""], 4: ["g", "", "0", "33", "f", "F"]}
    found = ["\t".join(good)]
    for k, values in swaps.items():
        for value in values:
            found.append("\t".join([*good[:k], value, *good[k + 1 :]]))
            for j in range(k + 1, 5):
                for other in swaps[j]:
                    found.append("\t".join([*good[:k], value, *good[k + 1 : j], other, *good[j + 1 :]]))
    for k in range(6):
        found += ["\t".join(good[:k]), "\t".join([*good[:k], "0", *good[k:]])]
    found += ["\t".join([*good, ""]), "\t".join([*good, "0", "0", "0", "0"]), "A\tb\tc\t5\t3", "A\ta\tb\t5\t3", "A\tb\tb\t5\t3", "\t".join(good) + "\r"]
    return sorted(set(found))


THREE = head(4, 1) + "T\ta\t1\t20\t20\t0\t0\t0\tf\nT\tb\t2\t40\t40\t0\t0\t3\tf\nT\tc\t2\t60\t60\t0\t0\tc\tf\n"


def heads():
    found = []
    for sets in ["4", "0", "2", "6", "3", "8", "256", "260", "258", "252", "64", "04", "", "x", "1000000000", "999999999"]:
        for brt in ["1", "0", "100000", "100001", "x", "", "00", "1000000000"]:
            found.append("K\t%s\t%s" % (sets, brt))
    return found + ["K", "k\t4\t1", "KK\t4\t1", "K\t4", "K\t4\t1\t", "K\t4\t1\t1", "K\t4\t1\t2", "K\t4\t1\t8", "K\t4\t1\t9", "K\t4\t1\t0", "K\t4\t1\tx", "K\t4\t1\t1\t1", "T\t4\t1", "", "\t4\t1", "K 4 1", "K\t4\t1\r"]


def texts():
    """Texts, accepted and refused."""
    found = [THREE, "", "\n", "a", "K\t4\t1", "K\t4\t1\n", THREE[:-1], THREE + "\n", THREE.replace("\n", "\r\n"), THREE.replace("\n", "\r")]
    found += [line + "\n" for line in heads()] + [line + "\nU\n" for line in heads()[::9]]
    found += [head(4, 1) + line + "\n" for line in lines()] + [THREE + line + "\n" for line in access_lines()]
    found += [THREE + "T\ta\t1\t20\t20\t0\t0\t0\tf\n", THREE + "T\tb\t1\t20\t21\t0\t0\t0\tf\n", THREE + "T\td\t1\t20\t20\t0\t0\t0\tf\n", THREE + "U\n", THREE + "K\t4\t1\n", THREE + "A\tc\ta\t5\t3\nT\td\t1\t20\t20\t0\t0\t0\tf\n"]
    found += [THREE + "A\tc\ta\t5\t3\nT\tA\n", THREE + "A\tc\ta\t5\t3\nU\n", THREE + "A\tc\ta\t5\t3\nA\tc\tb\t5\t3\nA\ta\ta\t5\t3\n"]
    plain = "T\ta\t1\t20\t20\t0\t%d\t0\tf\nT\tb\t1\t20\t20\t0\t%d\t0\tf\nT\tc\t1\t20\t20\t0\t%d\t0\tf\n"
    for blocking in [(1, 0, 0), (0, 1, 0), (0, 0, 1), (0, 1, 2), (1, 2, 3)]:
        found += [head(4, 1) + plain % blocking, head(4, 1) + plain % blocking + "A\tc\ta\t5\t3\n", head(4, 1) + plain % blocking + "A\ta\td\t5\t3\n"]
    found += [head(4, 1) + "A\tc\ta\t5\t3\n", head(4, 1) + "A\tc\ta\t5\t3\nT\ta\t1\t20\t20\t0\t0\t0\tf\n"]
    for n in (31, 32, 33, 34):
        found += [many_tasks(n), many_tasks(n, "T\tA\n"), many_tasks(n, "U\n"), many_tasks(n, "UU\n"), many_tasks(n, "TT\n"), many_tasks(n, "\n"), many_tasks(n, "A\tb\ta\t1\t3\n"), many_tasks(n, "A\tb\ta\t1\t3\nT\tzz\t1\t20\t20\t0\t0\t0\tf\n"), many_tasks(n, "T\ta\t1\t20\t20\t0\t0\t0\tf\n")]
        found += [many_accesses(n), many_accesses(n, "A\n"), many_accesses(n, "U\n"), many_accesses(n, "UU\n"), many_accesses(n, "AA\n"), many_accesses(n, "\n"), many_accesses(n, "T\tc\t1\t20\t20\t0\t0\t0\tf\n")]
    found += [head(256, 1) + "T\ta\t1\t20\t20\t0\t0\t%s\t%s\n" % ("0123456789abcdef" * 4, "f" * 64), head(64, 1) + "T\ta\t1\t20\t20\t0\t0\t%s\t%s\n" % ("0123456789abcdef", "f" * 16)]
    found += [head(256, 100000) + "T\tabcdefgh-012\t250000000\t250000000\t250000000\t250000000\t250000000\t%s\t%s\n" % ("0123456789abcdef" * 4, "f" * 64)]
    return found


def long_texts():
    """Texts at the edge of what a text may have, as words."""
    found = []
    for n in (16383, 16384, 16385, 16386):
        found += ['"a"*%d' % n, '"a"*%d+"\\n"' % (n - 1), '"\\n"*%d' % n]
    for n in (16384 - len(THREE), 16385 - len(THREE)):
        found += [text(THREE) + '+"U"*%d+"\\n"' % (n - 1)]
    return found


def buffers(longest):
    return [0, 1, longest - 1, longest, longest + 1, longest + 9]


def of_cache():
    found, draw = [], random.Random(1)
    sets = SETS + [[draw.getrandbits(64) for _ in range(4)] for _ in range(4)]
    for a in sets:
        found += ["size %s" % words(a), "from_words %s,%s 0" % (words(a), words(sets[5])), "from_words %s,%s 1" % (words(sets[5]), words(a)), "put_words %s 0,0,0,0,0,0,0,0 1" % words(a), "put_words %s 9,9,9,9 0" % words(a), "is_empty %s" % words(a), "has %s 3" % words(a)]
        for b in sets:
            found += ["union %s %s" % (words(a), words(b)), "intersection %s %s" % (words(a), words(b)), "is_in %s %s" % (words(a), words(b))]
    for field in ["", "0", "f", "9", "a", "F", "A", "G", "g", "/", ":", "@", "`", "10", "0f", "f0", "1g", "g1", "123456789abcdef0", "0123456789abcdef" * 2, "0123456789abcdef" * 4, "1" + "0" * 16, "1" + "0" * 32, "1" + "0" * 48, "8" + "0" * 63, "fedcba9876543210" * 3, "g" + "0" * 63, "0" * 63 + "g", "1" * 63, "2" * 62, "3" * 47, "4" * 33, "5" * 17]:
        if len(field) <= 64:
            found.append("read_words %s" % text(field))
        for sets in {0, 4, 8, 64, 256, 260, 4 * len(field), 2 * len(field), 4 * len(field) + 1, 8 * len(field)}:
            found.append("from_field %s %d" % (text(field), sets))
    found += ['from_field "%s" 260' % ("0" * 65), 'from_field "%s" 512' % ("0" * 128)]
    for field in ["0012", "2100", "8765", "0000", "1111", "00000000000000000000000000000000000000000000000000000000000000000123"]:
        for ways in (1, 2, 3, 8):
            digits_ = text(field)
            found += ["%s %s %d" % (what, digits_, ways) for what in ("useful_size", "marks", "is_within")] + ["is_within %s 0" % digits_]
            found += ["%s %s %d %s" % (what, digits_, ways, words(a)) for what in ("size_in", "shared_size") for a in SETS]
            found += ["count %s %d %d" % (digits_, ways, s) for s in (0, 1, 3, 64, 255)] + ["level %s %d %d" % (digits_, ways, n) for n in (0, 1, 7)]
            found += ["join %s %d %s %d" % (digits_, ways, text(other), ways) for other in ("0012", "1111", "0203")]
            found += ["joined_size_in %s %d %s %d %s" % (digits_, ways, text(other), ways, words(a)) for other in ("0012", "1111", "0203") for a in (SETS[1], SETS[5], FULL)]
    for field in ["0012", "001", "00120", "00a2", "00/2", "00:2", "0013", "0009", "f", "3", ""]:
        for sets in (4, 8):
            found += ["useful_from_field %s %d %d" % (text(field), sets, ways) for ways in (0, 1, 2, 8)]
    found += ["useful_from_words %s" % words(range(1, 33)), "ways 0", "ways 1", "ways 8", "of_words 4 3 2 1"] + ["marked %s" % words(a) for a in SETS]
    for n in (0, 1, 2, 255, 2048):
        found += ["time %d %d" % (n, brt) for brt in (0, 1, 2, 7, 100000)]
    return found


# names of every kind, and what is none
NAMES = ["", "a", "z", "A", "Z", "0", "9", "-", "_", "`", "{", "/", ":", ".", ",", "a-1", "abcdefghijkl", "abcdefghijklm", "abcdefghijk", "aB", "a\0", "\0", "a b", "a\xc8", "aA", "Aa"]


def of_texts():
    found = []
    for line in ["", "\n", "a", "a\n", "a\nb", "a\nb\n", "\n\n", "a\n\nb", "a\r\nb\r\n", "\na", "a\tb\n", "ab\ncd\nef", "a\rb"]:
        found += ["next_line %s" % text(line), "lines %s" % text(line)]
    for line in ["", "\t", "a", "a\t", "\ta", "a\tb", "ab\tcd\tef", "a\t\tb", "abc\td", "abcd\te", "abcde\tf", "abcdefg\th", "abcdefgh\ti", "abcdefgh", "abcdefghi\tj\tk", "\t\t\t\t", "a\t\t\t\tb", "aaaaaaaaaaaaaaaaaaaaaaa\tb", "a b", "T\ta\t1\t20\t20\t0\t0\t0\tf"]:
        found += ["first_field %s" % text(line), "fields %s" % text(line)] + ["is_done %s %d" % (text(line), k) for k in range(5)]
    for field in ["", "0", "1", "9", "00", "01", "10", "12", "99", "123456789", "999999999", "1000000000", "0123456789", "12345678", "x", "1x", "x1", "+1", "-1", " 1", "/", ":", "1:", "1/", "250000000", "a", "9/"]:
        found.append("read_number %s" % text(field))
    found += ["is_name %s" % text(it) for it in NAMES]
    for low, high in [(1, 5), (0, 5), (5, 5), (5, 1), (0, 250000000), (1, 250000000)]:
        found += ["is_within %d %d %d" % (low, high, n) for n in {0, 1, low, high, low + 1, high - 1 if high else 0, high + 1, (low + high) // 2, 250000000, 250000001}]
    for a in ["", "a", "b", "ab", "ac", "bb", "abc", "abd", "aa", "ba", "abcdefghijkl", "abcdefghijkm"]:
        found += ["same_bytes %s %s" % (text(a), text(b)) for b in ["", "a", "b", "ab", "abc", "bb", "aa", "abcdefghijkl", "bbc"]]
    found += ["%s %d" % (it, k) for it in ("number", "alone", "untold") for k in range(18)]
    found += ["at %d %d" % (k, field) for k in (0, 4, 17) for field in (0, 1, 9)] + ["on %d %d %d" % (k, field, line) for k in (0, 4, 17) for field in (0, 9) for line in (0, 3, 16385)]
    return found


def of_table():
    found = ["empty"]
    found += ["read %s" % text(it) for it in texts()] + ["read %s" % it for it in long_texts()]
    found += ["read %s" % text(it) for it, _ in tables(2, 60)]
    for n in (0, 1, 2, 5, 31, 32):
        if n:
            found += ["tasks %s -" % text(many_tasks(n)), "accesses %s -" % text(many_accesses(n))] + ["task %s - %d" % (text(many_tasks(n)), k) for k in {0, n // 2, n - 1}]
    found += ["accesses %s -" % text(THREE), "tasks %s count=0" % text(THREE), "accesses %s access_count=2" % text(THREE), "tasks %s count=2" % text(THREE), "tasks %s count=33" % text(THREE), "tasks %s count=40" % text(THREE), "accesses %s access_count=40" % text(THREE), "accesses %s access_count=31" % text(THREE), "tasks %s count=31" % text(THREE)]
    for field in NAMES:
        if len(field) <= 12:
            found += ["%s %s" % (it, text(field)) for it in ("name_of", "name_text", "is_filled")] + ["%s %s %s -" % (it, text(field), text(THREE)) for it in ("position_of", "is_known")]
    for field in ["a\0b", "\0a", "a\0\0b", "abcdefghijk\0", "a\0\0\0\0\0\0\0\0\0\0b", "a", "b", "c", "d", "ab", "ca", "abcdefghijkl"]:
        found += ["name_text %s" % text(field), "is_filled %s" % text(field), "name_len %s" % text(field)]
        for n in (1, 2, 3, 32):
            found += ["position_of %s %s -" % (text(field), text(many_tasks(n))), "is_known %s %s -" % (text(field), text(many_tasks(n)))]
    found += ["position_of %s %s t2.name=97" % (text("a"), text(THREE)), "position_of %s %s t1.name=99" % (text("c"), text(THREE)), "is_known %s %s count=2" % (text("c"), text(THREE)), "position_of %s %s count=0" % (text("a"), text(THREE))]
    found += ["ways %s form=%d" % (text(THREE), ways) for ways in (0, 1, 2, 8)]
    found += ["may_block %d %d %d" % (t, c, i) for t in range(4) for c in range(4) for i in range(4)]
    found += ["head %s" % text(it) for it in heads()] + ["head_in_range %d %d 0" % (sets, brt) for sets in (0, 1, 2, 3, 4, 5, 6, 8, 252, 254, 255, 256, 257, 260, 512) for brt in (0, 1, 99999, 100000, 100001)]
    found += ["head_in_range 4 1 %d" % ways for ways in (1, 2, 7, 8, 9, 10)]
    found += ["task_line %s 0 4 %s -" % (text(it), text(head(4, 1) + "T\tzz\t1\t20\t20\t0\t0\t0\tf\n")) for it in lines()] + ["task_line %s 0 4 %s -" % (text(it), text(THREE)) for it in lines()[::7]]
    found += ["access_line %s 0 4 %s -" % (text(it), text(THREE)) for it in access_lines()]
    for ucb in ("0012", "0013", "00", "00a0", "f", "9000"):
        for times in ("1\t20\t20\t0\t0", "1\t20\t21\t0\t0", "1\t20\t20\t21\t0"):
            found.append("task_line %s 2 4 %s -" % (text("T\tz\t%s\t%s\tf" % (times, ucb)), text(THREE)))
        found += ["access_line %s 2 4 %s -" % (text("A\t%s\t5\t%s" % (names, ucb)), text(THREE)) for names in ("c\ta", "c\td", "a\tc", "d\ta")]
    for field, values in {"work": (0, 1, 250000000, 250000001), "period": (0, 19, 20, 21, 250000000, 250000001), "deadline": (0, 1, 19, 20, 21, 250000000, 250000001), "jitter": (0, 1, 19, 20, 21, 250000001)}.items():
        found += ["is_timely %s t0.%s=%d 0" % (text(THREE), field, n) for n in values]
    found += ["is_timely %s t0.period=250000001;t0.deadline=250000001;t0.jitter=%d 0" % (text(THREE), n) for n in (0, 250000001)]
    return found


def draw_terms(draw, n, tight=False):
    found = []
    for _ in range(n):
        period = draw.choice([draw.randint(2, 30), draw.randint(2, 300), draw.randint(100, 20000)])
        weight = draw.randint(1, max(1, period // (n + 1))) if not tight else max(1, period // n - draw.randint(0, 1))
        found.append((period, draw.choice([0, draw.randint(0, period)]), weight))
    return found


def written_terms(terms):
    return ",".join("%d/%d/%d" % it for it in terms) or "-"


def of_search():
    found, draw = [], random.Random(3)
    single = [(1, 0, 1), (2, 0, 1), (2, 1, 1), (3, 3, 2), (5, 2, 3), (10, 0, 10), (7, 0, 20), (20000, 5, 3), (250000000, 250000000, 500000000), (3, 0, 0), (16384, 0, 16383), (16385, 7, 1)]
    for it in single:
        found += ["work %d/%d/%d %d" % (*it, r) for r in (0, 1, 2, 3, 5, 6, 7, 100, 250000000)] + ["share %d/%d/%d" % it, "once %d/%d/%d" % it]
    lists = [[], *([it] for it in single), *(draw_terms(draw, draw.randint(1, 5)) for _ in range(60)), *(draw_terms(draw, draw.randint(2, 6), True) for _ in range(40)), [(10, 0, 5), (10, 0, 5)], [(2, 0, 1), (4, 0, 2)], [(3, 0, 1)] * 3, [(3, 0, 1)] * 2, draw_terms(draw, 32)]
    for it in lists:
        said = written_terms(it)
        found += ["left_by %s" % said, "listed %s" % said, "firsts %s" % said]
        for own in (1, 2, 7, 100, 5000):
            found += ["demand_at %d %s %d" % (own, said, r) for r in (0, 1, 6, 50)]
            limits = sorted({1, own, 3 * own + 5, 20 * own, 5000, 100000})
            found += ["least %d %s %d" % (own, said, limit) for limit in limits] + ["least %d %s %s" % (own, said, words(limits))]
            found += ["least_beyond %d %s %d %d" % (own, said, limit, known) for limit in limits[::2] for known in (0, 1, own + 3, 400, 6000)]
            found += ["hasten %d %s %d" % (own, said, limit) for limit in limits if own <= limit]
    # searches that go on for long: little is left of the processor
    for _ in range(12000):
        base = draw.choice([(10, 20, 40, 80), (12, 18, 24, 36, 72), (100, 150, 300, 450), (7, 11, 13, 17, 19), (50, 75, 16385, 20000), (3, 4, 5, 6, 7, 8, 9), (100, 101, 103), (16384, 8192, 4096), (30, 42, 70, 105), (1000, 1001, 1003)])
        terms, left = [], 1.0
        for _ in range(draw.randint(1, 5)):
            period = draw.choice(base)
            weight = max(1, int(period * left * draw.choice([0.3, 0.5, 0.8, 0.95, 1.0])))
            if left < weight / period:
                break
            left -= weight / period
            terms.append((period, draw.choice([0, 0, 0, draw.randint(0, period)]), weight))
        if terms and 0 < left <= 0.02:
            own, limit = draw.choice([1, 50, 999, 5000]), draw.choice([200000, 20000000, 250000000])
            found += ["hasten %d %s %d" % (own, written_terms(terms), limit), "least %d %s %d" % (own, written_terms(terms), limit)]
    answers = ["-", "0", "1", "5", "7", "250000000"]
    found += ["%s %s %s" % (it, a, b) for it in ("sooner", "later") for a in answers for b in answers]
    for step in (16, 64):
        found += ["window_at %d %d %d %d" % (round, ticks, step, at) for round in (0, 1, 7) for ticks in (1, 100, 16384) for at in (0, 1, 8, 99, 100, 513, 16383, 16384, 20000)]
    return found


def of_analysis():
    found, draw = ["from_number %d" % n for n in (*range(8), 12, 255, 256, 2**32, 2**32 + 1, 2**64 - 1)], random.Random(4)
    found += ["hit_none %d" % n for n in (0, 1, 5)]
    hits = [(0, 0), (0, 3), (1, 0), (1, 2), (2, 1), (5, 5)]
    found += ["larger %d %d %d %d" % (*a, *b) for a in hits for b in hits] + ["victim_with %d %d %d %d" % (*a, *b) for a in hits for b in hits]
    found += ["no_victim_with %d %d %d" % (n, *a) for a in hits for n in (0, 1, 9)] + ["count_of_victim %d %d" % a for a in hits] + ["count_of_no_victim %d" % n for n in (0, 1, 9)]
    for it, n in tables(5, 80) + [(THREE, 3), (THREE + "A\tc\ta\t5\t3\n", 3), (THREE + "A\tc\tb\t5\tf\nA\tb\ta\t2\t3\n", 3), (many_tasks(32), 32), (head(4, 0) + "T\ta\t250000000\t250000000\t250000000\t0\t0\t0\tf\n", 1), *several_accesses(), *counted_tables()]:
        said, accesses = text(it), it.count("\nA")
        rows = range(n) if n < 32 else (0, 1, 31)
        found.append("responses %s" % said)
        for i in rows:
            found += ["respond %s %d %d" % (said, m, i) for m in METHODS] + ["explained %s %d %d" % (said, m, i) for m in METHODS]
            found += ["evictors %s %d" % (said, i), "weigh_row %s %d" % (said, i), "longest %s %d" % (said, i), "blocking %s %d" % (said, i), "blockers %s %d" % (said, i), "cleared %s %d" % (said, i), "term %s %d %d" % (said, i, draw.choice([0, 1, 3, 256]))]
            found += ["charged %s %d %d" % (said, m, i) for m in (0, 1, 2, 4)]
            found += ["are_several %s %d" % (said, i)] + ["is_covered %s %d %d %d" % (said, m, i, time) for m in range(5) for time in TIMES[::4]]
            may = [k for k, line in enumerate([x for x in it.split("\n") if x.startswith("A")]) if blocks(it, line, i)]
            for k in [*may, accesses]:
                found += ["%s %s %d %d %d" % (call, said, m, i, k) for m in range(5) for call in ("join", "terms")] + ["weigh_access %s %d %d" % (said, i, k)]
                found += ["later_under %s %d %d %d %d %s" % (said, m, i, limit, k, so_far) for m in range(5) for limit, so_far in ((10, "0"), (100, "0"), (100, "9"), (10000, "0"), (10000, "30"), (10000, "-"))]
    return found


def blocks(table_text, line, i):
    names = [x.split("\t")[1] for x in table_text.split("\n") if x.startswith("T")]
    _, own, ceiling, *_ = line.split("\t")
    return names.index(ceiling) <= i < names.index(own)


def of_writing():
    found = ["draft"]
    for n in (0, 1, 9, 10, 11, 19, 99, 100, 101, 255, 256, 999999999, 1000000000, 123456789012345678, 2**64 - 1):
        found += ["draft write %d" % n, "draft field %d" % n, "draft write 7 write %d" % n, "draft fields 7,%d" % n]
        found += ["draft hex %d %d" % (n, d) for d in (0, 1, 2, 4, 15, 16)]
    found += ["draft push 65", "draft push 65 push 66", "draft push 0", "draft push 255"]
    for it in ("", "a", "ab", "abc"):
        found += ["draft bytes %s" % text(it), "draft push 65 bytes %s" % text(it), "draft write_bytes %s" % text(it), "draft field_bytes %s" % text(it), "draft push 65 write_bytes %s push 66" % text(it), "draft bytes \"xy\" bytes %s" % text(it)]
    found += ["draft %s %d" % (it, b) for it in ("write_bool", "field_bool") for b in (0, 1)] + ["draft fields_bool %s" % it for it in ("-", "0", "1", "1,0", "0,1,1")]
    found += ["draft fields %s" % it for it in ("-", "0", "1,2", "1,2,3", "10,20,30", "5,4,3,2,1")]
    for it in ("", "a", "ab", "abc\n"):
        found += ["%s %s %d" % (call, text(it), size) for size in (0, 1, 2, 3, 4, 5, 9) for call in ("put", "deliver") if call == "deliver" or len(it) <= size]
    found += ["draft error %d %d" % (k, line) for k in range(18) for line in (0, 1, 2, 9, 33, 16385)]
    draw = random.Random(6)
    sets = SETS + [[draw.getrandbits(64) for _ in range(4)] for _ in range(3)] + [[2**k, 0, 0, 0] for k in (3, 4, 7, 8, 63)] + [[0, 2**k, 0, 0] for k in (0, 3, 4, 63)] + [[0, 0, 2**k, 0] for k in (0, 4)] + [[0, 0, 0, 2**k] for k in (0, 59, 60, 63)]
    for it in sets:
        found += ["marks_fit %d %s" % (n, words(it)) for n in (0, 1, 4, 8, 60, 63, 64, 65, 68, 128, 132, 192, 196, 252, 256, 260, 2**64 - 1)]
        found += ["draft marks %d %s" % (n, words(it)) for n in (0, 4, 8, 60, 64, 68, 128, 132, 192, 196, 252, 256)]
    levels = [[0] * 32, [1], [16], [5, 0, 0, 0, 1], [1, 0, 0, 0, 3], [0, 1], [0, 0, 0, 2**63], [3, 0, 0, 0, 1, 0, 0, 0, 1], [15, 0, 0, 0] * 7, [15, 0, 0, 0] * 8, [2, 0, 0, 0] * 3 + [8, 0, 0, 0], [0] * 28 + [1], [2**64 - 1, 2**64 - 1, 2**64 - 1, 2**64 - 1] * 2]
    for it in levels:
        found += ["useful_fits %d %d %s" % (ways, n, words(it)) for ways in (0, 1, 2, 3, 7, 8) for n in (0, 1, 4, 64, 68, 256)]
        found += ["draft useful %d %d %s" % (ways, n, words(it)) for ways in (0, 1, 2, 3, 7, 8) for n in (4, 8, 64, 68)]
    found += ["digits_in %d" % n for n in (0, 1, 9, 10, 11, 99, 100, 101, 999999999, 1000000000, 2**64 - 1)]
    found += ["put_at %s %d %d" % (text(it), at, size) for it in ("", "a", "abc") for size in (0, 1, 4, 7) for at in (0, 1, 2, 4) if at + len(it) <= size]
    return found


def of_report():
    found = []
    for it, n in tables(7, 60) + [(THREE, 3), (many_tasks(32), 32), (many_tasks(1), 1), (THREE + "A\tc\ta\t5\t3\n", 3)]:
        found += ["report %s %d" % (text(it), size) for size in (0, 1, 2746)]
        for i in range(n) if n < 32 else (0, 31):
            found += ["explain %s %d %d %d" % (text(it), m, i, size) for m in METHODS for size in (2746, 10)]
    found += ["report %s %d" % (text(THREE), size) for size in range(70, 90)] + ["explain %s 2 2 %d" % (text(THREE), size) for size in range(25, 50)]
    draw = random.Random(8)
    for n in (0, 1, 2, 3, 32):
        for _ in range(8):
            found.append("verdict_line %s" % words([draw.choice([0, 3, 5, 8]) if draw.random() < 0.6 else 5 for _ in range(6 * n)] if n else []))
        for m in range(6 if n else 0):
            row = [0 if k % 6 == m and k // 6 == n - 1 else 4 for k in range(6 * n)]
            found += ["verdict_line %s" % words(row), "verdict_line %s" % words([0 if k % 6 == m and k // 6 == 0 else 4 for k in range(6 * n)]), "verdict_line %s" % words([4 if k % 6 == m else 0 for k in range(6 * n)])]
    found = sorted(set(found))
    return found + [it.replace("verdict_line", call) for call in ("every_verdict", "verdicts") for it in found if it.startswith("verdict_line")]


CHANGES = ["-", "sets=0", "sets=2", "sets=6", "sets=8", "sets=256", "sets=260", "sets=257", "brt=0", "brt=100000", "brt=100001", "count=0", "count=1", "count=2", "count=4", "count=33", "count=18446744073709551615", "access_count=1", "access_count=33", "access_count=18446744073709551615", "t0.name=65", "t0.name=0", "t0.name=97:0:98", "t0.name=98", "t1.name=99", "t2.name=97", "t0.name=97:97:97:97:97:97:97:97:97:97:97:97", "t0.work=0", "t0.work=250000000", "t0.work=250000001", "t2.work=0", "t0.period=0", "t0.period=19", "t0.period=250000001", "t0.deadline=0", "t0.deadline=21", "t0.jitter=20", "t0.jitter=21", "t1.jitter=250000001", "t0.ucb=16:0:0:0", "t0.ucb=15:0:0:0", "t0.ucb=0:1:0:0", "t0.ecb=16:0:0:0", "t0.ecb=0:0:1:0", "t1.ecb=0:0:0:1", "t3.name=97", "t3.work=1", "t3.period=1", "t3.deadline=1", "t3.jitter=1", "t3.ucb=1:0:0:0", "t3.ecb=1:0:0:0", "t3.ucb=0:0:0:1", "t31.work=1", "t31.ecb=1:0:0:0", "t31.name=0:0:0:0:0:0:0:0:0:0:0:1", "a0.task=1", "a0.ceiling=1", "a0.lasts=1", "a0.ucb=1:0:0:0", "a31.lasts=1", "a31.task=1", "a1.lasts=1", "a1.task=1", "a1.ceiling=1", "a1.ucb=1:0:0:0"]
ONE = "access_count=1;a0.task=2;a0.ceiling=1;a0.lasts=5;a0.ucb=3:0:0:0"
CHANGES += [ONE, *("%s;%s" % (ONE, it) for it in ("a0.task=3", "a0.task=1", "a0.task=0", "a0.ceiling=2", "a0.ceiling=3", "a0.ceiling=0", "a0.lasts=0", "a0.lasts=250000000", "a0.lasts=250000001", "a0.ucb=16:0:0:0", "a0.ucb=0:0:0:1", "a1.lasts=1", "a1.task=1", "a1.ucb=1:0:0:0", "count=2", "access_count=2"))]


COUNTED = "K\t4\t1\t2\nT\ta\t1\t20\t20\t0\t0\t0012\tf\nT\tb\t2\t40\t40\t0\t0\t2100\tf\nA\tb\ta\t5\t0201\n"


def longest_counted(spare, work=1, period=100, accesses=20):
    """A word of a table text with `spare` bytes fewer than a text may have."""
    said = lambda k, more: "T\t%s\t%d\t%d\t%d\t0\t0\t" % (name(k) + "-" * more, work, period + k, period + k)
    blocking = "A\t%s\t%s\t1\t" % (name(1), name(0))
    first = "K\t256\t1\t2\n"
    left = 16384 - spare - len(first) - sum(len(said(k, 0)) + 256 + 1 + 64 + 1 for k in range(32)) - accesses * (len(blocking) + 256 + 1)
    tasks = []
    for k in range(32):
        more = min(9, left) if 2 <= k else 0
        tasks.append(said(k, more))
        left -= more
    assert left == 0
    lines = [text(it) + '+"0"*256+"\\t"+"f"*64+"\\n"' for it in tasks] + [text(blocking) + '+"0"*256+"\\n"'] * accesses
    return "+".join([text(first), *lines])


def is_measured(change):
    """Whether the length of a table with this change is told: its counts and its sets are in range."""
    return not any(it in change for it in ("sets=257", "sets=260", "count=33", "count=1844", "a0.task=3", "a0.ceiling=3", ";count=2"))


def of_table_text():
    found = []
    for it, _ in tables(9, 40) + [(THREE, 3), (many_tasks(32), 32), (many_accesses(32), 2), (THREE + "A\tc\ta\t5\t3\nA\tb\tb\t7\tc\n", 3)]:
        found += ["write %s %d" % (text(it), size) for size in (0, len(it) - 1, len(it), len(it) + 3)] + ["is_readable %s -" % text(it)]
        found.append("length %s -" % text(it))
    for it in (COUNTED, COUNTED.replace("\t2\n", "\t8\n", 1)):
        found += ["write %s %d" % (text(it), size) for size in (0, len(it) - 1, len(it), len(it) + 3)] + ["is_readable %s -" % text(it), "length %s -" % text(it)]
    for spare in (0, 1):
        found += ["is_readable %s -" % longest_counted(spare), "length %s -" % longest_counted(spare)]
    return found + ["%s %s %s" % (call, text(THREE), it) for it in CHANGES + ["form=1", "form=2", "form=8", "form=9"] for call in ("is_readable", "length") if call == "is_readable" or is_measured(it)]


def of_growth():
    found = ["scaled_work %d %d" % (work, k) for work in (1, 2, 3, 7, 999, 1000, 250000000) for k in (0, 1, 499, 500, 501, 999, 1000, 1001, 1500, 4000)]
    big = [head(4, 0) + "T\ta\t%d\t250000000\t250000000\t0\t0\t0\tf\n" % work for work in (1, 1000, 62499999, 62500000, 62500001, 125000000, 249999999, 250000000)] + [head(4, 0) + "T\ta\t1\t250000000\t250000000\t0\t0\t0\tf\nT\tb\t%d\t250000000\t250000000\t0\t0\t0\tf\n" % work for work in (62500001, 200000000)]
    for it, n in tables(10, 90) + [(THREE, 3), (THREE + "A\tc\ta\t5\t3\n", 3)] + [(it, it.count("T")) for it in big] + [(head(4, 1) + "T\ta\t20\t20\t20\t0\t0\t0\tf\n", 1), (head(4, 1) + "T\ta\t10\t20\t20\t0\t0\t0\tf\n", 1), (head(4, 1) + "T\ta\t30\t20\t20\t0\t0\t0\tf\n", 1), (head(4, 1) + "T\ta\t1\t20\t20\t0\t30\t0\tf\n", 1), (head(4, 1) + "T\ta\t1\t20\t20\t0\t19\t0\tf\n", 1), (head(4, 1) + "T\ta\t1\t20\t20\t0\t20\t0\tf\n", 1)]:
        found += ["growth %s %d" % (text(it), m) for m in METHODS]
        found += ["scale %s %d" % (text(it), k) for k in (0, 1, 999, 1000, 1001)]
    found += ["growth %s %d" % (longest_counted(spare, 9, 100000, 19), m) for spare in (0, 10, 31, 32) for m in (0, 1)]
    found += ["scale %s %d" % (text(many_tasks(n)), k) for n in (31, 32) for k in (1000, 2000)]
    return found


def plain_tables(seed, count):
    """Texts of tables without jitter and without accesses, whose periods have common multiples that are found soon."""
    draw, found = random.Random(seed), []
    for k in range(count):
        sets, n = draw.choice([4, 4, 8]), draw.randint(1, 4)
        ways = draw.choice([None, None, 1, 2, 3])
        lines = [head(sets, draw.choice([0, 1, 1, 2, 3])) if ways is None else "K\t%d\t%d\t%d\n" % (sets, draw.choice([0, 1, 2]), ways)]
        for i in range(n):
            period = draw.choice([2, 3, 4, 5, 6, 8, 9, 10, 12, 15, 20, 24, 30])
            deadline = draw.choice([period, draw.randint(1, period)])
            blocks = digits(mask(draw, sets), sets) if ways is None else "".join(str(draw.randint(0, ways)) for _ in range(sets))
            lines.append("T\t%s\t%d\t%d\t%d\t0\t0\t%s\t%s\n" % (name(i), draw.randint(1, max(1, deadline // n)), period, deadline, blocks, digits(mask(draw, sets), sets)))
        found.append("".join(lines))
    return found


def of_edf():
    found, draw = [], random.Random(17)
    for a in (1, 2, 3, 4, 6, 10, 12, 15625, 16000, 250000000):
        found += ["%s %d %d" % (call, a, b) for call in ("gcd", "lcm") for b in (1, 2, 3, 4, 6, 8, 9, 12, 16000, 250000000)] + ["gcd %d 0" % a, "gcd 0 %d" % a]
    lists = [[], [(2, 4, 6), (3, 5, 10)], [(2, 4, 6), (4, 5, 10)], [(1, 1, 1)], [(2, 1, 1)], [(1, 1, 1), (1, 2, 2)], [(2**63, 1, 1)], [(2**63, 2, 2)], [(2**64 - 1, 5, 5), (1, 2, 3)]]
    for _ in range(120):
        n = draw.randint(1, 4)
        periods = [draw.choice([1, 2, 3, 4, 5, 6, 8, 9, 10, 12, 15, 20, 24, 30]) for _ in range(n)]
        lists.append([(draw.randint(1, max(1, t // n + draw.randint(0, 1))), draw.choice([t, draw.randint(1, t)]), t) for t in periods])
    for it in lists:
        said = ",".join("%d/%d/%d" % task for task in it) or "-"
        h = math.lcm(*(task[2] for task in it))
        found += ["%s %s %d" % (call, said, many * h) for call in ("decide", "first_overrun") for many in (1, 2)]
        found += ["hyperperiod %s" % said] + ["bound_within %s %d" % (said, x) for x in (0, 1, 2, 3, 4, 5, 6, 7, 10, 20, h - 1, h)]
        found += ["last_overrun %s %d %d" % (said, a, b) for a, b in ((0, h + 1), (0, 5), (1, 9), (3, 4), (2, h), (7, 3), (4, 4), (0, 1))]
    for t in ("1/1/1", "1/4/6", "1/6/6", "2/1/10", "1/250000000/250000000"):
        found += ["jobs %s %d" % (t, x) for x in (0, 1, 2, 3, 4, 5, 6, 7, 10, 11, 12, 16, 249999999, 250000000)]
    for s, t in ((15625, 16000), (2, 250000000), (125000000, 250000000), (3, 250000000), (15859, 15881)):
        found += ["hyperperiod 1/%d/%d,1/%d/%d" % (s, s, t, t), "hyperperiod 1/%d/%d,1/%d/%d,1/2/2" % (s, s, t, t), "hyperperiod 1/1/1,1/%d/%d,1/%d/%d" % (s, s, t, t)]
    found += ["charged_tasks %s" % text(it) for it in plain_tables(18, 60) + [it for it, _ in tables(19, 20)] + [THREE, COUNTED.rsplit("A", 1)[0]]]
    return found


TABLE_P = head(4, 0) + "T\ta\t2\t5\t5\t0\t0\t0\t0\nT\tb\t3\t8\t8\t%d\t0\t0\t0\n"
# two accesses may block b, and its own number is left open
TABLE_Y = head(4, 1) + "T\ta\t1\t5\t5\t0\t0\t0\tf\nT\tb\t1\t20\t20\t0\t0\t0\t0\nT\tc\t1\t100\t100\t0\t0\t0\t0\nA\tc\tb\t4\t0\nA\tc\tb\t1\t3\n"


def judged(seed, count):
    """Tables in which claims are judged."""
    return [(TABLE_P % 0, 2), (TABLE_P % 2, 2), (TABLE_Y, 3), (THREE, 3), (THREE + "A\tc\ta\t5\t3\n", 3), *several_accesses(), *tables(seed, count)]


def lists(n):
    """Lists for a table whose n tasks are called a, b, ..: good ones, and each way in which a line is not."""
    good = ["R\t%s\t%d\n" % (name(k), 5 + 2 * k) for k in range(n)]
    found = ["".join(good), "".join(good)[:-1], "".join(good).replace("\n", "\r\n"), "".join(good) + "R\tzz\t5\n", "".join(good) + "R\tzz\n", "".join(good) + "R\tzz\t5", "".join(good) + "\n", "", "\n", "R"]
    found += ["".join(good[:k]) for k in range(n)] + ["".join(reversed(good)), "".join("R\t%s\t-\n" % name(k) for k in range(n))]
    bad = ["", "R\n", "r\ta\t5\n", "R\ta\n", "R\ta\t5\t\n", "R\ta\t5\t6\n", "R\t\t5\n", "R\tA\t5\n", "R\tabcdefghijklm\t5\n", "R\tz\t5\n", "R\ta\t05\n", "R\ta\t0\n", "R\ta\t--\n", "R\ta\t\n", "R\ta\t-5\n", "R\ta\t999999999\n", "R\ta\t1000000000\n", "R\tz\tx\n", "R\tz\t5"]
    for k in range(n):
        found += ["".join(good[:k]) + it.replace("\ta\t", "\t%s\t" % name(k)) + "".join(good[k + 1 :]) for it in bad]
    return found


def of_claims():
    found, draw = [], random.Random(17)
    for it, n in judged(18, 40):
        said = text(it)
        found += ["judge %s %d %d %s" % (said, m, i, claim) for m in METHODS for i in range(n) for claim in (*TIMES[::2], "-")]
        found += ["write %s %d %s %d" % (said, m, " ".join(str(draw.choice([5, 7, 9, 13, 20, 40, "-"])) for _ in range(n)), size) for m in METHODS for size in (0, 15, 640)]
    for it, n in [(TABLE_P % 0, 2), (THREE, 3), (many_tasks(32), 32)]:
        found += ["read %s %s" % (text(it), text(one)) for one in (lists(n) if n < 32 else lists(n)[:30])]
    return found


def replayed_tables(seed, count):
    """Tables without jitter and accesses, some of them with more work than there is time, and how many tasks each has."""
    draw, found = random.Random(seed), [*((TABLE_P.replace("8\t8", "8\t%d" % d) % 0, 2) for d in (8, 4, 5, 6)), (THREE, 3)]
    for _ in range(count):
        n = draw.randint(1, 5)
        lines = [head(4, 0)]
        for k in range(n):
            period = draw.randint(2, 9) * (k + 1)
            lines.append(task(k, draw.randint(1, max(1, period // 2)), period, draw.randint(max(1, period // 2), period), 0, 0, 0, 0, 4))
        found.append(("".join(lines), n))
    return found


def long_deadlines():
    return [head(4, 0) + task(0, work, 200000, deadline, 0, 0, 0, 0, 4) + task(1, 7, 300000, 20, 0, 0, 0, 0, 4) for work, deadline in ((1, 99999), (1, 100000), (1, 100001), (99999, 100000), (100000, 100000), (100001, 100001), (200000, 100000))]


def of_replay():
    found = []
    for it, n in replayed_tables(17, 60) + [(it, 2) for it in long_deadlines()]:
        found += ["replay %s %d" % (text(it), i) for i in range(n)]
    for it, _ in replayed_tables(18, 12):
        found += ["page %s %d %d" % (text(it), start, size) for start in (0, 1, 7, 100) for size in (0, 5, 2000)]
    found += ["page %s %d 2000" % (text(TABLE_P % 0), start) for start in (99899, 99900, 99901, 99999, 100000, 100001, 2**64 - 1)]
    return found


def of_runs():
    few = range(4)
    found = ["latest_end %d %d" % (release, response) for release in (0, 3, 7) for response in (0, 1, 5, 10)]
    found += ["most_releases %d %d %d" % (time, period, jitter) for time in (0, 1, 5, 6, 10) for period in (1, 5) for jitter in (0, 1, 4, 5)]
    found += ["may_lose %d %d %d %d" % (victim, other, waiting, ceiling) for victim in few for other in few for waiting in few for ceiling in few]
    found += ["may_take %d %d" % (lowest, user) for lowest in few for user in few]
    found += ["must_reload %d %d" % (alone, there) for alone in (0, 1) for there in (0, 1)]
    found += ["goes_to %s %s" % (first, held) for first in ("-", 0, 1, 2) for held in ("-", "2 0", "2 1", "3 2")]
    return found


def jittery():
    """Tables with a jitter, or an access, or both, on one line or another."""
    found = []
    for jitters in ((0, 0, 0), (1, 0, 0), (0, 1, 0), (0, 0, 2), (0, 3, 1)):
        it = head(4, 0) + "".join(task(k, 1, 20, 20, j, 0, 0, 0, 4) for k, j in enumerate(jitters))
        found += [it, it + access(2, 0, 5, 0, 4), it + access(1, 1, 5, 0, 4) + access(2, 0, 5, 0, 4)]
    return found


def operations(seed, count):
    """Texts for whole operations."""
    return [THREE, THREE + "A\tc\ta\t5\t3\n", *(it for it, _ in tables(seed, count)), *texts()[::23], "", "a", "K\t4\t1\n", "K\t4\t1\nU\n", THREE + "U\n"]


def deadline_refusals():
    """Texts that are refused for a jitter, an access or long periods, and for two of these."""
    plain = "T\ta\t1\t20\t20\t%d\t0\t0\tf\nT\tb\t1\t%d\t20\t%d\t0\t0\tf\n"
    found = []
    for jitters in ((0, 0), (1, 0), (0, 1), (2, 1), (20, 20)):
        for period in (20, 249999999):
            found += [head(4, 1) + plain % (jitters[0], period, jitters[1]) + more for more in ("", "A\tb\ta\t5\t3\n", "A\tb\ta\t5\t3\n" * 3)]
    return found


def of_crpd(prefix="", seed=11):
    found = []
    for it in operations(seed, 40):
        said = text(it)
        for m in (0, 1, 2, 3, 4, 5, 6, 7, 11, 256, 2**32, 2**64 - 1):
            found += ["%sanswer %s %d %d" % (prefix, said, m, i) for i in (0, 1, 2, 3, 32, 2**32, 2**64 - 1)] if len(it) < 200 else []
            found += ["%sgrowth %s %d" % (prefix, said, m)]
            found += ["%sscaled %s %d %d" % (prefix, said, m, size) for size in (0, 40, 9293)] if len(it) < 200 else []
            found += ["%sexplain %s %d %d %d" % (prefix, said, m, i, size) for i in (0, 2, 3, 2**64 - 1) for size in (0, 10, 2746)] if len(it) < 200 else []
        found += ["%s%s %s %d" % (prefix, call, said, size) for call in ("report", "rewrite") for size in (0, 1, 30, 9293)]
        found += ["crpd_print %s %d" % (said, size) for size in (0, 3, 6, 2746)] if prefix else ["print %s" % said]
        found += ["%srewrite %s %d" % (prefix, said, size) for size in (len(it) - 1, len(it), len(it) + 1) if size >= 0]
    found += ["%sedf %s" % (prefix, text(it)) for it in operations(seed, 40) + plain_tables(seed, 60) + deadline_refusals()]
    for it, n in [(TABLE_P % 0, 2), (TABLE_P % 2, 2), (TABLE_Y, 3), (THREE, 3)]:
        found += ["%scheck %s %s %d %d" % (prefix, text(it), text(one), m, size) for one in lists(n) for m in (0, 2, 5, 6) for size in (0, 15, 640)]
    found += ["%scheck %s %s %d 640" % (prefix, text(it), text(lists(3)[0]), m) for it in ("", "a", THREE[:-1], THREE + "U\n") for m in (0, 6)]
    for it in [it for it, _ in replayed_tables(seed + 20, 6)] + jittery() + long_deadlines()[1:3] + ["", "a", THREE + "U\n"]:
        found += ["%sreplay %s %d" % (prefix, text(it), i) for i in (0, 1, 2, 3, 2**64 - 1)]
        found += ["%sticks %s %d %d" % (prefix, text(it), start, size) for start in (0, 3, 2**64 - 1) for size in (0, 9, 2000)]
    for it in long_texts()[:6]:
        found += ["%sreport %s 100" % (prefix, it), "%sanswer %s 6 0" % (prefix, it), "%sanswer %s 0 0" % (prefix, it)] + (["print %s" % it] if not prefix else ["crpd_print %s 100" % it])
    if not prefix:
        for change in CHANGES:
            found += ["write %s %s %d" % (text(THREE), change, size) for size in (0, 9293)]
        found += ["code_number %d" % n for n in (0, 1, 5, 2**32, 2**64 - 1)] + ["code_length %d" % n for n in (0, 1, 5, 2**32)] + ["code_within %d" % n for n in (0, 1, 5, 250000000)] + ["code_end %d" % n for n in (1, 5, 100000)] + ["code_unfinished", "code_none", "code_yes", "code_no"] + ["code_refusal %d %d" % (k, line) for k in range(4) for line in (0, 1, 33, 16385)]
    return found


def longest():
    """The longest text of a table whose UCBs are hex digits: 9,293 bytes."""
    names = ["abcdefghij%02d" % k for k in range(32)]
    tasks = ["T\t%s\t100000000\t200000000\t200000000\t100000000\t0\t%s\t%s\n" % (it, "f" * 64, "f" * 64) for it in names]
    return head(256, 100000) + "".join(tasks) + "".join("A\t%s\t%s\t100000000\t%s\n" % (it, names[0], "f" * 64) for it in names)


def with_task(it, p, line):
    """The text with a task line put in below line 1 and p others."""
    lines = it.splitlines(keepends=True)
    return "".join(lines[: p + 1] + [line] + lines[p + 1 :])


def of_laws():
    found, draw = ["written_then_read %s -" % it for it in (text(longest()), longest_counted(0))], random.Random(12)
    sets = SETS + [[draw.getrandbits(64) for _ in range(4)] for _ in range(3)]
    for a in sets:
        found.append("with_itself %s" % words(a))
        for b in sets:
            found.append("either_way_round %s %s" % (words(a), words(b)))
            for c in sets[::2]:
                found += ["%s %s %s %s" % (it, words(a), words(b), words(c)) for it in ("either_grouping", "shared_sizes")]
    for it, n in judged(19, 0):
        found += ["our_own %s %d %d" % (text(it), m, i) for m in METHODS for i in range(n)]
        found += ["%s %s %d %d %s" % (call, text(it), m, i, claim) for call in ("figure_finding", "beside_ours") for m in METHODS for i in range(n) for claim in (5, 6, 7, 21, "-")]
    every, added = tables(13, 60) + [(THREE, 3), (THREE + "A\tc\ta\t5\t3\n", 3)], random.Random(16)
    for k, (it, n) in enumerate(every):
        said = text(it)
        for i in range(n):
            for m in METHODS:
                found += ["%s %s %d %d" % (call, said, m, i) for call in ("need_and_response", "figure_response", "in_any_order")]
                other, n2 = every[(k + 1) % len(every)]
                found.append("in_two_tables %s %d %s %d %d" % (said, i, text(other), min(i, n2 - 1), m))
                found.append("in_two_tables %s %d %s %d %d" % (said, i, said, (i + 1) % n, m))
            found += ["counted %s %d %d" % (said, m, i) for m in range(5)] + ["combined %s %d" % (said, i)]
            found += ["figure_charge %s %d %d %d" % (said, m, i, j) for m in (0, 1, 2, 4) for j in range(i)]
        found += ["our_own %s %d %d" % (said, m, i) for m in METHODS for i in range(n)]
        found += ["%s %s %d %d %s" % (call, said, m, i, claim) for call in ("figure_finding", "beside_ours") for m in METHODS for i in range(n) for claim in (5, 11, 30, "-")]
        found += ["left %s %d" % (said, m) for m in METHODS] + ["growth_left %s %d" % (said, m) for m in (*METHODS, 6)]
        found += ["reported_twice %s %d %d" % (said, a, b) for a, b in ((2746, 2746), (0, 2746), (2746, 0), (2000, 2746))]
        found += ["answered_twice %s %d %d" % (said, m, p) for m in (0, 5, 6) for p in (0, 1, 2, 40)]
        found += ["read_then_written %s" % said]
        sets = int(it.split("\t")[1])
        for p in range(n + 1) if k % 3 == 0 or n == 3 else ():
            more = with_task(it, p, task(0, 1 + p % 2, 40 + p, 30 + p, p % 3, 0, mask(added, sets), mask(added, sets), sets, called="new"))
            found += ["added_answers %s %s %d %d %d" % (said, text(more), p, m, i) for m in (0, 3, 4, 6) for i in range(n + 1)]
            found.append("put_in %s %d %s %d" % (said, p, text(more), p))
            found += ["two_needs %s %s %d %d" % (said, text(more), m, i) for m in (1, 2, 5) for i in range(n)]
            found += ["two_explanations %s %s %d %d %d %d" % (said, text(more), m, i, a, b) for m, a, b in ((2, 1348, 1348), (4, 0, 1348), (6, 9, 9)) for i in range(n + 1)]
        found += ["%s %s %d" % (call, said, i) for call in ("under_all", "are_in_order") for i in range(n)]
        other = text(every[(k + 1) % len(every)][0])
        found += ["of_two_texts %s %s %d %d" % (said, other, m, p) for m in (0, 2, 3, 4, 5, 6) for p in (0, 1, 2, 40)]
    for it in texts()[::17] + ["", "a"]:
        found += ["read_then_written %s" % text(it), "answered_twice %s 0 0" % text(it), "reported_twice %s 2746 2746" % text(it), "growth_left %s 0" % text(it), "of_two_texts %s %s 0 0" % (text(it), text(THREE))]
    found += ["written_then_read %s %s" % (text(THREE), it) for it in CHANGES]
    for _ in range(60):
        terms = draw_terms(draw, draw.randint(0, 4))
        order = list(range(len(terms)))
        draw.shuffle(order)
        said = written_terms(terms)
        for own in (1, 5, 40):
            found += ["demand_in_order %d %s %s %d" % (own, said, words(order), r) for r in (0, 1, 7, 40)] + ["smallest %d %s %d" % (own, said, limit) for limit in (1, own, 60, 5000)]
    found += ["alone %d %d" % (work, r) for work in (0, 1, 7) for r in (0, 1, 9)]
    return found


def of_crpd_c():
    return of_crpd("crpd_", 14)


def of_bench_parts():
    found = []
    for it in operations(15, 30):
        said = text(it)
        found += ["bench_read %s" % said] + ["bench_answers %s %d" % (said, n) for n in (0, 1, 2, 3)]
        found += ["%s %s %d %d" % (call, said, n, size) for call in ("bench_write", "bench_rewrite") for n in (0, 1, 2) for size in (0, 20, 9293)]
    return found


def of_test_values():
    found = ["test_write %d - %d" % (n, size) for n in (0, 1, 2788, 2789, 2790) for size in (0, 100)]
    task = lambda k, name, times, ucb, ecb: {4 + 52 * k + place: value for place, value in enumerate([name, *[0] * 11, *times, *ucb, *[0] * 28, *ecb])}
    good = {0: 256, 1: 1, 2: 0, 3: 2, **task(0, 97, [1, 20, 20, 0], [1, 2, 3, 4], [5, 6, 7, 8]), **task(1, 98, [2, 40, 30, 1], [9, 10, 11, 12], [13, 14, 15, 16])}
    with_access = {**good, 1668: 1, 1669: 1, 1670: 0, 1671: 5, 1672: 1, 1673: 2, 1674: 3, 1675: 4}
    places = (*range(0, 60), *range(1664, 1690), 2788)
    every = [good, with_access] + [{**it, place: value} for it in (good, with_access) for place in places for value in (0, 1, 3, 99, 256 + 99, 2**32, 2**64 - 1)]
    for it in every:
        changes = ";".join("%d=%d" % pair for pair in sorted(it.items()) if pair[1])
        found += ["test_write %d %s %d" % (size, changes, 1000) for size in (2789, 2790)]
    return found


def of_crpd_report():
    found = []
    for it in [text(THREE), text(THREE[:-1]), '""', '"a"', '"K\\t4\\t1\\n"'] + long_texts() + ["\"a\"*20000", text(many_tasks(32))]:
        for steps in ("-", "2", "0", "1", "2,2,2", "0,0,3", "3,0,4", "3,1", "0,1", "9,9,1", "100,0,100", "2,1"):
            found += ["run %s %s %d" % (it, steps, room) for room in (0, 5, 10, 2746, 9000)]
    return found


def of_streams():
    found = ["read_input %s %s %d" % (text("a" * n), steps, room) for n in (0, 3, 12) for steps in ("-", "2", "0", "1", "2,1", "3,0,4") for room in (0, 2, 10, 20)]
    found += ["read_text %s" % it for it in ('""', '"ab"', '"a"*16384', '"a"*16385', '"a"*20000')]
    return found + ["write_output %s %d" % (text("a" * n), room) for n in (0, 3, 12) for room in (0, 3, 5, 100)]


def of_answered():
    late = "K\t4\t1\nT\ta\t5\t10\t10\t0\t0\t0\t0\nT\tb\t6\t20\t11\t0\t0\t0\t0\n"
    some = [text(it) for it, _ in tables(7, 12)] + [text(it) for it in (THREE, late, late.replace("a\t5", "a\t8"), THREE[:-1], "", many_tasks(8))]
    found = ["%s %s" % (name, it) for it in some for name in ("report", "edf")]
    found += ["%s %s %d" % (name, it, n) for it in some for name, most in (("growth", 6), ("scaled", 6), ("replay", 3)) for n in range(most + 1)]
    return found + ["%s %s %d %d" % (name, it, m, i) for it in some for name in ("answer", "explain") for m in (0, 2, 5, 6) for i in (0, 1, 2, 40)]


def of_sentences():
    some = [text(it) for it, _ in tables(7, 12)] + [text(it) for it in (THREE, THREE[:-1], "", many_tasks(8))]
    found = ["explain %s %d %d" % (it, m, i) for it in some for m in range(7) for i in (0, 1, 2, 40)] + ["explained %s %d %d" % (text(THREE), m, i) for m in range(6) for i in range(3)]
    return found + ['add_sum 3 "a" "1 x 3" 3', 'add_sum 12 "long_name" "" 5 "b" "7 x 1" 7', "add_sum 0"]


def of_aligned():
    lines = [["1wtask", "1wlimit", *["1w" + it for it in ("none", "ecb-only", "ucb-only", "ucb-union", "ecb-union", "combined")]], ["0wa", "0n123456", "0n7", "3w-", "2wyes", "3wno", "0", "0n0"], ["0wmuch_longer", "0n0", *["0n99999999999"] * 6]]
    texts = [lines, lines[:1], lines[1:], lines[1:2], []]
    return ["aligned %d %s" % (colours, text("".join("\t".join(line) + "\n" for line in it))) for it in texts for colours in (0, 1)]


# bytes of every kind: letters, what controls or is not seen, and what is no character
SPELLED = [b"plain.table", b"", b"\\", b"a\\n", b"\n", b"\t", b"\x1b[1m", b"\x7f", b"\xff", b"\xc3\xa4", b"\xc2\x85", b"\xc2\xad", b"\xe2\x80\x8b", b"\xe2\x82\xac", b"\xed\xa0\x80", b"\xf0\x9f\x98\x80", b"\xf4\x90\x80\x80", b"\xc0\x80", b"\xe2\x82", b"[", b"\xf8\x90\x80\x80"]


def of_spelling():
    return ["%s %s" % (name, text(it)) for name in ("spelled_out", "cleaned", "is_clean") for it in SPELLED]


def of_terminal():
    return ["%s %s" % (name, text(it)) for name in ("print", "tell") for it in SPELLED]


def of_lists():
    names = ["a", "b/c.table", "", "\\\\", "a\tb", "x"]
    fates = ["0", "1", "2 0", "2 17", "3 1 1 1 1 1 1", "3 0 1 0 1 0 1"]
    found = ["line %s %s" % (text(name), fate) for name in names[:3] for fate in fates]
    lists = ["a\tV\tyes\nb\tE\t1\t0\n", "c\tF\tread\n", "", "b\tV\tno\na\tF\twrite\n"]
    return found + ["put_together " + " ".join(text(it) for it in some) for some in (lists, lists[::-1], lists[:1], lists[1:2], lists[3:])] + ["put_together"]


def of_builds():
    held = ["%s %s %d" % (text(way), text(it), how) for way, it, how in (("b.table", THREE, 0), ("a.table", "K\n", 0), ("c\t.table", THREE, 1), ("d\\.table", many_tasks(3), 2), ("e/f.table", many_tasks(1), 0))]
    found = ["print_build %s" % text(it) for it in (THREE, "K\n", "", many_tasks(32))] + ["build_at %s" % text(it) for it in ("a.table", "a\tb", "\\")]
    found += ["part %d %d" % pair for pair in ((0, 0), (0, 1), (1, 1), (1, 2), (2, 2), (3, 2), (4, 2), (1, 0))]
    found += ["sort %s" % " ".join(held), "sort %s" % " ".join(held[::-1]), "sort %s" % " ".join("%s %s 0" % (text(way), text("")) for way in ("cA.table", "c\t.table"))] + ["write_report %s" % it for it in held]
    return found + ["write_reports %d %d %s" % (k, n, " ".join(it)) for k, n in ((1, 1), (1, 2), (2, 2), (3, 3)) for it in (held, held[:2], held[3:], [])]


def of_changes():
    base = "K\t8\t10\nT\ta\t40\t200\t200\t0\t0\t00\t0f\nT\tb\t100\t500\t500\t0\t0\t07\t3f\nT\tc\t300\t1000\t1000\t0\t0\tf8\tff\nA\tc\tb\t5\t01\n"
    others = [base.replace(*it) for it in (("\t10\n", "\t11\n"), ("b\t100", "b\t120"), ("500\t500\t0", "500\t500\t9"), ("500\t500", "500\t400"), ("500\t500", "600\t500"), ("\t07\t3f", "\t0f\t3f"), ("\t07\t3f", "\t07\t7f"), ("b\t5\t01", "b\t6\t01"), ("b\t5\t01", "b\t5\t03"), ("T\tb", "T\td"), ("A\tc\tb\t5\t01\n", ""))][:-2]
    pairs = [(base, base)] + [it for other in others for it in ((base, other), (other, base))]
    found = ["%s %s %s" % (name, text(one), text(other)) for name in ("is_harder", "compared", "between", "moved", "compare") for one, other in pairs]
    return found + ["is_empty %d" % n for n in range(3)]


def of_shown():
    late = "K\t4\t1\nT\ta\t5\t10\t10\t0\t0\t0\t0\nT\tb\t6\t20\t11\t0\t0\t0\t0\n"
    some = [text(it) for it, _ in tables(7, 20)] + [text(THREE), text(late), text(many_tasks(32)), '"a"', '""']
    return ["show %s %d" % (it, colours) for it in some for colours in (0, 1)] + ["no_memory"]


def of_methods():
    found = ["%s %d" % (name, n) for name, most in (("single_name", 5), ("method_name", 6), ("name_by_number", 8), ("colour_by_number", 8)) for n in range(most)]
    return found + ["names"]


def of_drawn():
    found = ["put %s" % it for it in ('"a"', '"<"', '">"', '"&"', '"\\x01"', '"\\x7f"')] + ['new 8 93 "<a>"', 'raw "<a/>"']
    return found + ['text "a" 12 -30 "<b>"', 'line "a" 12 -30 5 60', 'rectangle "a" 12 -30 5 60']


def of_bars():
    some = [text(it) for it, _ in tables(7, 12)] + [text(it) for it in (THREE, many_tasks(32), "a", "")]
    names = ["a.table", "", "<a&b>", "".join(chr(97 + k % 26) for k in range(120))]
    found = ["picture %s %s" % (text(name), it) for it in some for name in names[: 4 if it == text(THREE) else 1]] + ["no_memory"]
    return found + ["top_of %d" % n for n in range(34)]


# a task that is pre-empted while it holds a device: examples/preempted-blocker.table
BLOCKER = head(4, 2) + "T\ta\t1\t20\t20\t0\t0\t0\t1\nT\tb\t1\t20\t20\t0\t0\t0\t0\nT\tc\t3\t30\t30\t0\t0\t1\t1\nA\tc\tb\t3\t1\n"


def of_every_run():
    return ["answer %s %d %d" % (text(it), m, i) for it in (THREE, BLOCKER) for m in METHODS for i in range(3)]


def called(case):
    """What a case calls: of a draft, what is appended last."""
    words = case.split(" ")
    appended = [it for it in words[1:] if it.isidentifier() and it != "draft"]
    return "draft:" + appended[-1] if words[0] == "draft" and appended else words[0]


def of(crate):
    return sorted(set(globals()["of_" + crate]()))
