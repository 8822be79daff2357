#!/usr/bin/env python3
"""pool.py [COMMAND..]: runs `crpd reports`, or another command that is to do the same, over folders of tables: in any number of
parts, killed midway, by several processes at once, over files that cannot be read or written, on a full disk and while the folder
changes. Every report is held to what crpd-report prints of the table alone, and the list to one that is made here. Needs root for a
small disk, and Debian for GNU parallel. One line for each case; the last line is `N passed, M failed`."""
import collections
import concurrent.futures
import contextlib
import itertools
import os
import random
import re
import shlex
import shutil
import signal
import subprocess
import sys
import tempfile
import threading
import time

from cases.builds import (
    COUNT, DIFFERENT, all_there, as_expected, builds, found, laid, lay, listed, plain_progress, report_of, reports_there, small, some,
    worst,
)
from common import (
    COMMAND, SECONDS, Ended, build, contents, enlarged, environment, host, installed, must, obeying_modes, on_terminal, run, same, small_disk, spelled,
    status_of, tell, write,
)

OTHERS = [b"x.tables", b"x.TABLE", b"table", b"notes.txt", b"old.report", b"x.table~"]  # that are no tables
PART = re.compile(rb"\.crpd-%s-\d+-\d+\.part" % re.escape(host().encode()))  # a file that is written aside
PAGE = os.sysconf("SC_PAGE_SIZE")  # what the smallest file takes of a small disk


# any number of workers, any order


def different():
    """That the tables are worth the trouble."""
    reports = [build.report for build in builds().values()]
    must(len(set(reports)) > DIFFERENT / 3, "only %d reports differ", len(set(reports)))
    ends = collections.Counter(map(status_of, reports))
    must(min(ends[status] for status in (0, 1, 2)) > 100, "the statuses are %s", dict(ends))
    must(len(builds()) == COUNT, "%d builds", len(builds()))


def by_parts(count):
    """Processes that do a part each, all at once; their lists put together, in any order, are the list of one run."""
    with laid(builds()) as folder, tempfile.TemporaryDirectory() as other:
        whole = run("reports", folder)
        as_expected(folder, whole, builds())
        without_reports(folder)
        parts = [os.path.join(other, str(number)) for number in range(1, count + 1)]
        runs = [started(folder, "--part", "%d/%d" % (n, count), "-o", part) for n, part in enumerate(parts, 1)]
        printed = [process.communicate(timeout=SECONDS) for process in runs]
        same("what the parts print", [out for out, _ in printed], [b""] * count)
        numbers = [number_told(err) for _, err in printed]
        same("how many builds the parts have", (sum(numbers), max(numbers) - min(numbers) < 2), (COUNT, True))
        all_there(folder, builds())
        lists = [contents(part) for part in parts]
        same("the lines of the parts", sorted(b"".join(lists).splitlines()), sorted(whole.out.splitlines()))
        for files in parts, parts[::-1], random.Random(count).sample(parts, count):
            same("the list of the parts, and its status", run("lists", *files), Ended(whole.out, b"", worst(builds())))
        same("the list of the list", run("lists", "-", text=whole.out), Ended(whole.out, b"", worst(builds())))


def number_told(err):
    """How many builds a run had, as the last line of standard error tells it."""
    return int(re.match(rb"crpd: ([\d,]+) builds? in ", err.splitlines()[-1])[1].replace(b",", b""))


def more_parts():
    """Where there are more parts than builds some have none, and lists of nothing are lists."""
    made = small(3, 3)
    with laid(made) as folder:
        lists = [run("reports", "--part", "%d/5" % n, folder) for n in range(1, 6)]
        same("the lists", [ended.out.count(b"\n") for ended in lists], [1, 1, 1, 0, 0])
        files = [write(os.path.join(folder, "list-%d" % n), ended.out) for n, ended in enumerate(lists)]
        same("the list", run("lists", *files[::-1]).out, listed(made))


def no_lists():
    """What is no list is refused, with the line, and nothing is printed or written."""
    with tempfile.TemporaryDirectory() as folder:
        good = write(os.path.join(folder, "good"), b"x.table\tV\tyes\tyes\tyes\tyes\tyes\tyes\n")
        for text in b"x\n", b"x.table\tV\tyes\n\n", b"x.table\tW\n":
            bad = write(os.path.join(folder, "bad"), text)
            ended = run("lists", good, bad)
            same("the status and standard output", (ended.status, ended.out), (2, b""))
            must(b"bad: line " in ended.err, "it is told: %r", ended.err)
        same("the status of what is not there", run("lists", good, os.path.join(folder, "nosuch")).status, 4)


def jobs_told():
    """--jobs does nothing, which is told, with what took its place."""
    made = some(30)
    with laid(made) as folder:
        ended = run("reports", "--jobs", "7", folder)
        as_expected(folder, ended, made)
        must(ended.err.startswith(b"crpd: --jobs does nothing: ") and b"--part K/N" in ended.err, "it is told: %.200r", ended.err)
        must(b"--jobs does nothing" not in run("reports", folder).err, "it is told of --jobs where nobody gave it")


def unnamed():
    """A table whose name is no UTF-8 is a line of the list, as one that cannot be read; of another such name it is told that it cannot be looked into."""
    made = some(30)
    with laid(made) as folder:
        start = os.fsencode(folder)
        text = next(iter(made.values())).text
        for name in b"\xff.table", b"a/\xc3.table", b"\xff\xfe/x.table":
            os.makedirs(os.path.dirname(os.path.join(start, name)), exist_ok=True)
            write(os.path.join(start, name), text)
        ended = run("reports", folder)
        failed = dict.fromkeys((b"\xff.table", b"a/\xc3.table"), b"read")
        same("the list", ended.out, listed(made, failed))
        same("the status", ended.status, 4)
        for name in *failed, b"\xff\xfe":
            told(ended.err, re.escape(os.path.join(start, spelled(name))), b"read")
        all_there(folder, made, dict.fromkeys((b"\xff.table", b"a/\xc3.table", b"\xff\xfe/x.table"), text))


def in_another_order():
    order = list(builds())
    random.Random(1).shuffle(order)
    with laid(builds(), order) as folder, tempfile.TemporaryDirectory() as other:
        link = os.path.join(other, "link")
        os.symlink(folder, link)
        as_expected(folder, run("reports", link), builds())
        done = subprocess.run(["sort", "-c"], input=listed(builds()), env={**os.environ, "LC_ALL": "C"}, stderr=subprocess.PIPE)
        same("what sort says of the list", (done.returncode, done.stderr), (0, b""))


def kept_and_replaced():
    """Reports of another day are replaced, and what is no table stays as it is."""
    made = some(40)
    with laid(made) as folder:
        start = os.fsencode(folder)
        for name in itertools.islice(made, 20):
            write(os.path.join(start, report_of(name)), b"old" * 2000)
        for name in OTHERS:
            write(os.path.join(start, name), b"kept")
        ended = run("reports", "-j2", folder)
        same("the list", ended.out, listed(made))
        all_there(folder, made, {name: b"kept" for name in OTHERS})


def statuses():
    """Of the statuses of the builds the highest counts."""
    by_status = {status: next(item for item in builds().items() if status_of(item[1].report) == status) for status in (0, 1, 2)}
    for chosen in (), (0,), (1,), (2,), (0, 1), (1, 2), (0, 2), (0, 1, 2):
        made = dict(by_status[status] for status in chosen)
        with laid(made) as folder:
            as_expected(folder, run("reports", folder), made)
            os.symlink("nosuch", os.path.join(folder, "nosuch.table"))
            ended = run("reports", folder)
            same("the list and the status", (ended.out, ended.status), (listed(made, {b"nosuch.table": b"read"}), 4))


def spellings():
    """The folder by several names."""
    made = some(30)
    with laid(made) as folder:
        above, name = os.path.split(folder)
        os.makedirs(os.path.join(folder, "-j"), exist_ok=True)
        for place, args in (folder, ["."]), (folder, ["./"]), (above, [name]), (above, [name + "/"]), (folder, ["--", "-j/.."]):
            as_expected(folder, run("reports", *args, cwd=place), made)


def links():
    """A link to a file is a file; a link to a folder is not entered."""
    made = some(30)
    name, build = next(iter(made.items()))
    with laid(made) as folder, laid({b"other.table": build}) as other:
        for link, target in ("l.table", os.path.join(other, "other.table")), ("into", other), ("loop", "."), ("up", ".."):
            os.symlink(target, os.path.join(folder, link))
        ended = run("reports", folder)
        same("the list", ended.out, listed({**made, b"l.table": build}))
        all_there(folder, made, {b"l.table": None, b"l.report": build.report})
        same("what is in the other folder", list(found(other)), [b"other.table"])


def lists():
    """LIST in the folder itself, through a link, and one that cannot be written."""
    made = some(30)
    with laid(made) as folder:
        out = os.path.join(folder, "list")
        for _ in range(2):
            ended = run("reports", folder, "-o", out)
            same("standard output and the status", (ended.out, ended.status), (b"", worst(made)))
            all_there(folder, made, {b"list": listed(made)})
        write(out, b"old")
        os.symlink("list", os.path.join(folder, "link"))
        run("reports", folder, "-o", "link", cwd=folder)
        all_there(folder, made, {b"list": listed(made), b"link": None})
        for unfit in os.path.join(folder, "nosuch", "list"), folder:
            ended = run("reports", folder, "-o", unfit)
            same("standard output and the status", (ended.out, ended.status), (b"", 4))
            told(ended.err, re.escape(unfit.encode()), b"written")
        all_there(folder, made, {b"list": listed(made), b"link": None})


# killed, and several at once


def started(folder, *more):
    """A run in a group of its own."""
    streams = {"stdout": subprocess.PIPE, "stderr": subprocess.PIPE}
    return subprocess.Popen([*COMMAND, "reports", *more, folder], **streams, env=environment(), process_group=0)


def count_reports(folder):
    return sum(name.endswith(b".report") for _, _, names in os.walk(os.fsencode(folder)) for name in names)


def killed_at(folder, enough):
    """Kills a run once there are so many reports. Gives how many there are then, each of them whole."""
    process = started(folder, "--jobs", "1")
    until = time.monotonic() + SECONDS
    while process.poll() is None and count_reports(folder) < enough and time.monotonic() < until:
        pass
    with contextlib.suppress(ProcessLookupError):
        os.killpg(process.pid, signal.SIGKILL)
    process.communicate()
    half = [name for name in found(folder) if not name.endswith((b".table", b".report"))]
    same("what else is in the folder", [name for name in half if not PART.fullmatch(os.path.basename(name))], [])
    return len(reports_there(folder, builds()))


def without_reports(folder):
    start = os.fsencode(folder)
    for name in builds():
        with contextlib.suppress(FileNotFoundError):
            os.remove(os.path.join(start, report_of(name)))


def killed():
    with laid(builds()) as folder:
        counts = []
        for enough in 1, 1, 50, 200, 500, 900, 1400:
            without_reports(folder)
            counts.append(killed_at(folder, enough))
        must(sum(0 < count < COUNT for count in counts) >= 3, "too few were hit midway: there were %s reports", counts)
        as_expected(folder, run("reports", folder), builds())


def leftovers():
    """Those of a process of this host that is gone are removed, also where nobody has asked yet how it ended; those of one that runs,
    and of other hosts, are not."""
    made = some(40)
    gone, unasked = subprocess.Popen(["true"]), subprocess.Popen(["true"])
    gone.wait()
    os.waitid(os.P_PID, unasked.pid, os.WEXITED | os.WNOWAIT)
    removed = [".crpd-%s-%d-%d.part" % (host(), process.pid, n) for process in (gone, unasked) for n in (0, 1, 17)]
    kept = [".crpd-%s-%d-0.part" % (host(), os.getpid()), ".crpd-%s-of-others-%d-0.part" % (host(), gone.pid), ".crpd-notes", "x.part"]
    with laid(made) as folder:
        for place, name in itertools.product(("", "a/b"), removed + kept):
            write(os.path.join(folder, place, name), b"half")
        ended = run("reports", folder)
        same("the list", ended.out, listed(made))
        all_there(folder, made, {os.path.join(place, name).encode(): b"half" for place in ("", "a/b") for name in kept})
    unasked.wait()


def links_for_reports():
    """A link that stands where a report goes is replaced, and what it leads to stays."""
    made = some(40)
    with laid(made) as folder:
        for name, target in zip(made, itertools.cycle([None, b"nosuch", b"/dev/null"])):
            path = os.path.join(os.fsencode(folder), report_of(name))
            os.symlink(target or os.path.basename(name), path)
        as_expected(folder, run("reports", folder), made)


def told_in_order():
    """What is told of builds does not depend on the number of workers."""
    with laid(some(200)) as folder:
        errors = [run("reports", "--jobs", jobs, folder).err for jobs in ("1", "2", "7")]
    refusals = [re.sub(rb"crpd: [\d,]+ (of|builds) .*\n", b"", err) for err in errors]
    must(refusals[0].count(b"\ncrpd: ") > 10, "few refusals are told: %.300r", refusals[0])
    same("what is told by 2 and 7 workers", refusals[1:], refusals[:1] * 2)


def at_once():
    """Two processes over one folder; whenever one looks, each report that is there is whole."""
    with laid(builds()) as folder, concurrent.futures.ThreadPoolExecutor(2) as pool:
        runs = [started(folder, "-j", jobs) for jobs in ("1", "2")]
        printed = [pool.submit(process.communicate) for process in runs]
        looks = 0
        while not all(future.done() for future in printed):
            looks += 0 < len(reports_there(folder, builds())) < COUNT
        ended = [(future.result()[0], process.returncode) for future, process in zip(printed, runs)]
        same("the lists and statuses", ended, [(listed(builds()), worst(builds()))] * 2)
        all_there(folder, builds())
        must(looks > 0, "nobody looked while it ran")


# what cannot be read or written


def told(err, path, what):
    """That standard error says of a file, or of either one of a build, that it cannot be read or written."""
    words = rb"^crpd: %s: cannot be %s: .+$" % (path, what)
    must(re.search(words, err, re.M), "it is not told that %s cannot be %s: %.200r", path, what.decode(), err)


def of_build(folder, name):
    return re.escape(os.path.join(os.fsencode(folder), name[: -len(b"table")])) + rb"(table|report)"


LINKS = {b"dangling.table": b"nosuch", b"loop.table": b"loop.table", b"zero.table": b"/dev/zero", b"\x1b[31m\r.table": b"nosuch"}
LONG = b"n" * 249 + b".table"  # a report's name would be a letter too long
UNFIT = {  # tables by what becomes of them
    **dict.fromkeys((b"locked.table", b"pipe.table", *LINKS), b"read"),
    **dict.fromkeys((b"fixed/x.table", b"taken.table", LONG), b"write"),
}


def lay_unfit(folder, text):
    """Lays what cannot be read or written among the tables. Gives all files that were laid, as `found` gives them."""
    at = lambda name: os.path.join(os.fsencode(folder), name)
    for name in b"shut", b"fixed", b"taken.report":
        os.mkdir(at(name))
    tables = b"locked.table", b"shut/x.table", b"fixed/x.table", b"taken.table", LONG
    files = {**dict.fromkeys(tables, text), b"fixed/x.report": b"old"}
    for name, contained in files.items():
        write(at(name), contained)
    os.mkfifo(at(b"pipe.table"))
    for link, target in LINKS.items():
        os.symlink(target, at(link))
    return {**files, **dict.fromkeys((b"pipe.table", *LINKS))}


@contextlib.contextmanager
def modes(given):
    """Files and folders with other modes for a while."""
    for path, mode in given.items():
        os.chmod(path, mode)
    try:
        yield
    finally:
        for path in given:
            os.chmod(path, 0o755)


def unreadable():
    made = some(60)
    with laid(made) as folder:
        others = lay_unfit(folder, next(iter(made.values())).text)
        locked, shut, fixed = (os.path.join(folder, name) for name in ("locked.table", "shut", "fixed"))
        with modes({locked: 0, shut: 0, fixed: 0o555}):
            ended = run("reports", folder, before=obeying_modes())
        same("the list", ended.out, listed(made, UNFIT))
        same("the status", ended.status, 4)
        all_there(folder, made, others)
        for name, what in UNFIT.items():
            told(ended.err, of_build(folder, spelled(name)), {b"read": b"read", b"write": b"written"}[what])
        told(ended.err, re.escape(shut.encode()), b"read")
        same("how many are told", ended.err.count(b": cannot be "), len(UNFIT) + 1)
        plain_progress(ended.err, len(made) + len(UNFIT))


def no_folder():
    with tempfile.TemporaryDirectory() as folder:
        file = write(os.path.join(folder, "x.table"), b"")
        for path in os.path.join(folder, "nosuch"), file:
            ended = run("reports", path)
            same("standard output and the status", (ended.out, ended.status), (b"", 4))
            told(ended.err, re.escape(path.encode()), b"read")
        with modes({folder: 0}):
            ended = run("reports", folder, before=obeying_modes())
        same("standard output and the status", (ended.out, ended.status), (b"", 4))
        told(ended.err, re.escape(folder.encode()), b"read")


def full_disk():
    """Only some of the reports fit, and no list; with more room all is as expected."""
    made = small(200, 200)
    with small_disk((200 + 60) * PAGE) as folder:
        lay(folder, made)
        ended = run("reports", "-j2", folder)
        there = reports_there(folder, made)
        must(0 < len(there) < len(made), "%d of %d reports fit", len(there), len(made))
        failed = {name: b"write" for name in made if name not in there}
        same("the list", ended.out, listed(made, failed))
        same("the status", ended.status, 4)
        for name in failed:
            told(ended.err, of_build(folder, name), b"written")
        same("what else is in the folder", [name for name in found(folder) if not name.endswith((b".table", b".report"))], [])
        list_on_a_full_disk(folder, made)


def list_on_a_full_disk(folder, made):
    out = os.path.join(folder, "list")
    for before in None, b"":
        if before is not None:
            write(out, before)
        ended = run("reports", "-j2", "-o", out, folder)
        same("standard output and the status", (ended.out, ended.status), (b"", 4))
        told(ended.err, re.escape(out.encode()), b"written")
        reports_there(folder, made)
        rest = {name: text for name, text in found(folder).items() if not name.endswith((b".table", b".report"))}
        same("what else is in the folder", rest, {} if before is None else {b"list": before})
    enlarged(folder, 600 * PAGE)
    ended = run("reports", "-j2", "-o", out, folder)
    same("standard output and the status", (ended.out, ended.status), (b"", worst(made)))
    all_there(folder, made, {b"list": listed(made)})


# a folder that changes


def changes(folder, text, stop):
    """Adds, renames and removes tables and folders called `passing..` until it is stopped."""
    pick = random.Random(5)
    places = [os.path.join(folder, place) for place in ("", "a", "a/b", "passing")]
    while not stop.is_set():
        with contextlib.suppress(OSError):  # another change was quicker
            file = lambda: os.path.join(pick.choice(places), "passing-%d.table" % pick.randrange(40))
            kind = pick.randrange(6)
            if kind < 3:
                write(file(), text)
            elif kind == 3:
                os.rename(file(), file())
            elif kind == 4:
                os.remove(file())
            elif os.path.isdir(places[-1]):
                shutil.rmtree(places[-1])
            else:
                os.mkdir(places[-1])
        stop.wait(0.0002)


@contextlib.contextmanager
def changed_meanwhile(folder):
    """Changes the folder for a while, and has begun to when it gives way."""
    stop = threading.Event()
    changer = threading.Thread(target=changes, args=(folder, b"K\t4\t1\n", stop))
    changer.start()
    time.sleep(0.05)
    try:
        yield
    finally:
        stop.set()
        changer.join()


def without_passing(folder):
    for name in found(folder):
        if b"passing" in name:
            os.remove(os.path.join(os.fsencode(folder), name))


def changing():
    made = some(1200)
    unread = 0
    with laid(made) as folder:
        for jobs in "1", "2", "7", "2", "1":
            with changed_meanwhile(folder):
                ended = run("reports", "-j", jobs, folder)
            must(ended.status in (2, 4), "the status is %d", ended.status)
            rows = ended.out.splitlines(keepends=True)
            passed = [row for row in rows if b"passing" in row]
            same("the list, but for what passed", b"".join(row for row in rows if row not in passed), listed(made))
            must(passed, "nothing changed while it ran")
            unread += sum(row.endswith(b"\tF\tread\n") for row in passed)
            same("what was left aside", [name for name in found(folder) if name.endswith(b".part")], [])
            without_passing(folder)
            all_there(folder, made)
            without_reports(folder)
    must(unread > 0, "no table was gone when it was to be read")


# many files, GNU parallel, progress


def ten_thousand():
    made = small(10000, 7)
    with laid(made) as folder:
        ended = run("reports", "--jobs", "2", folder)
        same("the number of lines", ended.out.count(b"\n"), 10000)
        as_expected(folder, ended, made)


def on_a_terminal():
    """A bar is drawn again and again on one line, and at the end stands how many builds there were."""
    made = small(10000, 7)
    with laid(made) as folder:
        told, status = on_terminal("reports", "--jobs", "1", folder, stream="stderr")
        same("the status", status, worst(made))
        must(re.search(rb"[\r\x1b]", told), "nothing is drawn again: %.300r", told)
        lines = re.split(r"[\r\n]+", re.sub(r"\x1b\[[\d;?]*[a-zA-Z]", "", told.decode()).strip())
        bars = [line for line in lines if re.search(r"([#=█━▓■*-])\1\1", line)]
        must(bars, "there is no bar: %.300r", told)
        plain_progress(lines[-1].encode(), len(made))
        told, _ = on_terminal("reports", "--jobs", "1", folder, stream="stderr", TERM="dumb")
        plain_progress(told, len(made))


def long_bars():
    """A bar of very many things fits into 80 columns, too."""
    told, _ = on_terminal("evaluate", "--sets", "10000", "-o", os.devnull, stream="stderr", before=["timeout", "3"])
    bars = re.findall(r"\[[#.]+\][^\r\x1b]*", told.decode())
    must(bars, "there is no bar: %.300r", told)
    must(max(map(len, bars)) < 80, "a bar is wider than the terminal: %r", max(bars, key=len))



def told_meanwhile():
    """A run that takes some seconds, as it is stopped for a while, tells in plain lines how far it is."""
    made = small(10000, 7)
    with laid(made) as folder:
        process = started(folder, "--jobs", "1")
        while process.poll() is None and count_reports(folder) < 100:
            pass
        for pause, sent in (4.5, signal.SIGSTOP), (0, signal.SIGCONT):
            os.killpg(process.pid, sent)
            time.sleep(pause)
        out, err = process.communicate(timeout=SECONDS)
        same("the list and the status", (out, process.returncode), (listed(made), worst(made)))
        plain_progress(err, len(made))
        must(err.count(b"\n") >= 2, "nothing was told meanwhile: %.300r", err)


def by_parallel():
    """Parts by GNU parallel, as the pages show it, and the list of one run."""
    made = some(1200)
    with laid(made) as folder, tempfile.TemporaryDirectory() as other:
        parallel = [installed("parallel", "parallel"), "--will-cite", "-j", "3"]
        command = [*parallel, shlex.join(COMMAND), "reports", "--part", "{}/5", "-o", other + "/{}.list", folder, ":::", *"12345"]
        done = subprocess.run(command, stdin=subprocess.DEVNULL, stdout=subprocess.PIPE, stderr=subprocess.PIPE, timeout=SECONDS)
        same("what is printed", done.stdout, b"")
        ended = run("lists", *(os.path.join(other, name) for name in os.listdir(other)))
        same("the list", ended, Ended(listed(made), b"", worst(made)))
        all_there(folder, made)


def main():
    build()
    return tell([
        ("%d tables, and what crpd-report prints of each" % COUNT, different),
        *[("%d tables in %d parts at once, and their lists put together" % (COUNT, count), lambda count=count: by_parts(count)) for count in (1, 2, 7)],
        ("more parts than builds", more_parts),
        ("what is no list", no_lists),
        ("--jobs", jobs_told),
        ("names that are no UTF-8", unnamed),
        ("the files made in another order, below a link", in_another_order),
        ("reports of another day, and other files", kept_and_replaced),
        ("statuses", statuses),
        ("a folder by several names", spellings),
        ("links to files and folders", links),
        ("the list in a file", lists),
        ("killed midway, and run again", killed),
        ("leftovers", leftovers),
        ("links where reports go", links_for_reports),
        ("refusals told in the order of the names", told_in_order),
        ("two processes over one folder at once", at_once),
        ("files that cannot be read or written", unreadable),
        ("folders that cannot be read", no_folder),
        ("a full disk", full_disk),
        ("a folder that changes meanwhile", changing),
        ("ten thousand files in one folder", ten_thousand),
        ("progress on a terminal", on_a_terminal),
        ("progress of very many things on a terminal", long_bars),
        ("progress elsewhere", told_meanwhile),
        ("GNU parallel with three workers", by_parallel),
    ], at_once=1)


if __name__ == "__main__":
    sys.exit(main())
