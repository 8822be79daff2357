"""Streams that are closed, full, endless, slow or not there, and files that cannot be read."""
import os
import shlex
import subprocess
import time

from cases.asking import CONTROLLER, FIGURE, REFUSED, fine, fresh, fresh_folder, unwanted
from common import COMMAND, Ended, contents, must, obeying_modes, printed, run, same

PRINTING = [  # with the status that they end with
    (["report", CONTROLLER], 1), (["report", FIGURE], 0), (["answer", "1", "log", CONTROLLER], 1),
    (["explain", "4", "log", CONTROLLER], 0), (["explain", "--words", "1", "log", CONTROLLER], 1), (["growth", "1", CONTROLLER], 1),
    (["scaled", "5", CONTROLLER], 0), (["show", CONTROLLER], 1), (["plot", CONTROLLER, "-o", "-"], 1), (["help"], 0),
    (["help", "plot"], 0), (["--version"], 0), (["show", "--help"], 0),
]
READING = "report", "answer 0 a", "explain 0 a", "growth 0", "scaled 0", "show", "plot -o -"
TOO_LONG = Ended(b"E\t1\t0\n", b"crpd: standard input: the text is longer than 16,384 bytes (1)\n", 2)


def without(stream, *args, text=b""):
    """How it ends where it has no such stream."""
    closes = {"input": "<&-", "output": ">&-", "error": "2>&-"}[stream]
    return run(*args, text=text, before=["sh", "-c", 'exec "$@" ' + closes, "sh"])


def unread(*args, text=b""):
    """How it ends where nobody reads its standard output."""
    reads, writes = os.pipe()
    os.close(reads)
    try:
        return run(*args, text=text, stdout=writes)
    finally:
        os.close(writes)


def onto(device, *args, text=b"", stream="stdout"):
    with open(device, "wb") as file:
        return run(*args, text=text, **{stream: file})


def pipes_unread():
    for args, status in PRINTING:
        same("the end of crpd " + shlex.join(args), unread(*args), Ended(None, b"", status))
    same("the status of a refused report", unread("report", text=REFUSED).status, 2)
    folder = os.path.dirname(fresh(contents(CONTROLLER)))
    ended = unread("reports", folder)
    same("the status of the pool", ended.status, 1)
    must(b"cannot be" not in ended.err, "it is told: %r", ended.err)
    same("the report", contents(os.path.join(folder, "x.report")), printed(contents(CONTROLLER)))


def no_room():
    for args, _ in PRINTING:
        for ended in onto("/dev/full", *args), without("output", *args):
            same("the status of crpd " + shlex.join(args), ended.status, 4)
            must(ended.err.startswith(b"crpd: ") and ended.err.count(b"\n") == 1, "crpd %s tells %r", shlex.join(args), ended.err)
    folder = os.path.dirname(fresh(contents(CONTROLLER)))
    for ended in onto("/dev/full", "reports", folder), without("output", "reports", folder):
        same("the status of the pool", ended.status, 4)
        must(b"cannot be written" in ended.err, "the pool tells %r", ended.err)


def unneeded():
    """A stream that there is nothing to read from or to write to may be missing."""
    out = os.path.join(fresh_folder(), "x.svg")
    fine(without("input", "report", CONTROLLER), printed(contents(CONTROLLER)), 1)
    for way, where in (without, "output"), (onto, "/dev/full"):
        ended = way(where, "plot", CONTROLLER, "-o", out)
        same("standard error and the status", (ended.err, ended.status), (b"", 1))
        same("the picture", contents(out), run("plot", CONTROLLER, "-o", "-").out)
        os.remove(out)
    folder = os.path.dirname(fresh(contents(CONTROLLER)))
    same("the status of the pool", without("output", "reports", folder, "-o", out).status, 1)
    same("the list", contents(out), b"x.table\tV\tyes\tno\tno\tyes\tyes\tyes\n")


def silenced():
    """Where standard error takes nothing the status is what it would be."""
    folder = os.path.dirname(fresh(contents(CONTROLLER)))
    for args, text, status in (
        (["growth", "6"], b"", 3),
        (["report"], REFUSED, 2),
        (["report", "/nosuch"], b"", 4),
        (["reports", folder], b"", 1),
    ):
        for ended in onto("/dev/full", *args, text=text, stream="stderr"), without("error", *args, text=text):
            same("the status of crpd " + shlex.join(args), ended.status, status)
    same("the report", contents(os.path.join(folder, "x.report")), printed(contents(CONTROLLER)))


def unreadable():
    for line in READING:
        unwanted(without("input", *line.split()), 4)
        unwanted(without("input", *line.split(), "-"), 4)
        unwanted(run(*line.split(), fresh_folder()), 4)
        unwanted(run(*line.split(), os.path.join(fresh_folder(), "nosuch.table")), 4)
    folder = os.open(fresh_folder(), os.O_RDONLY)
    try:
        unwanted(run("report", stdin=folder), 4)
    finally:
        os.close(folder)
    locked = fresh(contents(CONTROLLER))
    os.chmod(locked, 0)
    unwanted(run("report", locked, before=obeying_modes()), 4)
    told = run("report", "/nosuch/x.table").err
    must(b"/nosuch/x.table" in told and told.count(b"\n") == 1, "of a file that is not there is told %r", told)


def endless():
    """A text that is too long is not read to its end."""
    expected = TOO_LONG._replace(err=TOO_LONG.err.replace(b"standard input", b"/dev/zero"))
    same("the end", run("report", "/dev/zero", seconds=20), expected)
    reads, writes = os.pipe()
    os.write(writes, b"x" * 16385)  # and it stays open
    try:
        same("the end", run("report", stdin=reads, seconds=20), TOO_LONG)
    finally:
        os.close(reads)
        os.close(writes)


def slowly():
    """A table in parts."""
    text = contents(CONTROLLER)
    with subprocess.Popen([*COMMAND, "report"], stdin=subprocess.PIPE, stdout=subprocess.PIPE, bufsize=0) as process:
        for at in range(0, len(text), 7):
            process.stdin.write(text[at : at + 7])
            time.sleep(0.005)
        process.stdin.close()
        same("the report", process.stdout.read(), printed(text))


def cases():
    return [
        ("pipes that nobody reads", pipes_unread),
        ("no room, and no standard output", no_room),
        ("streams that are not needed", unneeded),
        ("no standard error", silenced),
        ("what cannot be read", unreadable),
        ("an endless text", endless),
        ("a table in parts, slowly", slowly),
    ]
