#!/usr/bin/env python3
"""program.py [COMMAND..]: runs crpd-report, or another command that is to do the same, on inputs and outputs of every kind, and compares
what it prints with what it must print. One line for each case; the last line is `N passed, M failed`."""
import os
import signal
import subprocess
import sys
import tempfile
import threading
import time

HERE = os.path.dirname(os.path.abspath(__file__))
COMMAND = sys.argv[1:] or [os.path.join(HERE, "..", "bin", "crpd-report")]
SECONDS = 60  # that a case may take
MOST = 65536  # bytes of an output that are looked at

TABLE = (
    b"K\t4\t1\n"
    b"T\ta\t1\t20\t20\t0\t0\t0\tf\n"
    b"T\tb\t2\t40\t40\t0\t0\t3\tf\n"
    b"T\tc\t2\t60\t60\t0\t0\tc\tf\n"
)
REPORT = (
    b"R\ta\t20\t1\t1\t1\t1\t1\t1\n"
    b"R\tb\t40\t3\t7\t5\t5\t5\t5\n"
    b"R\tc\t60\t5\t13\t9\t11\t9\t9\n"
    b"V\tyes\tyes\tyes\tyes\tyes\tyes\n"
)
LATE = b"K\t4\t0\nT\ta\t5\t10\t10\t0\t0\t0\t0\nT\tb\t6\t12\t12\t0\t0\t0\t0\n"
LATE_REPORT = b"R\ta\t10\t5\t5\t5\t5\t5\t5\nR\tb\t12\t-\t-\t-\t-\t-\t-\nV\tno\tno\tno\tno\tno\tno\n"
TOO_LONG = b"E\t1\t0\n"
NO_END = b"E\t2\t0\n"
UNREAD = b"crpd-report: cannot read standard input\n"
UNWRITTEN = b"crpd-report: cannot write standard output\n"


def run(feed=None, seconds=SECONDS, stdin=subprocess.PIPE, stdout=subprocess.PIPE, **more):
    """What the program wrote to its output and to standard error, and how it ended. `feed(process)` writes to its input meanwhile."""
    process = subprocess.Popen(COMMAND, stdin=stdin, stdout=stdout, stderr=subprocess.PIPE, bufsize=0, **more)

    def feeds():
        try:
            feed(process)
        except OSError:
            pass  # the program has stopped reading

    if feed:
        threading.Thread(target=feeds, daemon=True).start()
    watch = threading.Timer(seconds, process.kill)
    watch.start()
    out = collected(process, process.stdout)
    err = collected(process, process.stderr)
    status = process.wait()
    watch.cancel()
    return out, err, status


def collected(process, pipe):
    """All that comes through a pipe; one that gives too much is cut, and its process ended."""
    text = b""
    while pipe:
        part = pipe.read(MOST)
        text += part
        if not part:
            break
        if MOST < len(text):
            process.kill()
            break
    return text


def whole(text, stays_open=False):
    def feed(process):
        process.stdin.write(text)
        if not stays_open:
            process.stdin.close()

    return feed


def in_parts(sizes, pause, between=lambda process: None):
    """The table in parts, with a pause after each."""

    def feed(process):
        at = 0
        while at < len(TABLE):
            size = sizes[at % len(sizes)]
            process.stdin.write(TABLE[at : at + size])
            at += size
            time.sleep(pause)
            between(process)
        process.stdin.close()

    return feed


def stopped_and_continued(process):
    process.send_signal(signal.SIGSTOP)
    time.sleep(0.02)
    process.send_signal(signal.SIGCONT)


def without_end(process):
    while True:
        process.stdin.write(b"T" * 4096)


def from_file():
    with tempfile.TemporaryFile() as file:
        file.write(TABLE)
        file.seek(0)
        return run(stdin=file)


def reading(path):
    fd = os.open(path, os.O_RDONLY)
    try:
        return run(stdin=fd)
    finally:
        os.close(fd)


def writing(fd, **more):
    try:
        return run(whole(TABLE), stdout=fd, **more)
    finally:
        os.close(fd)


def unread_pipe(**more):
    """Nobody reads the output."""
    reads, writes = os.pipe()
    os.close(reads)
    return writing(writes, **more)


def ignored():
    signal.signal(signal.SIGPIPE, signal.SIG_IGN)


FINE, SOME_UNSCHEDULABLE, REFUSED, FAILED = (0,), (1,), (2,), (4,)
ENDED = (-signal.SIGPIPE, 128 + signal.SIGPIPE)
CASES = [
    ("a table from a file", from_file, REPORT, b"", FINE),
    ("a table from a pipe", lambda: run(whole(TABLE)), REPORT, b"", FINE),
    ("a table byte by byte", lambda: run(in_parts([1], 0.002)), REPORT, b"", FINE),
    ("a table in uneven parts, slowly", lambda: run(in_parts([7, 1, 13, 2, 29], 0.05)), REPORT, b"", FINE),
    ("a process that is stopped and continued", lambda: run(in_parts([17], 0.02, stopped_and_continued)), REPORT, b"", FINE),
    ("a table in which a task has no response", lambda: run(whole(LATE)), LATE_REPORT, b"", SOME_UNSCHEDULABLE),
    ("no input", lambda: run(whole(b"")), NO_END, b"", REFUSED),
    ("an empty device as input", lambda: reading("/dev/null"), NO_END, b"", REFUSED),
    ("a table whose last line is not ended", lambda: run(whole(TABLE[:-1])), NO_END, b"", REFUSED),
    ("16,384 bytes", lambda: run(whole(b"x" * 16384)), NO_END, b"", REFUSED),
    ("16,385 bytes", lambda: run(whole(b"x" * 16384 + b"\n")), TOO_LONG, b"", REFUSED),
    ("16,385 bytes, and the pipe stays open", lambda: run(whole(b"x" * 16385, stays_open=True)), TOO_LONG, b"", REFUSED),
    ("an endless pipe", lambda: run(without_end), TOO_LONG, b"", REFUSED),
    ("an endless device as input", lambda: reading("/dev/zero"), TOO_LONG, b"", REFUSED),
    ("a directory as input", lambda: reading("/"), b"", UNREAD, FAILED),
    ("no standard input", lambda: run(preexec_fn=lambda: os.close(0)), b"", UNREAD, FAILED),
    ("no standard output", lambda: run(whole(TABLE), stdout=None, preexec_fn=lambda: os.close(1)), b"", UNWRITTEN, FAILED),
    ("a full device as output", lambda: writing(os.open("/dev/full", os.O_WRONLY)), b"", UNWRITTEN, FAILED),
    ("a pipe that nobody reads, SIGPIPE ignored", lambda: unread_pipe(restore_signals=False, preexec_fn=ignored), b"", UNWRITTEN, FAILED),
    ("a pipe that nobody reads", unread_pipe, b"", b"", ENDED),
]


def main():
    run(whole(b""), seconds=3600)  # where the program is still to be built, this builds it
    failed = 0
    for name, case, out, err, ends in CASES:
        got = case()
        good = got[:2] == (out, err) and got[2] in ends
        failed += not good
        print("%s: %s" % ("ok" if good else "FAILED", name), flush=True)
        if not good:
            print("    printed %.200r and %.200r, must print %r and %r; its status was %d" % (got[:2] + (out, err) + got[2:]))
    print("%d passed, %d failed" % (len(CASES) - failed, failed))
    return 1 if failed else 0


if __name__ == "__main__":
    sys.exit(main())
