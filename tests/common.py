"""What tests/command.py and tests/pool.py share: runs of the command and of crpd-report, cases and how they are told, names as the
command spells them, a terminal, a small disk, and Debian's packages."""
import collections
import concurrent.futures
import contextlib
import fcntl
import glob
import os
import platform
import pty
import re
import shutil
import struct
import subprocess
import sys
import tempfile
import termios
import threading

ROOT = os.path.dirname(os.path.dirname(os.path.abspath(__file__)))
COMMAND = [os.path.abspath(part) if os.path.exists(part) else part for part in sys.argv[1:]] or [os.path.join(ROOT, "bin", "crpd")]
SECONDS = 120  # that a run may take
BUILDING = 3600  # that the first run may take, where a program is still to be built
AT_ONCE = 2  # processes
METHODS = ["none", "ecb-only", "ucb-only", "ucb-union", "ecb-union", "combined"]

Ended = collections.namedtuple("Ended", "out err status")


# cases


class Wrong(Exception):
    """What a case found to be wrong."""


def must(right, words, *details):
    if not right:
        raise Wrong(words % details)


def same(what, got, expected):
    """Fails with the place where the two part."""
    if got == expected:
        return
    if isinstance(got, bytes) and isinstance(expected, bytes):
        at = len(os.path.commonprefix([got, expected]))
        start = max(0, at - 80)
        raise Wrong("%s differs from byte %d on: it has %.300r, must have %.300r" % (what, at, got[start:], expected[start:]))
    raise Wrong("%s is %.400r, must be %.400r" % (what, got, expected))


def outcome(case):
    """What was wrong, or nothing."""
    try:
        case()
    except Wrong as wrong:
        return str(wrong)
    except Exception as error:  # a case that cannot be ended is a failed one
        return "%s: %s" % (type(error).__name__, error)
    return ""


def tell(cases, at_once=AT_ONCE):
    """Runs cases, each a name and a function, and tells how each went. Gives the exit status."""
    failed = 0
    with concurrent.futures.ThreadPoolExecutor(at_once) as pool:
        for (name, _), wrong in zip(cases, pool.map(outcome, [case for _, case in cases])):
            failed += bool(wrong)
            print("%s: %s" % ("FAILED" if wrong else "ok", name), flush=True)
            if wrong:
                print("    %s" % wrong, flush=True)
    print("%d passed, %d failed" % (len(cases) - failed, failed))
    return 1 if failed else 0


# runs


def environment(**more):
    """That of this process, without what people set to have colours or none."""
    unset = ("NO_COLOR", "CLICOLOR", "CLICOLOR_FORCE", "FORCE_COLOR")
    kept = {name: value for name, value in os.environ.items() if name not in unset}
    return {**kept, "TERM": "xterm-256color", **more}


def run(*args, text=b"", before=(), seconds=SECONDS, command=None, **more):
    """How the command ended, or another one, with a text as its standard input unless another one is given."""
    given = {} if "stdin" in more else {"input": text}
    streams = {"stdout": subprocess.PIPE, "stderr": subprocess.PIPE, "env": environment(), **given, **more}
    done = subprocess.run([*before, *(command or COMMAND), *args], timeout=seconds, **streams)
    return Ended(done.stdout, done.stderr, done.returncode)


def reporter():
    """What prints a report: the program itself where this machine can start it, which saves its script's time."""
    program = os.path.join(ROOT, "crates", "crpd_report", "out", "crpd_report")
    direct = platform.machine() == "x86_64" and os.access(program, os.X_OK)
    return [program] if direct else [os.path.join(ROOT, "bin", "crpd-report")]


def printed(text, command=None, seconds=SECONDS):
    """What crpd-report prints of a text, with the status that goes with it."""
    done = subprocess.run(command or reporter(), input=text, stdout=subprocess.PIPE, timeout=seconds)
    same("the status of crpd-report", done.returncode, status_of(done.stdout))
    return done.stdout


def all_printed(texts):
    """What crpd-report prints of each text."""
    different = list(set(texts))
    with concurrent.futures.ThreadPoolExecutor(AT_ONCE) as pool:
        known = dict(zip(different, pool.map(printed, different)))
    return [known[text] for text in texts]


def build():
    """Where the programs are still to be built, this builds them."""
    printed(b"", [os.path.join(ROOT, "bin", "crpd-report")], BUILDING)
    run("--version", seconds=BUILDING)
    if not os.path.exists(os.path.join(ROOT, "crates", "crpd_show", "out", "crpd_show.stamp")):
        subprocess.run([os.path.join(ROOT, "tools", "prove.sh"), "crpd_show", "rt", "run", "--", "--help"], stdout=subprocess.DEVNULL, timeout=BUILDING, check=True)


def status_of(report):
    """The exit status that goes with what crpd-report printed."""
    if report.startswith(b"E"):
        return 2
    return int(any(b"-" in line.split(b"\t")[3:] for line in report.splitlines()))


def obeying_modes():
    """What stands before a command for which file modes are to count even where root runs it."""
    if os.geteuid():
        return []
    lost = "-dac_override,-dac_read_search"
    return ["setpriv", "--bounding-set=" + lost, "--inh-caps=" + lost]


def host():
    """The name of this machine, as the command spells it in the names of files that it writes aside."""
    return re.sub("[^A-Za-z0-9.]", "_", os.uname().nodename)


def on_terminal(*args, stream="stdout", columns=80, before=(), **more):
    """What the command writes to one of its streams where that is a terminal, and its exit status."""
    ours, theirs = pty.openpty()
    fcntl.ioctl(theirs, termios.TIOCSWINSZ, struct.pack("HHHH", 24, columns, 0, 0))
    streams = {**dict.fromkeys(("stdin", "stdout", "stderr"), subprocess.DEVNULL), stream: theirs}
    process = subprocess.Popen([*before, *COMMAND, *args], **streams, env=environment(**more))
    os.close(theirs)
    text = b""
    with contextlib.suppress(OSError):  # the end of a terminal is an error
        while part := os.read(ours, 65536):
            text += part
    os.close(ours)
    return text.replace(b"\r\n", b"\n"), process.wait(SECONDS)


# files


def examples():
    """The example tables by their paths."""
    return {name: contents(name) for name in sorted(glob.glob(os.path.join(ROOT, "examples", "*.table")))}


def contents(path):
    with open(path, "rb") as file:
        return file.read()


def write(path, text):
    with open(path, "wb") as file:
        file.write(text)
    return path


def spelled(name):
    """A name, as bytes, as the list has it: one field of plain characters."""
    plain = {"\t": "\\t", "\n": "\\n", "\\": "\\\\"}

    def one(character):
        code = ord(character)
        if character in plain:
            return plain[character]
        if 0xDC80 <= code <= 0xDCFF:  # Python's place for a byte that is no UTF-8
            return "\\x%02x" % (code - 0xDC00)
        return "\\x%02x" % code if code < 32 or code == 127 else character

    return "".join(map(one, name.decode("utf-8", "surrogateescape"))).encode()


@contextlib.contextmanager
def small_disk(size):
    """A folder that has room for so many bytes."""
    with tempfile.TemporaryDirectory() as folder:
        mounts("mount", "-t", "tmpfs", "-o", "size=%d,mode=755" % size, "tmpfs", folder)
        try:
            yield folder
        finally:
            mounts("umount", folder)


def enlarged(folder, size):
    mounts("mount", "-o", "remount,size=%d" % size, folder)


def mounts(*command):
    done = subprocess.run(command, stdout=subprocess.DEVNULL, stderr=subprocess.PIPE)
    said = done.stderr.decode(errors="replace").strip()
    must(done.returncode == 0, "a small disk is needed, which root alone may mount: %s: %s", " ".join(command), said)


INSTALLING = threading.Lock()  # for cases that run at the same time


def installed(program, package):
    """A program of one of Debian's packages, which is installed where it is missing."""
    with INSTALLING:
        if not shutil.which(program):
            install(package)
    return program


def install(package):
    print("installing %s" % package, file=sys.stderr)
    quiet = {"stdin": subprocess.DEVNULL, "stdout": subprocess.PIPE, "stderr": subprocess.STDOUT}
    for step in ["update", "-qq"], ["install", "-y", "-qq", "--no-install-recommends", package]:
        command = ["apt-get", "-o", "DPkg::Lock::Timeout=300", *step]  # another process may be installing, too
        done = subprocess.run(command, env={**os.environ, "DEBIAN_FRONTEND": "noninteractive"}, **quiet)
        must(done.returncode == 0, "cannot install %s: %s", package, done.stdout.decode(errors="replace")[-500:])
