"""What the command tells of itself: its help, the examples in it, and the version."""
import itertools
import os
import re
import shlex
import subprocess

from cases.asking import CONTROLLER, EXAMPLE, fine, fresh_folder
from common import BUILDING, COMMAND, contents, environment, must, run, same, write

NAMES = ["report", "answer", "explain", "growth", "scaled", "check", "edf", "replay", "show", "plot", "dossier", "reports", "lists", "changes", "evaluate"]


def helped():
    overview = run("help")
    fine(overview, overview.out, 0)
    for name in NAMES + ["help"]:
        must(re.search(r"^\s*crpd %s\b" % name, overview.out.decode(), re.M), "help has no crpd %s", name)
        ended = run("help", name)
        fine(ended, ended.out, 0)
        must(re.search(r"^\W*crpd %s\b" % name, ended.out.decode(), re.M), "help %s has no example", name)
    for option in "--help", "-h":
        same("crpd " + option, run(option), overview)
    same("help among other arguments", run("answer", "0", "--help", CONTROLLER), run("help", "answer"))


def by_options(names):
    for name, option in itertools.product(names, ("--help", "-h")):
        same("crpd %s %s" % (name, option), run(name, option), run("help", name))


def shown_examples():
    """The command lines that help shows, but for those that need other hosts, each with the lines that it says are printed; what stands
    in brackets is a remark."""
    for name in NAMES:
        lines = run("help", name).out.decode().splitlines()
        for at, line in enumerate(lines):
            match = re.fullmatch(r"\s+\$ (.*)", line)
            if match and " -S " not in line:
                after = itertools.takewhile(lambda line: not re.match(r"\s+\$ |\S", line), lines[at + 1 :])
                yield match[1], [line.split() for line in after if line.strip() and not line.strip().startswith("(")]


def like_the_repository():
    """A folder with the examples, a folder of builds and a program crpd."""
    folder = fresh_folder()
    for name in "examples", "builds", "path":
        os.mkdir(os.path.join(folder, name))
    for name, (table, path) in itertools.product(("examples", "builds"), EXAMPLE.items()):
        write(os.path.join(folder, name, table), contents(path))
    program = write(os.path.join(folder, "path", "crpd"), b'#!/bin/sh\nexec %s "$@"\n' % shlex.join(COMMAND).encode())
    os.chmod(program, 0o755)
    return folder


def examples_run():
    """Each ends well, and what help says is printed is printed, but for the blanks."""
    folder = like_the_repository()
    there = {"cwd": folder, "env": environment(PATH="%s/path:%s" % (folder, os.environ["PATH"])), "stdin": subprocess.DEVNULL}
    found = list(shown_examples())
    for line, shown in found:
        done = subprocess.run(["sh", "-c", line], stdout=subprocess.PIPE, stderr=subprocess.PIPE, timeout=BUILDING, **there)
        must(done.returncode in (0, 1), "%s: status %d, %.200r", line, done.returncode, done.stderr)
        rows = [row.split() for row in done.stdout.decode().splitlines()]
        same("what %s does not print, though help says so" % line, [row for row in shown if row not in rows], [])
    without = [name for name in NAMES if not any(line.startswith("crpd %s " % name) for line, _ in found)]
    same("commands without an example", without, [])


def version():
    rt = os.path.join(os.environ["RATTLE_HOME"], "bin", "rt") if "RATTLE_HOME" in os.environ else "rt"
    toolchain = subprocess.run([rt, "version"], stdout=subprocess.PIPE, check=True, timeout=60).stdout.decode().strip()
    told = run("--version")
    fine(told, told.out, 0)
    first, second = told.out.decode().splitlines()
    must(re.fullmatch(r"crpd \d+\.\d+\.\d+", first), "the version is %r", first)
    same("what it was proved with", second, "proved with " + toolchain)


def cases():
    return [
        ("help", helped),
        ("help by options", lambda: by_options(NAMES)),
        ("help on help by options", lambda: by_options(["help"])),
        ("the examples of help", examples_run),
        ("--version", version),
    ]
