"""How tests/command.py asks the command: the tables, files for them, and what an end must be."""
import collections
import itertools
import os
import re
import tempfile

from common import contents, examples, must, run, same, write

EXAMPLE = {os.path.basename(path): path for path in examples()}
CONTROLLER, FIGURE = EXAMPLE["controller.table"], EXAMPLE["figure-3.table"]
SHARED, TWO = EXAMPLE["shared-bus.table"], EXAMPLE["two-solutions.table"]
LATER = b"K\t4\t0\nT\ta\t2\t5\t5\t1\t0\t0\t0\nT\tb\t3\t8\t6\t0\t0\t0\t0\n"  # b needs 7 and has 6
BEYOND = b"K\t4\t0\nT\ta\t10\t10\t10\t0\t0\t0\t0\nT\tb\t5\t100\t100\t0\t0\t0\t0\n"  # a leaves nothing for b
HOPELESS = b"K\t4\t1\nT\ta\t1\t20\t20\t0\t0\t0\t0\nT\tb\t1\t40\t40\t0\t0\t0\t0\nA\tb\ta\t30\t0\n"  # no smaller C helps
REFUSED = b"K\t4\t1\nT\ta\t1\t20\t30\t0\t0\t0\tf\n"
SCRATCH = tempfile.TemporaryDirectory()
COUNTED = itertools.count()

Task = collections.namedtuple("Task", "name c t d j b")


def tables():
    """Tables by names: the examples, and some in which tasks are late."""
    more = {"later": LATER, "beyond": BEYOND, "hopeless": HOPELESS}
    return {**{name: contents(path) for name, path in EXAMPLE.items()}, **more}


def tasks(text):
    lines = [line.split("\t") for line in text.decode().splitlines()]
    return [Task(fields[1], *map(int, fields[2:7])) for fields in lines if fields[0] == "T"]


def responses(report):
    """Of each task of a report its limit and its responses, as they are spelled."""
    return [line.split("\t")[2:] for line in report.decode().splitlines() if line.startswith("R")]


def verdicts(report):
    return report.decode().splitlines()[-1].split("\t")[1:]


def fresh_folder():
    folder = os.path.join(SCRATCH.name, str(next(COUNTED)))
    os.mkdir(folder)
    return folder


def fresh(text, name="x.table"):
    """A file in a folder of its own."""
    return os.fsdecode(write(os.path.join(os.fsencode(fresh_folder()), os.fsencode(name)), text))


def given(text, turn):
    """FILE for a text, and what goes to standard input: in turn a file's name, `-` and nothing."""
    return [((fresh(text),), b""), (("-",), text), ((), text)][turn % 3]


def ask(turn, text, *args):
    file, text = given(text, turn)
    return run(*args, *file, text=text)


def fine(ended, out, status, what="what is printed"):
    """Given: that, and nothing on standard error."""
    same(what, ended.out, out)
    same("standard error", ended.err, b"")
    same("the status", ended.status, status)


def unwanted(ended, status):
    """Not given: nothing on standard output, and something on standard error."""
    same("the status", ended.status, status)
    same("standard output", ended.out, b"")
    must(ended.err.startswith(b"crpd: ") and ended.err.endswith(b"\n"), "standard error is %.300r", ended.err)
    must(not re.search(rb"[\x00-\x08\x0b-\x1f\x7f]", ended.err), "standard error has control characters: %.300r", ended.err)


def wrong_use(args, text=b""):
    ended = run(*args, text=text)
    unwanted(ended, 3)
    return ended


def alone(path, *others):
    """That a file's folder has it and those others, and nothing else."""
    same("what is in the folder", sorted(os.listdir(os.path.dirname(path))), sorted([os.path.basename(path), *others]))
