"""The command show as a program of its own, which bin/crpd runs until the whole program is there: it does what crpd show does."""
import functools
import os

from cases.asking import CONTROLLER, REFUSED, fresh, tables
from common import ROOT, run, same

PROGRAM = os.path.join(ROOT, "crates", "crpd_show", "out", "crpd_show")


def as_crpd_show(args, text=b"", **more):
    same("how it ends", run(*args, text=text, command=[PROGRAM], **more), run("show", *args, text=text, **more))


def missing():
    as_crpd_show([os.path.join(os.path.dirname(fresh(REFUSED)), "no.table")])
    as_crpd_show([os.path.dirname(CONTROLLER)])
    as_crpd_show([os.fsencode(os.path.dirname(CONTROLLER)) + b"/\xff.table"])


def full():
    with open("/dev/full", "wb") as out:
        as_crpd_show([CONTROLLER], stdout=out)


def cases():
    for name, text in sorted({**tables(), "refused": REFUSED, "empty": b"", "long": b"K" * 20000}.items()):
        yield "show alone: %s" % name, functools.partial(as_crpd_show, [fresh(text)])
        yield "show alone: %s, on standard input" % name, functools.partial(as_crpd_show, [], text)
    for args in ["--help"], ["-h", CONTROLLER], ["-x"], ["--", CONTROLLER], ["-", "-"], [CONTROLLER, CONTROLLER], ["-o", "x"], [b"\xff\x1b[1m"]:
        yield "show alone: %r" % args, functools.partial(as_crpd_show, args)
    yield "show alone: what cannot be read", missing
    yield "show alone: nothing can be written", full
