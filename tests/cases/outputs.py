"""Pictures as files: where they are written, what stays where that fails, how a renderer draws them, and the evaluation's."""
import contextlib
import os
import re
import stat
import tempfile
import threading

from cases import pictures
from cases.asking import CONTROLLER, FIGURE, REFUSED, SHARED, alone, fine, fresh_folder, unwanted
from common import BUILDING, ROOT, contents, must, obeying_modes, run, same, small_disk, write


def pictured(table=CONTROLLER):
    return run("plot", table, "-o", "-").out


def into_files():
    out = os.path.join(fresh_folder(), "x.svg")
    for table, status in (CONTROLLER, 1), (CONTROLLER, 1), (FIGURE, 0):
        fine(run("plot", table, "-o", out), b"", status)
        same("the picture", contents(out), pictured(table))
        alone(out)
    folder = os.path.dirname(out)
    fine(run("plot", FIGURE, "-o", "y.svg", cwd=folder), b"", 0)
    fine(run("plot", FIGURE, "-o", "../%s/z.svg" % os.path.basename(folder), cwd=folder), b"", 0)
    alone(out, "y.svg", "z.svg")


def as_it_was():
    """What stands under OUT stays where the table is refused or the picture cannot be written."""
    out = os.path.join(fresh_folder(), "x.svg")
    unwanted(run("plot", "-o", out, text=REFUSED), 2)
    same("what is in the folder", os.listdir(os.path.dirname(out)), [])
    write(out, b"old")
    unwanted(run("plot", "-o", out, text=REFUSED), 2)
    unwanted(run("plot", CONTROLLER, "-o", out + "/x.svg"), 4)
    unwanted(run("plot", CONTROLLER, "-o", os.path.dirname(out)), 4)
    os.chmod(os.path.dirname(out), 0o555)
    ended = run("plot", CONTROLLER, "-o", out, before=obeying_modes())
    os.chmod(os.path.dirname(out), 0o755)
    unwanted(ended, 4)
    same("what is there", contents(out), b"old")
    alone(out)


def on_a_full_disk():
    with small_disk(2**16) as folder:
        out, rest = write(os.path.join(folder, "x.svg"), b"old"), os.path.join(folder, "rest")
        with contextlib.suppress(OSError):  # now it is full
            write(rest, b"x" * 2**16)
        unwanted(run("plot", CONTROLLER, "-o", out), 4)
        same("what is there", contents(out), b"old")
        alone(out, "rest")
        os.remove(rest)
        fine(run("plot", CONTROLLER, "-o", out), b"", 1)
        same("the picture", contents(out), pictured())


def through_links():
    folder, other = fresh_folder(), fresh_folder()
    file, link, second = os.path.join(other, "x.svg"), os.path.join(folder, "link.svg"), os.path.join(folder, "second.svg")
    os.symlink("../%s/x.svg" % os.path.basename(other), link)
    os.symlink("link.svg", second)
    for out in link, second:
        write(file, b"old")
        fine(run("plot", CONTROLLER, "-o", out), b"", 1)
        same("the picture", contents(file), pictured())
        same("which are links", [os.path.islink(path) for path in (link, second, file)], [True, True, False])
        alone(link, "second.svg")
        alone(file)


def dangling():
    """A link that leads to no file yet gets one."""
    folder = fresh_folder()
    link, file = os.path.join(folder, "link.svg"), os.path.join(folder, "x.svg")
    os.symlink("x.svg", link)
    fine(run("plot", CONTROLLER, "-o", link), b"", 1)
    same("the picture, and that the link is one", (contents(file), os.path.islink(link)), (pictured(), True))


def modes_kept():
    out = write(os.path.join(fresh_folder(), "x.svg"), b"old")
    os.chmod(out, 0o640)
    fine(run("plot", CONTROLLER, "-o", out), b"", 1)
    same("the mode", stat.S_IMODE(os.stat(out).st_mode), 0o640)


def in_memory():
    """A file below /dev is a file."""
    with tempfile.TemporaryDirectory(dir="/dev/shm") as folder:
        out = os.path.join(folder, "x.svg")
        for _ in range(3):
            fine(run("plot", CONTROLLER, "-o", out), b"", 1)
            same("the picture", contents(out), pictured())


def onto_streams():
    """What is open already is written on, from where it is."""
    link = os.path.join(fresh_folder(), "link.svg")
    os.symlink("/dev/stdout", link)
    for out in "/dev/stdout", "/dev/fd/1", "/proc/self/fd/1", link:
        path = os.path.join(fresh_folder(), "all")
        with open(path, "wb", buffering=0) as file:
            file.write(b"first\n")
            run("plot", CONTROLLER, "-o", out, stdout=file)
            file.write(b"last\n")
        same("what was written onto " + out, contents(path), b"first\n" + pictured() + b"last\n")
        same("what came through a pipe from " + out, run("plot", CONTROLLER, "-o", out).out, pictured())


def into_devices():
    """A pipe first: one that is replaced by a file is no loss, and one of the machine's own devices is."""
    pipe = os.path.join(fresh_folder(), "pipe.svg")
    os.mkfifo(pipe)
    got = []
    reader = threading.Thread(target=lambda: got.append(contents(pipe)), daemon=True)
    reader.start()
    fine(run("plot", CONTROLLER, "-o", pipe), b"", 1)
    must(stat.S_ISFIFO(os.stat(pipe).st_mode), "the pipe is none any more")
    alone(pipe)
    reader.join(20)
    same("what came through the pipe", got, [pictured()])
    fine(run("plot", CONTROLLER, "-o", os.devnull), b"", 1)
    unwanted(run("plot", CONTROLLER, "-o", "/dev/full"), 4)
    must(all(stat.S_ISCHR(os.stat(device).st_mode) for device in (os.devnull, "/dev/full")), "a device is none any more")


def rendered():
    for table in CONTROLLER, SHARED:
        pictures.looked_at(pictured(table))


def evaluated(jobs, seed):
    """The figures and the picture of a small evaluation."""
    out = os.path.join(fresh_folder(), "x.svg")
    ended = run("evaluate", "--sets", "5", "--seed", seed, "--jobs", jobs, "-o", out)
    same("the status", ended.status, 0)
    alone(out)
    return ended.out, contents(out)


def evaluation():
    figures, picture = evaluated("2", "7")
    same("the figures and the picture with one thread", evaluated("1", "7"), (figures, picture))
    others = evaluated("2", "8")
    must(others[0] != figures and others[1] != picture, "another seed gives the same")
    texts = "\n".join(pictures.texts(picture))
    must(re.search(r"\bseed\b\D{0,3}7\b", texts, re.I), "the picture does not tell the seed: %.300r", texts)
    must(re.search(r"(?<![\d.])5(?![\d.])", texts), "the picture does not tell the number of sets: %.300r", texts)
    pictures.looked_at(picture)


def evaluation_again():
    kept = os.path.join(ROOT, "docs", "evaluation")
    out = os.path.join(fresh_folder(), "x.svg")
    ended = run("evaluate", "-o", out, seconds=BUILDING)
    same("the status", ended.status, 0)
    same("the figures", ended.out, contents(os.path.join(kept, "base.txt")))
    same("the picture", contents(out), contents(os.path.join(kept, "base.svg")))


def cases():
    return [
        ("plot into files", into_files),
        ("plot: OUT stays as it was", as_it_was),
        ("plot on a full disk", on_a_full_disk),
        ("plot through links", through_links),
        ("plot through a link that dangles", dangling),
        ("plot: the mode of OUT stays", modes_kept),
        ("plot into memory", in_memory),
        ("plot onto open streams", onto_streams),
        ("plot into pipes and devices", into_devices),
        ("plot: a renderer draws the pictures", rendered),
        ("evaluate with one thread and with two", evaluation),
        ("evaluate makes docs/evaluation/base.txt and base.svg again", evaluation_again),
    ]
