"""Arguments: those that are wrong, options in every spelling and place, and names that look like something else."""
import itertools
import os
import shlex

from cases import pictures
from cases.asking import CONTROLLER, FIGURE, REFUSED, TWO, fine, fresh, fresh_folder, unwanted, wrong_use
from cases.refused_texts import text_of
from common import Wrong, contents, must, printed, run, same


def wrong_arguments(folder, picture):
    """Arguments that are wrong by themselves."""
    table, other, out = CONTROLLER, TWO, ["-o", picture]
    yield from ([], [""], ["nosuch"], ["Report"], ["--nosuch"], ["-x"], ["-"], [table])
    yield from (["help", "nosuch"], ["help", "show", "show"], ["--version", "x"])
    # options that do not exist, or belong to another command
    yield from (["report", "--nosuch", table], ["show", "-x", table], ["growth", "-x", "0", table], ["scaled", "--nosuch", "0", table])
    yield from (["plot", "-x", table, *out], ["reports", "-x", folder], ["reports", "--words", folder], ["evaluate", "-x", *out])
    yield from (["plot", "--jobs", "2", table, *out], ["report", *out, table], ["growth", "--words", "0", table])
    # too few and too many
    yield from (["answer"], ["answer", "0"], ["explain", "0"], ["explain", "--words"], ["growth"], ["scaled"], ["plot", table])
    yield from (["reports"], ["reports", "-j", "2"], ["evaluate"], ["evaluate", "--sets", "1"])
    yield from ([command, table, other] for command in ("report", "show"))
    yield from (["edf", "-x", table], ["edf", table, other], ["edf", "-o", picture, table])
    yield from (["check"], ["check", "0"], ["check", "0", other, table, table], ["check", "-x", "0", other, table])
    yield from ([command, "0", "log", table, other] for command in ("answer", "explain"))
    yield from ([command, "0", table, other] for command in ("growth", "scaled"))
    yield from (["plot", table, other, *out], ["reports", folder, folder], ["evaluate", "x", *out])
    # options without a value, or with a wrong one
    yield from (["plot", table, "-o"], ["plot", table, "--output"], ["reports", folder, "--jobs"], ["reports", folder, "-j"])
    yield from (["evaluate", *out, option] for option in ("--sets", "--seed", "--jobs"))
    yield from (["evaluate", *out, option, "x"] for option in ("--sets", "--seed", "--jobs"))
    yield from (["reports", "--jobs", jobs, folder] for jobs in ("0", "1001", "x", "", "-1", "1.5", "18446744073709551617"))
    yield from (["reports", jobs, folder] for jobs in ("--jobs=0", "--jobs=", "-j0"))
    yield ["evaluate", "--jobs", "0", *out]
    # parts that are none, and lists of nothing
    yield from (["reports", "--part", part, folder] for part in ("0/2", "3/2", "0/0", "1", "1/", "/1", "", "a/b", "-1/2", "1/2/3", "1/18446744073709551616"))
    yield from (["reports", folder, "--part"], ["evaluate", "--part", "1/2", *out], ["lists"], ["lists", "--part", "1/2", table])


def all_wrong():
    folder, picture = os.path.dirname(fresh(contents(CONTROLLER))), os.path.join(fresh_folder(), "x.svg")
    for args in wrong_arguments(folder, picture):
        try:
            wrong_use(args)
        except Wrong as wrong:
            raise Wrong("crpd %s: %s" % (shlex.join(args), wrong)) from None
    same("what was written", (os.listdir(folder), os.path.exists(picture)), (["x.table"], False))


def no_such_methods():
    known = ": it is 0 to 5, or none, ecb-only, ucb-only, ucb-union, ecb-union, combined (12)\n"
    commands = ["answer", "a"], ["explain", "a"], ["growth"], ["scaled"], ["check", "x.list"]
    for (command, *task), method in itertools.product(commands, ("6", "None", "ecb", "x y", "18446744073709551616")):
        told = wrong_use([command, method, *task, "/nosuch/file"]).err.decode()
        must(told.endswith("there is no method %s%s" % (method, known)) and told.count("\n") == 1, "of %r is told %r", method, told)


def no_such_tasks():
    for command in "answer", "explain":
        for task in "nosuch", "Log", "-x", "--nosuch", "valv":
            words = "crpd: %s: there is no task %s (13)\n" % (CONTROLLER, task)
            same("what is told", wrong_use([command, "0", task, CONTROLLER]).err, words.encode())
        for place in "3", "32", "4294967296", "18446744073709551616", "18446744073709551618":
            words = "crpd: standard input: there is no task #%s: the positions are 0 to 2 (13)\n" % place
            same("what is told", wrong_use([command, "combined", "#" + place], contents(CONTROLLER)).err, words.encode())
        for task in "#", "#x", "#-1", "#1x", "# 1":
            wrong_use([command, "0", task, CONTROLLER])


def outputs_like_tables():
    text = contents(CONTROLLER)
    table = fresh(text)
    folder = os.path.dirname(table)
    for args in ["plot", CONTROLLER, "-o"], ["reports", folder, "--output"], ["evaluate", "--sets", "1", "-o"]:
        for out in table, os.path.join(folder, "new.table"), os.path.join(folder, "new.report"):
            wrong_use([*args, out])
    wrong_use(["plot", CONTROLLER, "-o" + table])
    same("what is in the folder", (contents(table), os.listdir(folder)), (text, ["x.table"]))


def tables_by_other_names():
    """A table is not written over by way of a link, nor the one that is drawn, whatever it is called."""
    text = contents(CONTROLLER)
    table, plain = fresh(text), fresh(text, "plain")
    link = os.path.join(fresh_folder(), "link.svg")
    os.symlink(table, link)
    wrong_use(["plot", FIGURE, "-o", link])
    wrong_use(["plot", plain, "-o", plain])
    with open(plain, "rb") as file:
        same("the status", run("plot", "-o", plain, stdin=file).status, 3)
    same("the tables", (contents(table), contents(plain)), (text, text))


def nothing_read(args):
    """It ends though its standard input gives nothing and stays open."""
    reads, writes = os.pipe()
    try:
        unwanted(run(*args, stdin=reads, seconds=20), 3)
    finally:
        os.close(reads)
        os.close(writes)


def in_order():
    """The arguments alone come first, before anything is read; then reading, the text, the task, and writing."""
    for args in ["answer", "6", "a"], ["growth", "6"], ["plot", "-o", "x.table"], ["report", "--nosuch"], ["show", "-", "-"]:
        nothing_read(args)
    table = os.path.join(fresh_folder(), "nosuch.table")
    wrong_use(["growth", "6", table])
    wrong_use(["reports", "--jobs", "0", table])
    unwanted(run("answer", "0", "nosuch", table), 4)
    unwanted(run("answer", "0", "nosuch", text=REFUSED), 2)
    unwanted(run("plot", "-o", "/nosuch/x.svg", text=REFUSED), 2)
    with open("/dev/full", "wb") as full:
        same("the status where there is no such task, and no room", run("answer", "0", "nosuch", CONTROLLER, stdout=full).status, 3)
    unwanted(run("plot", CONTROLLER, "-o", "/nosuch/x.svg"), 4)


def places_of_words():
    plain = run("explain", "--words", "4", "log", CONTROLLER)
    same("the status", plain.status, 0)
    for line in "4 --words log FILE", "4 log --words FILE", "4 log FILE --words", "--words -- 4 log FILE":
        same("crpd explain " + line, run("explain", *line.replace("FILE", CONTROLLER).split()), plain)


def spellings_of_output():
    out = os.path.join(fresh_folder(), "x.svg")
    pictured = run("plot", CONTROLLER, "-o", "-").out
    for line in "FILE -o OUT", "-o OUT FILE", "-oOUT FILE", "FILE --output OUT", "--output=OUT -- FILE":
        fine(run("plot", *line.replace("FILE", CONTROLLER).replace("OUT", out).split()), b"", 1)
        same("the picture by " + line, contents(out), pictured)
        os.remove(out)
    folder = os.path.dirname(fresh(contents(CONTROLLER)))
    for line in "FOLDER -o OUT", "-oOUT FOLDER", "--output=OUT FOLDER", "--output OUT FOLDER":
        ended = run("reports", *line.replace("FOLDER", folder).replace("OUT", out).split())
        same("the list by " + line, (ended.out, contents(out), ended.status), (b"", LISTED, 1))
        os.remove(out)
    same("the list by -o -", run("reports", "-o", "-", folder).out, LISTED)


LISTED = b"x.table\tV\tyes\tno\tno\tyes\tyes\tyes\n"


def spellings_of_jobs():
    folder = os.path.dirname(fresh(contents(CONTROLLER)))
    for jobs in ["--jobs", "2"], ["--jobs=2"], ["-j", "2"], ["-j2"], ["-j1000"], ["-j", "1"]:
        for args in [*jobs, folder], [folder, *jobs]:
            ended = run("reports", *args)
            same("the list by " + shlex.join(args), (ended.out, ended.status), (LISTED, 1))


def tasks_like_options():
    names = ["-", "-a", "--", "--words", "-o", "-j1", "--jobs", "--output", "a-b", "-h", "--help", "1", "0", "a--"]
    lines = ["T\t%s\t%d\t100000\t100000\t0\t0\t0\t0" % (name, 2**n) for n, name in enumerate(names)]
    file = fresh(text_of(["K\t4\t1"] + lines))
    for n, name in enumerate(names):
        answer, explained = b"%d\n" % (2 ** (n + 1) - 1), run("explain", "4", "#%d" % n, file).out
        fine(run("answer", "--", "0", name, file), answer, 0, "the answer for %s after --" % name)
        fine(run("explain", "--", "4", name, file), explained, 0, "the explanation of %s after --" % name)
        if name not in ("--", "-h", "--help"):
            fine(run("answer", "0", name, file), answer, 0, "the answer for " + name)
        if name not in ("--", "-h", "--help", "--words"):
            fine(run("explain", "4", name, file), explained, 0, "the explanation of " + name)
    in_words = run("explain", "--words", "4", "#%d" % names.index("--words"), file).out
    fine(run("explain", "--words", "4", "--", "--words", file), in_words, 0)


def odd_files():
    text = contents(CONTROLLER)
    expected = printed(text)
    for name in b"a b.table", b"a\nb.table", b"*.table", "é.table".encode(), b"'\"$(x)", b"a\x1b[31m.table", b"#1":
        file = fresh(text, name)
        fine(run("report", file), expected, 1, "the report of %r" % name)
        fine(run("plot", file, "-o", file + ".svg"), b"", 1, "plot of %r" % name)
        must("log" in pictures.words(pictures.texts(contents(file + ".svg"))), "the picture of %r has no log", name)


def unnamed_files():
    """A name that is no UTF-8 is told as what cannot be read, or written."""
    words = b": its name is no UTF-8, and only such names can be opened\n"
    for name in b"\xff\xfe.table", b"\xed\xa0\x80":
        file = fresh(contents(CONTROLLER), name)
        for args in ["report", file], ["plot", file, "-o", "-"], ["lists", file]:
            ended = run(*args)
            unwanted(ended, 4)
            must(b": cannot be read" + words in ended.err, "of %r is told %r", name, ended.err)
        ended = run("plot", CONTROLLER, "-o", file + ".svg")
        unwanted(ended, 4)
        must(b": cannot be written" + words in ended.err, "of %r is told %r", name, ended.err)


def unseen_letters():
    """Letters that nobody sees, or that turn others round, are spelled out."""
    for letter in "\u202e\u200b\u00ad\u061c\ufeff":
        told = run("report", "/nosuch" + letter).err
        spelt = "".join("\\x%02x" % byte for byte in letter.encode())
        same("what is told", told, b"crpd: /nosuch%s: cannot be read: No such file or directory\n" % spelt.encode())


def files_like_options():
    text = contents(CONTROLLER)
    for name in "-x.table", "--words", "--", "-o", "-h":
        folder = os.path.dirname(fresh(text, name))
        for file in ["--", name], ["./" + name]:
            fine(run("report", *file, cwd=folder), printed(text), 1, "the report of " + name)
        fine(run("growth", "--", "1", name, cwd=folder), b"970\n", 1)
    wrong_use(["report", "-x.table"])


def files_for_pictures():
    """Names with what stands for something else in a picture, or for nothing."""
    odd = b"a<b>&c", b"\"'", b"]]>", b"<!--", b"\x01\x0b", "\ufffe\uffff".encode()
    for name in odd:
        texts = pictures.texts(run("plot", fresh(contents(CONTROLLER), name), "-o", "-").out)
        must("log" in pictures.words(texts), "the picture of %r has no log", name)


def cases():
    return [
        ("arguments that are wrong", all_wrong),
        ("methods that do not exist", no_such_methods),
        ("tasks that do not exist", no_such_tasks),
        ("outputs called like tables", outputs_like_tables),
        ("tables by other names are no outputs", tables_by_other_names),
        ("what is told first", in_order),
        ("--words at every place", places_of_words),
        ("-o in every spelling", spellings_of_output),
        ("--jobs in every spelling", spellings_of_jobs),
        ("tasks named like options", tasks_like_options),
        ("files with odd names", odd_files),
        ("files whose names are no UTF-8", unnamed_files),
        ("letters that nobody sees", unseen_letters),
        ("files named like options", files_like_options),
        ("files with names that are odd in a picture", files_for_pictures),
    ]
