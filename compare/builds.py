#!/usr/bin/env python3
"""builds.py [COUNT]: how many builds a second get their report, by `crpd-report` started for each and by `crpd reports`, alone and in 2 and more parts at once, in one
run. COUNT tables (20,000) lie in twenty folders, made anew for each round; processes are started for a part of them. Needs both programs, which bin/crpd and
bin/crpd-report build, and x86-64. The best of three rounds is told, for the machine may have other work. TMPDIR says where the folders are: on a disk it is the file
system that is timed, more than the program."""
import os
import subprocess
import sys
import tempfile
import time

ROOT = os.path.join(os.path.dirname(os.path.abspath(__file__)), "..")
PROVED = os.path.join(ROOT, "crates", "crpd_report", "out", "crpd_report")
SCRIPT = os.path.join(ROOT, "bin", "crpd-report")
COMMAND = os.path.join(ROOT, "crates", "crpd_command", "out", "crpd_command")
ROUNDS = 3
FOLDERS = 20
EACH = 'for table; do "$PROGRAM" <"$table" >"${table%.table}.report" || [ $? -eq 1 ] || exit; done'


def ten_tasks(number):
    """A table of ten tasks and 256 cache sets, like those of the paper's evaluation; each number has another one."""
    line = "T\tt%d\t%d\t%d\t%d\t0\t0\t%064x\t%064x\n"
    tasks = [(place, 100 + number % 50, 5000 << place // 2, 5000 << place // 2, 3 << 20 * place, 0x3FFF << 20 * place) for place in range(10)]
    return "K\t256\t8\n" + "".join(line % task for task in tasks)


def folder_of(within, count):
    folder = tempfile.mkdtemp(dir=within)
    for part in range(FOLDERS):
        os.mkdir(os.path.join(folder, "%02d" % part))
    for number in range(count):
        with open(os.path.join(folder, "%02d" % (number % FOLDERS), "%05d.table" % number), "w") as file:
            file.write(ten_tasks(number))
    return folder


def files_of(folder):
    return [os.path.join(within, name) for within, _, names in os.walk(folder) for name in names]


def started_for_each(program, at_a_time):
    def run(folder):
        words = ["xargs", "-0", "-n", "100", "-P", str(at_a_time), "sh", "-c", EACH, "sh"]
        subprocess.run(words, input="\0".join(sorted(files_of(folder))).encode(), env=dict(os.environ, PROGRAM=program), check=True)

    return run


def in_parts(count):
    def run(folder):
        lists = [os.path.join(folder, "%d.list" % part) for part in range(1, count + 1)]
        runs = [
            subprocess.Popen([COMMAND, "reports", "--part", "%d/%d" % (part, count), "-o", out, folder], stderr=subprocess.DEVNULL)
            for part, out in enumerate(lists, 1)
        ]
        if any(process.wait() for process in runs):
            raise SystemExit("builds.py: a part failed")
        subprocess.run([COMMAND, "lists", "-o", os.path.join(folder, "list.txt"), *lists], check=True)

    return run


def seconds(run, within, count):
    folder = folder_of(within, count)
    began = time.monotonic()
    run(folder)
    took = time.monotonic() - began
    reports = [name for name in files_of(folder) if name.endswith(".report")]
    if len(reports) != count:
        raise SystemExit("builds.py: %d reports of %d" % (len(reports), count))
    return took


def main():
    count = int(sys.argv[1]) if sys.argv[1:] else 20000
    ways = [
        ("bin/crpd-report, started for each", started_for_each(SCRIPT, 1), count // 200),
        ("crpd_report itself, started for each", started_for_each(PROVED, 1), count // 10),
        ("crpd_report itself, two at a time", started_for_each(PROVED, 2), count // 10),
    ] + [("crpd reports in %d parts at once" % parts, in_parts(parts), count) for parts in (1, 2, 3, 4, 8)]
    with tempfile.TemporaryDirectory() as within:
        for name, run, builds in ways:
            best = min(seconds(run, within, builds) for _ in range(ROUNDS))
            print("%-40s %9.0f builds a second" % (name, builds / best), flush=True)


if __name__ == "__main__":
    main()
