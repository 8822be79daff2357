#!/usr/bin/env python3
"""times.py TIMES: how long the gate took, as a table. TIMES has a line for each step: its seconds by the clock, its processor's seconds in the program and in the
system, its name."""
import sys


def columns(rows):
    """The rows with the first column to the left and the others to the right, each as wide as its widest."""
    wide = [max(map(len, column)) for column in zip(*rows)]
    for row in rows:
        yield "  ".join(cell.rjust(width) if at else cell.ljust(width) for at, (cell, width) in enumerate(zip(row, wide)))


def steps(path):
    """Of each step its name, its seconds by the clock and those of the processor. A language may write a comma for the point."""
    with open(path, encoding="utf-8") as lines:
        for line in lines:
            clock, user, system, name = line.split(maxsplit=3)
            clock, user, system = (float(number.replace(",", ".")) for number in (clock, user, system))
            yield name.strip(), clock, user + system


def main():
    rows = list(steps(sys.argv[1]))
    rows.append(("together", sum(row[1] for row in rows), sum(row[2] for row in rows)))
    shown = [("step", "clock s", "processor s")] + [(name, "%.1f" % clock, "%.1f" % processor) for name, clock, processor in rows]
    print("\n".join(columns(shown)))


if __name__ == "__main__":
    main()
