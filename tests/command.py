#!/usr/bin/env python3
"""command.py [COMMAND..]: runs crpd, or another command that is to do the same, on tables, texts that are no tables, arguments, files
and streams of every kind, and holds what it prints and draws to what crpd-report prints and to what the pages say. Needs root for a
small disk, and Debian for a program that draws pictures. tests/cases/ has the cases. One line for each; the last line is
`N passed, M failed`."""
import sys

from cases import about, alone, arguments, deadlines, outputs, partner, refusals, replays, streams, tables
from cases.asking import SCRATCH
from common import build, tell


def main():
    build()
    with SCRATCH:
        return tell([case for part in (tables, partner, deadlines, replays, refusals, arguments, streams, outputs, about, alone) for case in part.cases()])


if __name__ == "__main__":
    sys.exit(main())
