"""What the benchmarks share: their options, their data, and the memory of a program that they start."""

import argparse
import ctypes
import os
import sys

HERE = os.path.dirname(os.path.abspath(__file__))
DATA = os.path.join(HERE, "data")
SUBREAPER = 36  # of prctl: orphans of this process's children become its own children


def missing(what):
    """Ends with what is missing."""
    sys.exit(f"bench: {what}")


def options(description, flag, program):
    """What reads the command line: where the program to measure is, and how many rounds are run."""
    parser = argparse.ArgumentParser(description=description)
    parser.add_argument(flag, metavar="PATH", type=os.path.abspath,
                        default=os.path.join(os.path.dirname(HERE), "bin", program))
    parser.add_argument("--rounds", metavar="N", type=int, default=5)
    return parser


def demand(program):
    """Says which program is measured, and ends where it is not there."""
    if not os.access(program, os.X_OK):
        missing(f"{program} is missing: build it first")
    print(f"the program that is measured: {os.path.relpath(program)}", flush=True)


def adopt_orphans():
    """Lets the peak memory be measured of a program that a child has started and left."""
    if not sys.platform.startswith("linux"):
        missing("peak memory is measured by means of Linux")
    ctypes.CDLL(None, use_errno=True).prctl(SUBREAPER, 1, 0, 0, 0)
