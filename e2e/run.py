#!/usr/bin/env python3
"""The end-to-end suite: drives the built `relayd` over real pipes, files and devices.

    python3 e2e/run.py [--relayd PATH] [--seed N] [--longer] [--complete] [NAME ..]

The cases are the files of `e2e/cases/`; each NAME chooses some of them: a
subject, a class of it or a test, as `routes`, `routes.ByRules` or
`routes.ByRules.test_no_destination_is_left`. Without a name all are run.

The program is that of `--relayd`, or `crates/relayd/out/relayd`, which is
built where it is missing or older than the sources. A line is printed for
each case that failed, with its input. The last line is `N passed, M failed`;
the status is 0 only where M is 0.
"""

import argparse
import os
import random
import sys
import tempfile
import time
import unittest

sys.dont_write_bytecode = True  # the folder stays as it was checked out

from fixtures import harness, program

CASES = os.path.join(os.path.dirname(os.path.abspath(__file__)), "cases")
FIXED_SEED = 1


def words():
    """The words of the command line."""
    parser = argparse.ArgumentParser(description="The end-to-end suite of relayd.")
    parser.add_argument("--relayd", metavar="PATH", help="the program (default: crates/relayd/out/relayd)")
    parser.add_argument("--seed", type=int,
                        help="the one seed of generated lines (default: a fixed one and a random one)")
    parser.add_argument("--longer", action="store_true", help="the longer form of the cases that have one")
    parser.add_argument("--complete", action="store_true", help="a case that was skipped since a program is missing has failed")
    parser.add_argument("names", metavar="NAME", nargs="*",
                        help="a subject, a class or a test to run (default: all), as routes or routes.ByRules")
    return parser.parse_args()


def subjects():
    """The names of all subjects."""
    files = sorted(os.listdir(CASES))
    return [file.removesuffix(".py") for file in files if file.endswith(".py") and not file.startswith("_")]


def run_all(names):
    """Runs the cases of these names, prints the summary and gives the status."""
    lines = harness.Lines()
    for name in names:
        began, before = time.monotonic(), (lines.passed, len(lines.failed))
        unittest.defaultTestLoader.loadTestsFromName(f"cases.{name}").run(lines)
        passed, failed = lines.passed - before[0], len(lines.failed) - before[1]
        print(f"{name}: {passed} passed, {failed} failed, {time.monotonic() - began:.1f} s", flush=True)
    print(f"{lines.passed} passed, {len(lines.failed)} failed")
    return 0 if not lines.failed else 1


def main():
    """Finds the program and runs what was asked for."""
    given = words()
    known = subjects()
    for name in given.names:
        if name.split(".")[0] not in known:
            print(f"there is no subject {name.split('.')[0]}; there are {', '.join(known)}")
            print("0 passed, 1 failed")
            return 1
    path = program.find("relayd", given.relayd)
    if path is None:
        print("0 passed, 1 failed")
        return 1
    harness.Settings.longer = given.longer
    harness.Settings.is_complete = given.complete
    harness.Settings.seeds = [given.seed]
    if given.seed is None:
        harness.Settings.seeds = [FIXED_SEED, random.SystemRandom().randrange(2, 2**32)]
    print("seeds of generated lines:", *harness.Settings.seeds, flush=True)
    with tempfile.TemporaryDirectory(prefix="relayd-named-") as folder:
        harness.Settings.relayd = program.under_its_name("relayd", path, folder)
        return run_all(given.names or known)


if __name__ == "__main__":
    sys.exit(main())
