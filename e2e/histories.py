#!/usr/bin/env python3
"""Random histories of a relay, each compared with a small model.

    python3 e2e/histories.py --relayd PATH [--count N] [--first SEED] [--at-once N]
    python3 e2e/histories.py --relayd PATH --seed SEED

A history has sends, stores that go away, come back or read next to nothing, reloads that remove and add destinations, or move ports, stops with
and without room on the disk, kills and starts, with and without --spool, drawn from its seed. At its end each line of each
destination has come to its store once, in order, or is in a file of the spool, or was counted as dropped or not sent; it may
be missing too where a connection was lost or the relay was killed, and come twice only from a file. The first form plays
the histories of N seeds, some at once, and prints each that has a fault with its steps; the second plays one and prints its
steps as they begin. The status is 0 only where no history has a fault. As root a history has a network of its own, and its
spool a small file system.
"""

import argparse
import os
import sys

sys.dont_write_bytecode = True  # the folder stays as it was checked out

from fixtures import harness, histories
from fixtures.history_plan import Plan
from fixtures.networks import enter_own_network


def words():
    """The words of the command line."""
    parser = argparse.ArgumentParser(description=__doc__.split("\n", 1)[0])
    parser.add_argument("--relayd", metavar="PATH", type=os.path.abspath, required=True)
    parser.add_argument("--seed", type=int, help="plays this history, and prints its steps")
    parser.add_argument("--count", metavar="N", type=int, default=200)
    parser.add_argument("--first", metavar="SEED", type=int, default=1)
    parser.add_argument("--at-once", metavar="N", type=int, default=2 * os.cpu_count())
    return parser.parse_args()


def play_one(seed):
    """Plays a history, prints its steps and faults, and gives the status."""
    enter_own_network()  # others that play at once have ports out of the same range
    plan = Plan(seed)
    print(f"seed {seed}: {plan}", flush=True)
    faults = histories.play(plan, lambda text: print(text, flush=True))
    for fault in faults:
        print(f"FAULT {fault}", flush=True)
    return 1 if faults else 0


def main():
    """Plays, and gives the status."""
    given = words()
    harness.Settings.relayd = given.relayd
    if given.seed is not None:
        return play_one(given.seed)
    faulty = 0
    for said in histories.play_all(given.relayd, range(given.first, given.first + given.count), given.at_once):
        faulty += 1
        print(said, flush=True)
    print(f"{given.count} histories, {faulty} with a fault")
    return 1 if faulty else 0


if __name__ == "__main__":
    sys.exit(main())
