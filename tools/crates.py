#!/usr/bin/env python3
"""Runs `rt` on the crates of crates.txt, several at a time, a crate once those that it depends on are done.

    crates.py check [CRATE..]    proves each crate, over the work that earlier runs kept in out/
    crates.py build PROGRAM      proves and builds a program with all that it depends on
    crates.py edits [CRATE..]    tries crates/NAME/more-edits/*.edit: the prover must refuse each

Without CRATE all crates are meant. Each crate has a room of its own (tools/rooms.py), and what did not change since it
was done is not done again (tools/done.py). A line is printed as each crate ends, with how far the run is and with what
`rt` said where it failed, and at the end of `edits` the sum. The status is 0 only where all went well.
"""

import argparse
import os
import re
import shutil
import signal
import sys
import time
from concurrent.futures import FIRST_COMPLETED, ThreadPoolExecutor, wait
from typing import NamedTuple

from done import is_done, note, sums
from pace import LANES, Pace, chains, spoken
from processes import interrupt, rt
from rooms import TOP, bring_back, folder_of, locked, room_of, rows

WORDS = {"relayd": ["--version"]}  # what a program is given when `rt run` has built it; the others need no words
IN_A_MINUTE = 0.4  # GB of memory that a crate takes for each minute of its proof, beside the one that each takes
LARGE = 9.0  # minutes from which on a crate gets more than one job, whatever waits beside it: at last all wait for it


def crates_below():
    """For each crate of crates.txt, in its order, the crates of the repository that it depends on."""
    below = {name: row.partition(":")[2].split() for name, row in rows().items()}
    return {name: [it for it in its if it in below] for name, its in below.items()}


def closure(names, below):
    """These crates and all that they depend on."""
    reached = set()
    left = list(names)
    while left:
        name = left.pop()
        if name not in reached:
            reached.add(name)
            left += below[name]
    return reached


def memory_left():
    """Gigabytes of memory that are free now, or more than any machine has if that is unknown."""
    try:
        with open("/proc/meminfo", encoding="ascii") as file:
            return int(re.search(r"MemAvailable:\s+(\d+)", file.read())[1]) / 1e6
    except (OSError, TypeError):
        return 1e6


class Ended(NamedTuple):
    """How `rt` ended in a crate."""

    verb: str
    well: bool
    seconds: float
    said: str


def kept_in(minutes, usual):
    """The minutes of a crate, if they are so few that nothing was left to prove."""
    return minutes if minutes < usual / 10 else None


def in_order(names, below, work):
    """Calls `work` of each crate and of the number of its jobs, once it has gone well for those below it.

    Several run at a time, those with the longest chain above them first, as far as there is memory. Gives whether all
    went well.
    """
    pace, memory = Pace(names, below), memory_left()
    length = chains(names, below, pace.cost)
    left, well, running, failed = set(names), set(), {}, []

    def need(it):
        return 1 + IN_A_MINUTE * pace.usual[it]

    def begin(name, others):
        """Begins a crate, with the processors that no other ready crate waits for: each job loads all below."""
        free = (LANES - sum(jobs for _, jobs in running.values())) // (1 + others)
        jobs = max(free, LANES * 3 // 4 if pace.cost[name] >= LARGE else 1, 1)
        left.remove(name)
        running[pool.submit(work, name, jobs)] = name, jobs

    print(pace.at_start(), flush=True)
    with ThreadPoolExecutor(LANES) as pool:
        while left or running:
            ready = [it for it in left if all(dep in well or dep not in names for dep in below[it])]
            for place, name in enumerate(sorted(ready, key=length.get, reverse=True)):
                used = sum(need(it) for it, _ in running.values())
                is_full = sum(jobs for _, jobs in running.values()) >= LANES
                if running and (is_full or used + need(name) > memory):
                    break  # none goes in front of one with a longer chain
                begin(name, len(ready) - place - 1)
            if not running:
                break
            for done in wait(running, return_when=FIRST_COMPLETED).done:
                (name, _), ended = running.pop(done), done.result()
                (well.add if ended.well else failed.append)(name)
                print(f"{name}: rt {ended.verb} {'done' if ended.well else 'FAILED'}, {ended.seconds:.0f} s "
                      f"({pace.after(name, kept_in(ended.seconds / 60, pace.cost[name]))})", flush=True)
                if not ended.well:
                    print(ended.said, flush=True)
    if failed:
        print("failed:", *failed, *(["and not reached:", *(it for it in below if it in left)] if left else []))
    return not failed


def prove(name, verb, jobs, below):
    """Proves a crate in a room of its own, by `rt` with this verb, and brings back what it made and kept."""
    began = time.monotonic()
    with room_of(name, closure([name], below)) as room, locked(name):
        words = [*verb.split(), "--jobs", str(jobs), *(["--", *WORDS.get(name, [])] if verb == "run" else [])]
        status, said = rt(words, folder_of(name, room))
        bring_back(name, room)
        if status == 0:
            note(name, verb, sums([name], below, room)[name])
    return Ended(verb, status == 0, time.monotonic() - began, said.replace(room, TOP))


def not_done(verbs, below):
    """Those crates for which it is not done what their verb says."""
    totals = sums(verbs, below)
    return {name for name, verb in verbs.items() if not is_done(name, verb, totals[name])}


def prove_all(verbs, below):
    """Does for each crate what its verb says, where it is not done; gives whether all went well."""
    names = not_done(verbs, below)
    if not names:
        print(f"nothing changed since all of the {len(verbs)} crates were proved")
        return True
    return in_order(names, below, lambda name, jobs: prove(name, verbs[name], jobs, below))


def verbs_of(names, below, program=None):
    """What is done for each crate: a library that another one needs is built too, and so is the program. Of a crate of tests
    the tests are proved."""
    lower = {it for name in names for it in below[name]}

    def verb(name):
        alone = "check --test" if name.endswith("_tests") else "check"
        return "run" if name == program else "lib" if name in lower else alone

    return {name: verb(name) for name in names}


def time_to_build(program, below):
    """How long it takes to prove and build a program, at most, in words."""
    names = not_done(verbs_of(closure([program], below), below, program), below)
    return f"{spoken(max(Pace(names, below).ends().values()))} with {LANES} processors like that of docs/GATE.md"


def check(names, below):
    return prove_all(verbs_of(closure(names, below), below), below)


def is_built(program, below):
    """Whether a program is built of the sources as they are."""
    return is_done(program, "run", sums([program], below)[program])


def build(program, below):
    """Builds a program, over what earlier runs kept of its crates."""
    if is_built(program, below):
        print(f"nothing changed since {program} was built")
    elif not prove_all(verbs_of(closure([program], below), below, program), below):
        return False
    os.utime(os.path.join(folder_of(program), "out", program))  # for make: it is as new as the sources
    return True


def try_edits(name, below):
    """Tries the further edits of a crate, and gives how many were refused, and how many were not."""
    with room_of(name, closure([name], below), "more-edits-") as room:
        edits_there = os.path.join(folder_of(name, room), "must-fail")
        shutil.copytree(os.path.join(folder_of(name), "more-edits"), edits_there)
        status, said = rt(["must-fail", name], room)
    tried = re.findall(rf"^rt: must-fail {name}/\S+: (.*)$", said, re.M)
    refused = sum(it.startswith("refused") for it in tried)
    if status or refused < len(tried) or not tried:
        print(said, flush=True)
    failed = max(len(tried) - refused, 1 if status or not tried else 0)
    print(f"{name}: {refused} edits refused, {failed} not", flush=True)
    return refused, failed


def edits(names, below):
    names = [name for name in names if os.path.isdir(os.path.join(folder_of(name), "more-edits"))]
    if names and not check(names, below):
        return False
    with ThreadPoolExecutor(LANES) as pool:
        counts = list(pool.map(lambda name: try_edits(name, below), names))
    passed, failed = sum(it[0] for it in counts), sum(it[1] for it in counts)
    print(f"{passed} passed, {failed} failed")
    return not failed


def main():
    parser = argparse.ArgumentParser(description=__doc__.partition("\n")[0])
    parser.add_argument("command", choices=("check", "build", "edits"))
    parser.add_argument("crates", nargs="*", metavar="CRATE")
    given = parser.parse_args()
    below = crates_below()
    names = given.crates or list(below)
    for name in names:
        if name not in below:
            parser.error(f"crates.txt has no crate {name}")
    if given.command == "build":
        if len(given.crates) != 1:
            parser.error("build takes one program")
        return build(given.crates[0], below)
    return {"check": check, "edits": edits}[given.command](names, below)


if __name__ == "__main__":
    signal.signal(signal.SIGINT, interrupt)
    signal.signal(signal.SIGTERM, interrupt)
    sys.exit(0 if main() else 1)
