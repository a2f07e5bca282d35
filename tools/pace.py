"""How long crates take, by the table of gate_times.txt, and how far a run is."""

import heapq
import os
import re
import time

from rooms import TOP, folder_of

LANES = len(os.sched_getaffinity(0))  # how many crates are proved at a time, at most
USUAL = 3.0  # minutes, of a crate that the table does not have
OVER_KEPT = 6  # how often faster a crate is proved over what an earlier run kept of it, after an edit in it or below it


def costs(names):
    """Minutes of processor for the proof of each crate, or of its tests, as the table has them."""
    with open(os.path.join(TOP, "tools", "gate_times.txt"), encoding="utf-8") as file:
        found = re.findall(r"^\| `(\w+)` \| ([\d.]*) \| ([\d.]*) \|", file.read(), re.M)
    table = {name: float(proof or tests) for name, proof, tests in found}
    return {name: table.get(name, USUAL) for name in names}


def chains(names, below, cost):
    """For each crate the minutes of the longest chain that begins with it, each of which depends on the one before."""
    length = {}

    def of(name):
        if name not in length:
            length[name] = cost[name] + max((of(it) for it in names if name in below[it]), default=0)
        return length[name]

    return {name: of(name) for name in names}


def ends_by_clock(names, below, cost, lanes):
    """After how many minutes each of these crates ends if this many are proved at once, the longest chain first."""
    length, left, running, now, ends = chains(names, below, cost), set(names), [], 0.0, {}
    while left or running:
        unproved = left | {name for _, name in running}
        ready = [it for it in left if not unproved.intersection(below[it])]
        for name in sorted(ready, key=length.get, reverse=True)[:lanes - len(running)]:
            left.remove(name)
            heapq.heappush(running, (now + cost[name], name))
        now, name = heapq.heappop(running)
        ends[name] = now
    return ends


def spoken(minutes):
    """A number of minutes in words."""
    if minutes < 1.5:
        return "about a minute" if minutes >= 0.5 else "less than a minute"
    return f"about {minutes:.0f} minutes"


def is_kept(name):
    """Whether an earlier run kept parts of a crate's proof."""
    return os.path.isdir(os.path.join(folder_of(name), "out", "incremental"))


class Pace:
    """Counts the crates of a run that have ended, and estimates how long the others take.

    The estimate compares the time of the run with when the table has those crates end that were proved. A crate in
    which nothing was left to prove says nothing of the others, and counts with what it took.
    """

    def __init__(self, names, below):
        self.names, self.below, self.usual = names, below, costs(names)
        self.cost = {name: usual / OVER_KEPT if is_kept(name) else usual for name, usual in self.usual.items()}
        self.ended, self.proved, self.began = set(), set(), time.monotonic()

    def ends(self):
        return ends_by_clock(self.names, self.below, self.cost, LANES)

    def at_start(self):
        """How much there is to do."""
        return (f"{len(self.names)} crates to prove, {LANES} at a time: {spoken(max(self.ends().values()))} on the machine "
                "of docs/GATE.md; the first crate shows how fast this one is")

    def after(self, name, kept=None):
        """Notes that a crate has ended, and gives how far the run is. `kept` is how many minutes it took, if nothing was left
        to prove."""
        self.ended.add(name)
        if kept is None:
            self.proved.add(name)
        else:
            self.cost[name] = kept
        spent = time.monotonic() - self.began
        text = f"{len(self.ended)} of {len(self.names)}, {spent // 60:.0f}:{spent % 60:02.0f} so far"
        return text if len(self.ended) == len(self.names) else f"{text}, {spoken(self.to_go(spent / 60))} to go"

    def to_go(self, spent):
        """How many minutes the others take, after so many."""
        ends = self.ends()
        passed = max((ends[it] for it in self.proved), default=0)
        return max(max(ends.values()) * (spent / passed if passed else 1) - spent, 0)
