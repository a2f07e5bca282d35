#!/usr/bin/env python3
"""What it costs to keep datapoints in files while a store is away, beside a store that is there, in turn in one run.

    python3 bench/spooling.py [--relayd PATH] [--beside PATH] [--rounds N] [--times N]

Eight producers send as fast as the relay takes it: for a store that reads; and for a destination whose store is away, so
that all goes to the files of `--spool-size`, which then go out to the store as it returns. For each round it looks at what
came: every datapoint at the store, and none dropped. It prints the medians of the datapoints a second that were taken, of
the processor seconds of the relay for a million of them, and, for files, the same of their way from there to the store.
--beside names another build of the relay, measured in turn.
"""

import os
import re
import shutil
import socket
import statistics
import tempfile
import time

from peers import ADMIN_PORT, HOST, Plan, Relayd
from relaying import NAMES, PATIENCE, STORES, Scene, Stores, build, producer_words, send
from shared import demand, missing, options

PRODUCERS = 8
SIZE = 8_000_000_000  # bytes that the files may have
REST = 0.01           # seconds between two looks at the relay
BARS = {"rate": 1_500_000, "cost": 1.0}


class Spooling(Relayd):
    """A relay that keeps in files what a store does not take."""

    def __init__(self, plan):
        super().__init__(plan)
        self.spool = tempfile.mkdtemp(prefix="relayd-spool")

    def words(self):
        return [*super().words(), "--spool", self.spool, "--spool-size", str(SIZE)]

    def __exit__(self, *_):
        super().__exit__()
        shutil.rmtree(self.spool, ignore_errors=True)

    def report(self):
        """The counts of its destination by name."""
        with socket.create_connection((HOST, ADMIN_PORT), timeout=5) as admin:
            admin.sendall(b"report\n")
            text = b"".join(iter(lambda: admin.recv(65_536), b"")).decode()
        return {word: int(count) for word, count in re.findall(r"(queued|offered|kept|dropped|taken) (\d+)", text)}

    def wait_until_taken(self, count):
        """Waits until its queue is empty, and so many datapoints were offered. Gives the moment."""
        end = time.monotonic() + PATIENCE
        while time.monotonic() < end:
            now, counts = time.monotonic_ns(), self.report()
            if counts["offered"] >= count and counts["queued"] == 0:
                return now
            time.sleep(REST)
        missing(f"the relay did not take all within {PATIENCE} seconds: {self.report()}")


def relay_of(program, name):
    """A relay of a build."""

    class Build(Spooling):
        """One build."""

    Build.program, Build.name = program, name
    return Build


def to_a_store(scene, kind):
    """A round with a store that reads: datapoints a second, and processor seconds for a million."""
    stores = Stores(scene.sent(), [str(STORES[0])])
    try:
        with kind(scene.plan) as relay:
            before = relay.processor_seconds()
            began, trouble = send(producer_words(scene, relay))
            lines, at, _ = stores.result(PATIENCE)
            if trouble or sum(lines) != scene.sent():
                missing(f"{kind.name}: {trouble or 'lost some'}: the store has {sum(lines):,} of {scene.sent():,}")
            return sum(lines) / ((at - began) / 1e9), (relay.processor_seconds() - before) * 1e6 / sum(lines)
    finally:
        stores.end()


def over_files(scene, kind):
    """A round with a store that is away, and returns: datapoints a second and processor seconds for a million, to files and from
    there to the store."""
    with kind(scene.plan) as relay:
        before = relay.processor_seconds()
        began, trouble = send(producer_words(scene, relay))
        taken_at = relay.wait_until_taken(scene.sent())
        kept = relay.processor_seconds() - before
        dropped = relay.report()["dropped"]
        if trouble or dropped:
            missing(f"{kind.name}: {trouble or f'dropped {dropped:,}'}")
        before = relay.processor_seconds()
        stores = Stores(scene.sent(), [str(STORES[0])])
        back = time.monotonic_ns()
        try:
            lines, at, _ = stores.result(PATIENCE)
        finally:
            stores.end()
        if sum(lines) != scene.sent():
            missing(f"{kind.name}: the store has {sum(lines):,} of {scene.sent():,} after its return")
        sent = relay.processor_seconds() - before
    million = scene.sent() / 1e6
    return (scene.sent() / ((taken_at - began) / 1e9), kept / million, scene.sent() / ((at - back) / 1e9), sent / million)


def show(name, stores, files):
    """The medians of a build."""
    store, file = ([statistics.median(column) for column in zip(*rows)] for rows in (stores, files))
    least = min(row[0] for row in files)
    cost = statistics.median(there[1] / kept[1] for there, kept in zip(files, stores))
    print(f"{name}\n  to a store             {store[0]:12,.0f} /s  {store[1]:6.3f} s CPU a million\n"
          f"  to files               {file[0]:12,.0f} /s  {file[1]:6.3f} s CPU a million, {cost:.2f} times that of a store\n"
          f"  from files to a store  {file[2]:12,.0f} /s  {file[3]:6.3f} s CPU a million\n"
          f"  at least {BARS['rate']:,} a second to files: {'held' if least >= BARS['rate'] else 'missed'} in the slowest of "
          f"{len(files)} rounds; at most the cost of a store: {'held' if cost <= BARS['cost'] else 'missed'}", flush=True)


def main():
    """Measures, and prints the medians of each build."""
    parser = options(__doc__.split("\n", 1)[0], "--relayd", "relayd")
    parser.add_argument("--beside", metavar="PATH", type=os.path.abspath, help="another build, measured in turn")
    parser.add_argument("--times", metavar="N", type=int, default=40,
                        help="each producer sends 20,000 datapoints so often a round")
    given = parser.parse_args()
    demand(given.relayd)
    build()
    scene = Scene("eight producers, one store", Plan(STORES[:1]), given.times, PRODUCERS)
    print(f"{scene.text}; {scene.sent():,} datapoints of {NAMES:,} names a round, {given.rounds} rounds", flush=True)
    kinds = [relay_of(given.relayd, "relayd"), *([relay_of(given.beside, "the other build")] if given.beside else [])]
    stores, files = ({kind.name: [] for kind in kinds} for _ in range(2))
    for _ in range(given.rounds):
        for kind in kinds:
            stores[kind.name].append(to_a_store(scene, kind))
            files[kind.name].append(over_files(scene, kind))
    for kind in kinds:
        show(kind.name, stores[kind.name], files[kind.name])


if __name__ == "__main__":
    main()
