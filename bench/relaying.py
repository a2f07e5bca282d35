#!/usr/bin/env python3
"""The running relay beside carbon-c-relay and carbon-relay, in turn in one run.

    python3 bench/relaying.py [--relayd PATH] [--rounds N] [--seconds N] [--table FILE] [SCENE ..]

The same generator (`bench/producer.c`) sends the same bytes to each, and the
same stores (`bench/store.c`) count what comes out; `direct` is the generator
at the stores, with nothing between.

carbon-c-relay has many ways to run. Each is tried once, and the one that hands
on most without a loss is measured. From the trials a round also gets its length,
at least --seconds. On a ring each way first relays each name once, and the
counts of the stores must be those of carbon's own router (`bench/spread.py`);
otherwise the run fails, since a relay that gives one store everything does other
work. The counts of each round are looked at too.

For each relay the medians of the rounds are printed: how many datapoints arrived
a second, from the first byte sent until the last that came, with the least and
the most of the rounds; processor seconds of the relay for a million that arrived;
its peak memory; and which part was lost of those that were to arrive. Where a
scene has a bar, a line says whether the medians held it; further lines have what
relayd handed on and the processor time of each peer as multiples. A relay that
takes or gives too slowly is ended, and the round says so. --table writes the
medians to a file too, from which `bench/draw.py` draws and `bench/page.py` prints
the table of docs/BENCH.md.
"""

import copy
import math
import os
import pickle
import shutil
import socket
import statistics
import struct
import subprocess
import time

from peers import (CarbonCRelay, CarbonRelay, HOST, LINE_PORT, NoRelay, NotStarted, PICKLE_PORT, Plan, Relayd, UDP_PORT, WAYS,
                   WAYS_WITH_QUEUE)
from shared import DATA, HERE, demand, missing, options
from spread import counts_by_store

STORES = [22101, 22102, 22103, 22104]
NAMES = 20_000
FEW_NAMES = 4_000  # of each connection where there are many
FRESH_NAMES = 1_000_000  # each of which comes once
STAMP = 1_700_000_000
PATIENCE = 60  # seconds within which a relay is to take what is sent, and as many again to hand it on
CHANCE = 0.05  # by how much a store's share of many names may differ from its share of the first 20,000


def build():
    """Builds the generator and the stores."""
    os.makedirs(DATA, exist_ok=True)
    gcc = shutil.which("gcc") or missing("gcc is missing")
    for name in ("producer", "store"):
        words = [gcc, "-std=c11", "-O2", "-pthread", "-o", os.path.join(DATA, name), os.path.join(HERE, name + ".c")]
        if subprocess.run(words).returncode:
            missing(f"gcc could not build bench/{name}.c")


def names(count=NAMES):
    """The first `count` metric names."""
    return (f"servers.web{i % 97:02d}.cpu{i % 8}.metric{i:05d}" for i in range(count))


def line_file(count=NAMES):
    """A file with a line for each of the first `count` names."""
    path = os.path.join(DATA, f"relayed-{count}.txt")
    if not os.path.exists(path):
        with open(f"{path}.new", "w", encoding="ascii") as file:
            for i, name in enumerate(names(count)):
                file.write(f"{name} {i * 7} {STAMP + i % 60}\n")
        os.replace(f"{path}.new", path)
    return path


def pickle_file():
    """The same datapoints in frames of 500."""
    path = os.path.join(DATA, "relayed.pickles")
    rows = [(name, (STAMP + i % 60, i * 7)) for i, name in enumerate(names())]
    with open(path, "wb") as file:
        for i in range(0, len(rows), 500):
            body = pickle.dumps(rows[i:i + 500], protocol=2)
            file.write(struct.pack("!L", len(body)) + body)
    return path


class Direct(NoRelay):
    """The generator sends to the store."""

    port = datagram_port = STORES[0]


class Stores:
    """The stores of a round."""

    def __init__(self, expected, words):
        self.process = subprocess.Popen([os.path.join(DATA, "store"), str(expected), *words],
                                        stdin=subprocess.PIPE, stdout=subprocess.PIPE, text=True)
        if self.process.stdout.readline() != "ready\n":
            missing("the stores do not listen")

    def end(self):
        """Ends the stores."""
        if self.process.poll() is None:
            self.process.kill()
        self.process.communicate()

    def result(self, seconds):
        """How many lines each store got, when the last came, and whether all came, or none for a while, within this number
        of seconds."""
        in_time = True
        try:
            self.process.wait(seconds)
        except subprocess.TimeoutExpired:
            in_time = False
        # The end of their input ends the stores, if nothing has yet.
        rows = self.process.communicate(timeout=10)[0].split("\n")
        lines = [int(row.split()[1]) for row in rows if row and not row.startswith("at")]
        at = next(int(row.split()[1]) for row in rows if row.startswith("at"))
        return lines, at, in_time


class Scene:
    """One thing that is measured."""

    def __init__(self, text, plan, times, connections=1, kind="lines", rate=None, peers=(), stalled=(), bar=None):
        self.text, self.plan, self.times, self.connections = text, plan, times, connections
        self.kind, self.rate, self.stalled = kind, rate, stalled
        self.peers = peers  # the ways to run each relay
        self.bar = bar  # how many datapoints a second this relay is to hand on, at least
        plan.room = self.sent() * max(plan.replicas, 1)

    def sent(self):
        """How many datapoints are sent."""
        count = {"few lines": FEW_NAMES, "fresh lines": FRESH_NAMES}.get(self.kind, NAMES)
        return count * self.times * (1 if self.rate else self.connections)

    def expected(self):
        """How many are to arrive at stores that read."""
        if self.plan.replicas:
            return None if self.stalled else self.sent() * self.plan.replicas
        return self.sent() * (len(self.plan.stores) - len(self.stalled))

    def repeated(self, times, connections=None, kind=None):
        """The same with another number of datapoints."""
        return Scene(self.text, copy.copy(self.plan), times, connections or self.connections, kind or self.kind,
                     self.rate, self.peers, self.stalled, self.bar)

    def file(self):
        """What each connection sends, and how often. A name that comes once is sent once."""
        if self.kind == "fresh lines":
            return line_file(FRESH_NAMES * self.times), 1
        if self.kind == "pickles":
            return pickle_file(), self.times
        return line_file(FEW_NAMES if self.kind == "few lines" else NAMES), self.times


def producer_words(scene, relay):
    """The generator's command line for a scene."""
    producer = os.path.join(DATA, "producer")
    path, times = scene.file()
    if scene.rate:
        port = getattr(relay, "datagram_port", UDP_PORT)
        return [producer, "udp", str(port), str(scene.rate), str(times), path]
    port = PICKLE_PORT if scene.kind == "pickles" else LINE_PORT
    return [producer, "tcp", str(getattr(relay, "port", port)), str(scene.connections), str(times), path]


def store_word(scene, kind, port):
    """What the stores know of a port: whether they read there, and whether datagrams go straight to it."""
    if port in scene.stalled:
        return f"-{port}"
    return f"u{port}" if scene.rate and kind is Direct else str(port)


def send(words):
    """Runs the generator. Gives the moment of the first byte, or what went wrong."""
    try:
        sender = subprocess.run(words, stdout=subprocess.PIPE, text=True, timeout=PATIENCE)
    except subprocess.TimeoutExpired:
        return None, f"did not take all within {PATIENCE} seconds"
    if sender.returncode:
        return None, "closed the connection of a producer"
    return int(sender.stdout.split()[1]), None


def demand_spread(scene, kind, counts, lost):
    """Ends the run where a store of a ring got more than carbon's ring gives it, or less although nothing was lost."""
    shares = counts_by_store(names(NAMES), scene.plan, Relayd.program)
    tolerance = CHANCE if scene.kind == "fresh lines" else kind.tolerance
    for port, count, share in zip(scene.plan.stores, counts, shares):
        wanted = share * scene.sent() / NAMES
        if count > wanted * (1 + tolerance) or not lost and count < wanted * (1 - tolerance):
            missing(f"{kind.name} gave the stores {counts} of {scene.sent():,} datapoints, and carbon's ring of "
                    f"{NAMES:,} names {shares}: see the store at {port}")


def measure(scene, kind):
    """One round: datapoints a second, processor seconds for a million, peak memory and lost; or what went wrong."""
    expected = scene.expected()
    words = [store_word(scene, kind, port) for port in scene.plan.stores]
    generator = producer_words(scene, kind)
    stores = Stores(expected or 2**62, words)
    try:
        with kind(scene.plan) as relay:
            before = relay.processor_seconds()
            began, trouble = send(generator)
            counts, at, in_time = stores.result(0 if trouble else PATIENCE)
            lines = sum(counts)
            if not trouble and not in_time:
                trouble = f"did not hand on all within {PATIENCE} seconds more"
            if trouble:
                return f"{trouble}, had handed on {lines:,}"
            used, peak = relay.processor_seconds() - before, relay.peak_memory()
    except NotStarted:
        return "did not start"
    finally:
        stores.end()
    lost = (expected or lines) - lines
    if scene.plan.replicas:
        demand_spread(scene, kind, counts, lost)
    seconds = (at - began) / 1e9
    return lines / seconds, used * 1e6 / max(lines, 1), peak, lost


def check_spread(scene, kind):
    """Lets a relay relay each name once, slowly enough to lose none, and looks at which store got how many."""
    row = measure(scene.repeated(1, 1, "lines"), kind)
    if isinstance(row, str) or row[3]:
        missing(f"{kind.name} is to relay {NAMES:,} names once, and {row if isinstance(row, str) else f'lost {row[3]:,}'}")


def repeated_for(scene, row, seconds):
    """The scene with so many datapoints that a round takes this many seconds, by the trial of it."""
    took = (scene.expected() - row[3]) / row[0]
    return scene.repeated(math.ceil(scene.times * max(seconds / took, 1)))


def chosen_way(scene, ways):
    """The way to run a relay that hands on most a second of those that lose nothing, with its trial; none where each
    had trouble."""
    trials = []
    for way in ways:
        if scene.plan.replicas:
            check_spread(scene, way)
        row = measure(scene, way)
        if isinstance(row, str):
            print(f"  {way.name:32} {row}, and was ended", flush=True)
        else:
            trials.append((way, row))
            if len(ways) > 1:
                print(f"  {way.name:32} {row[0]:12,.0f} /s in a trial, {row[3]:,} lost", flush=True)
    return max(trials, key=lambda trial: (trial[1][3] == 0, trial[1][0]), default=None)


def chosen_ways(scene, seconds):
    """The best way to run each relay of a scene, with the scene at its length."""
    for ways in scene.peers:
        if reason := ways[0].missing():
            print(f"  {ways[0].name}: left out, {reason}")
        elif found := chosen_way(scene, ways):
            way, row = found
            yield way, repeated_for(scene, row, seconds)


def show_row(scene, name, row, rates):
    """A relay's medians, and whether they hold the bar of the scene."""
    rate, used, peak, lost = row
    print(f"  {name:32} {rate:12,.0f} /s ({min(rates):,.0f} to {max(rates):,.0f})  {used:7.2f} s CPU a million  "
          f"{peak / 1024:7.1f} MB  {lost:.2%} lost", flush=True)
    if scene.bar and name == Relayd.name:
        print(f"  at least {scene.bar:,} a second, none lost: {'held' if rate >= scene.bar and not lost else 'missed'}",
              flush=True)


def show(scene, rounds, seconds):
    """Measures a scene with each of its relays in turn, some times, and prints the medians.

    A relay that was ended in a round has no further one.
    """
    print(f"\n{scene.text}", flush=True)
    chosen = list(chosen_ways(scene, seconds))
    found = {way.name: [] for way, _ in chosen}
    for _ in range(rounds):
        for way, longer in chosen:
            rows = found[way.name]
            if not any(isinstance(row, str) for row in rows):
                row = measure(longer, way)
                rows.append(row if isinstance(row, str) else (*row[:3], row[3] / longer.expected()))
    medians = {}
    for name, rows in found.items():
        for trouble in (row for row in rows if isinstance(row, str)):
            print(f"  {name:32} {trouble}, and was ended", flush=True)
        rows = [row for row in rows if not isinstance(row, str)]
        if rows:
            row, rates = [statistics.median(column) for column in zip(*rows)], [row[0] for row in rows]
            medians[name] = (*row, min(rates), max(rates))
            show_row(scene, name, row, rates)
    ours = medians.get(Relayd.name)
    for name, (rate, used, *_) in medians.items():
        if name.startswith("carbon") and ours:
            print(f"  relayd hands on {ours[0] / rate:.2f} times as much as {name}, with {ours[1] / used:.2f} of its "
                  "processor time for a datapoint that arrived", flush=True)
    return medians


def write_table(path, scenes):
    """The medians of scenes, a row for each relay, as `bench/draw.py` and `bench/page.py` read them."""
    with open(path, "w", encoding="ascii") as file:
        file.write("scene\trelay\tdatapoints a second\tleast\tmost\tprocessor seconds a million\tmegabytes\tlost %\n")
        for scene, medians in scenes.items():
            for name, (rate, used, peak, lost, least, most) in medians.items():
                file.write(f"{scene}\t{name}\t{rate:.0f}\t{least:.0f}\t{most:.0f}\t{used:.2f}\t{peak / 1024:.1f}\t"
                           f"{lost * 100:.2f}\n")


def latency(kind, count=2000, seconds=20):
    """Milliseconds from a line written to it read at the store, one at rest after the other: 50th and 99th percentile.

    It sends this number of them, or as many as come through in this number of seconds.
    """
    with socket.create_server((HOST, STORES[0])) as store, kind(Plan(STORES[:1])) as relay:
        port = getattr(relay, "port", LINE_PORT)
        with socket.create_connection((HOST, port)) as producer:
            producer.setsockopt(socket.IPPROTO_TCP, socket.TCP_NODELAY, 1)
            producer.sendall(b"first 1 1\n")
            stream, _ = store.accept()
            with stream:
                stream.recv(100)
                took, end = [], time.monotonic() + seconds
                for i in range(count):
                    if time.monotonic() > end:
                        break
                    time.sleep(0.002)
                    began = time.perf_counter()
                    producer.sendall(b"a.b.c %d 1700000000\n" % i)
                    stream.recv(100)
                    took.append((time.perf_counter() - began) * 1e3)
    took.sort()
    return took[len(took) // 2], took[len(took) * 99 // 100]


def full_queue(kind):
    """Peak memory in MB with 1,000,000 datapoints queued for a store that does not read."""
    plan = Plan(STORES[:1], queue=1_000_000)
    stores = Stores(2**62, [f"-{STORES[0]}"])
    with kind(plan) as relay:
        subprocess.run([os.path.join(DATA, "producer"), "tcp", str(LINE_PORT), "1", "60", line_file()],
                       stdout=subprocess.DEVNULL, check=True)
        time.sleep(1)
        peak = relay.peak_memory()
    stores.end()
    return peak / 1024


DIRECT, OURS = (Direct,), (Relayd,)
BOTH = (OURS, WAYS)
SCENES = {
    "one": Scene("one producer, one store", Plan(STORES[:1]), 100, peers=(DIRECT, *BOTH), bar=1_000_000),
    "short": Scene("one producer, one store, a queue of 10,000", Plan(STORES[:1], queue=10_000), 100,
                   peers=(OURS, WAYS_WITH_QUEUE), bar=1_000_000),
    "ring": Scene("eight producers, a ring of four", Plan(STORES, replicas=1), 15, 8, peers=BOTH, bar=1_500_000),
    "copies": Scene("eight producers, a ring of four, two copies", Plan(STORES, replicas=2), 10, 8, peers=BOTH),
    "fresh": Scene("names that come once, one producer, a ring of four", Plan(STORES, replicas=1), 1,
                   kind="fresh lines", peers=BOTH),
    "pickles": Scene("pickles of 500, one producer, one store", Plan(STORES[:1]), 20, kind="pickles",
                     peers=(OURS, (CarbonRelay,))),
    "rules": Scene("20 relay rules, one producer, one store", Plan(STORES[:1], rules=20), 50, peers=BOTH),
    "rewriting": Scene("a rewrite rule, one producer, one store", Plan(STORES[:1], rewriting=True), 50, peers=BOTH),
    "datagrams": Scene("datagrams at 50,000 a second, one store", Plan(STORES[:1], udp=True), 10, rate=50_000,
                       peers=(DIRECT, *BOTH, (CarbonRelay,)), bar=49_000),
    "many": Scene("1,000 connections, one store", Plan(STORES[:1], queue=1_000_000), 1, 1000, kind="few lines",
                  peers=BOTH),
    "stalled": Scene("one of four stores does not read, each gets all", Plan(STORES), 25, stalled=STORES[3:],
                     peers=BOTH),
}


def show_beside(name):
    """Prints what is measured of a relay at rest, and of one with a full queue."""
    for kind in (Relayd, CarbonCRelay):
        if kind.missing() is not None:
            continue
        if name == "latency":
            middle, late = latency(kind)
            print(f"\nlatency at rest, {kind.name}: {middle:.2f} ms at the 50th percentile, {late:.2f} ms at the 99th",
                  flush=True)
        else:
            print(f"\npeak memory with 1,000,000 queued, {kind.name}: {full_queue(kind):.0f} MB", flush=True)


def main():
    """Measures what is asked for."""
    parser = options(__doc__.split("\n", 1)[0], "--relayd", "relayd")
    parser.add_argument("--senders", type=int, default=1)
    parser.add_argument("--seconds", type=float, default=10, help="how long a round takes at least")
    parser.add_argument("--table", metavar="FILE", help="writes the medians to this file too")
    parser.set_defaults(rounds=3)
    parser.add_argument("scenes", metavar="SCENE", nargs="*")
    given = parser.parse_args()
    demand(given.relayd)
    Relayd.program, Relayd.senders = given.relayd, given.senders
    build()
    beside = ["latency", "memory"]
    found = {}
    for name in given.scenes or [*SCENES, *beside]:
        if name in SCENES:
            found[name] = show(SCENES[name], given.rounds, given.seconds)
        elif name in beside:
            show_beside(name)
        else:
            missing(f"there is no scene {name}; there are {', '.join([*SCENES, *beside])}")
    if given.table:
        write_table(given.table, found)


if __name__ == "__main__":
    main()
