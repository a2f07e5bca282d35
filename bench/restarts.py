#!/usr/bin/env python3
"""What restarts, distance and stores that come back cost, beside carbon-c-relay and carbon-relay, in turn in one run.

    python3 bench/restarts.py [--relayd PATH] [--rounds N]

20 producers send 20,000 datapoints a second in all (`e2e/fixtures/restarting.py`),
half of them watching their connections and half of them blind, and beside them
come 1,000 datagrams a second. Each datapoint has a name and a number of its
own, so what is lost is counted exactly. In each round each relay

- is stopped and started again three times: lost at each restart of who watches,
  of the blind ones and of the datagrams, for how long the port is refused, and
  how long the stop takes;
- hands on for five seconds: milliseconds from a producer's write to the store's
  read, in the middle and at the 99th percentile; `direct` is the same without a
  relay;
- loses its store for ten to eleven seconds, with a queue that has room for all: how many
  are lost, how soon after the store's return the first comes and all have come
  that were sent before it, and how many come after a later one of their series.

Printed are the medians of all rounds, the ratios to relayd first. relayd runs
with the options of the service.
"""

import bisect
import contextlib
import os
import random
import statistics
import sys
import time

from peers import LINE_PORT, UDP_PORT, CarbonCRelay, CarbonRelay, NoRelay, Plan, Relayd
from shared import DATA, HERE, demand, options

sys.path.append(os.path.join(os.path.dirname(HERE), "e2e"))
from fixtures.restarting import BLIND, CHUNK, WATCHING, Came, Load, ended, kind_of, longest_refused  # noqa: E402
from fixtures.stores import PIECE, Store  # noqa: E402

STORE = 22101
RESTARTS = 3
BETWEEN = 1.0      # seconds
HANDED_ON = 5.0
AWAY = 10.0        # and up to a second more, since relays try to connect at intervals
BACK = 10.0        # seconds within which all is to come
QUEUE = 1_000_000
HIGHER = -10       # the priority of all programs here


class ServiceRelayd(Relayd):
    """Relayd with the options of its service."""

    datagram_port = UDP_PORT

    def words(self):
        return [*super().words(), "--drain", "20", "--log"]


class Direct(NoRelay):
    """The producers send to the store, and no datagrams."""

    port, datagram_port = STORE, 0


class TimedStore(Store):
    """A store that knows when each piece came."""

    def __init__(self, port):
        super().__init__(port)
        self.pieces = []  # for each connection, where each piece ends, and when it came

    def read(self, stream, place):
        while len(self.pieces) <= place:
            self.pieces.append([])
        with contextlib.suppress(OSError):
            while more := stream.recv(PIECE):
                moment = time.monotonic()
                self.taken[place] += more
                self.pieces[place].append((len(self.taken[place]), moment))

    def arrivals(self):
        """When each datapoint came whole, by its producer and number."""
        found = {}
        for taken, pieces in zip(self.taken, self.pieces):
            ends, at = [end for end, _ in pieces], 0
            for line in bytes(taken).splitlines(keepends=True):
                at += len(line)
                if line.endswith(b"\n"):
                    name, value, _ = line.split()
                    key = name.rpartition(b".")[0], int(value.partition(b".")[0])
                    found.setdefault(key, pieces[bisect.bisect_left(ends, at)][1])
        return found


@contextlib.contextmanager
def began_store():
    """A store that listens."""
    store = TimedStore(STORE)
    store.start()
    try:
        yield store
    finally:
        store.stop()


def datagram_port(relay):
    """Where a relay takes datagrams: carbon-c-relay at the port of lines."""
    return getattr(relay, "datagram_port", LINE_PORT)


def restarts(kind):
    """Lost at a restart of datapoints of who watches and of the blind ones, and of datagrams; for how many seconds the port was
    refused, at the most, and how long a stop took."""
    took, moments = [], []
    with began_store() as store:
        relay = kind(Plan([STORE], queue=QUEUE, udp=True))
        with relay, Load(LINE_PORT, datagram_port(relay)) as load:
            time.sleep(BETWEEN)
            for _ in range(RESTARTS):
                moments.append(time.monotonic())
                relay.begin_end()
                ended(relay.process)
                took.append(time.monotonic() - moments[-1])
                relay.__enter__()
                time.sleep(BETWEEN)
            found = load.end()
        store.finish()
        came = Came([store])
    lost = came.lost(found)
    refused = [longest_refused(found, moment, moment + seconds + BETWEEN) for moment, seconds in zip(moments, took)]
    return (*(len(lost[who]) * CHUNK / RESTARTS for who in (WATCHING, BLIND)), len(came.lost_datagrams(found)) / RESTARTS,
            max(refused), statistics.median(took))


def distance(kind):
    """Milliseconds from a producer's write to the store's read: in the middle, and at the 99th percentile."""
    with began_store() as store:
        with kind(Plan([STORE], queue=QUEUE, udp=True)) as relay:
            with Load(getattr(relay, "port", LINE_PORT)) as load:
                time.sleep(HANDED_ON)
                found = load.end()
            time.sleep(BETWEEN)
        store.finish()
        times = sorted(seconds * 1e3 for seconds, moment in waits(store, found) if moment > found["began"] + BETWEEN)
    return times[len(times) // 2], times[len(times) * 99 // 100]


def waits(store, found):
    """For the last datapoint of each write that came: after how many seconds, and when it was written."""
    arrivals = store.arrivals()
    for number, (chunks, moments) in enumerate(zip(found["sent"], found["moments"])):
        name = b"%s.p%d" % (kind_of(number).encode(), number)
        for chunk, moment in zip(chunks, moments):
            if came := arrivals.get((name, chunk * CHUNK + CHUNK - 1)):
                yield came - moment, moment


def comes_back(kind):
    """What a store that was away finds: how many datapoints are lost, after how many seconds the first and the last of those
    that were sent before come, and how many come after a later one of their series."""
    with began_store() as store:
        with kind(Plan([STORE], queue=QUEUE, udp=True)):
            with Load(LINE_PORT) as load:
                time.sleep(BETWEEN)
                store.stop()
                time.sleep(AWAY + random.random())
                back = time.monotonic()
                store.start()
                time.sleep(BACK)
                found = load.end()
            time.sleep(BETWEEN)
        time.sleep(BETWEEN)
        came = Came([store])
        lost = sum((b"%s.p%d" % (kind_of(number).encode(), number), i) not in came.numbers
                   for number, chunks in enumerate(found["sent"]) for chunk in chunks
                   for i in range(chunk * CHUNK, (chunk + 1) * CHUNK))
        late = [moment + seconds - back for seconds, moment in waits(store, found)
                if moment < back < moment + seconds]
    return lost, min(late, default=0.0), max(late, default=0.0), came.disordered


def show(title, columns, measured, kinds, rounds):
    """Measures each relay in turn, some times, and prints the medians."""
    print(f"\n{title}", flush=True)
    found = {kind.name: [] for kind in kinds}
    for _ in range(rounds):
        for kind in kinds:
            found[kind.name].append(measured(kind))
    medians = {name: [statistics.median(column) for column in zip(*rows)] for name, rows in found.items()}
    ours = medians[Relayd.name]
    for name, row in medians.items():
        ratios = ", ".join(f"{them / us:,.1f}" if us else "same" if them == us else "-" for them, us in zip(row, ours))
        if name != Relayd.name:
            print(f"  {name:25} times what relayd has: {ratios}", flush=True)
    for name, row in medians.items():
        print(f"  {name:25} " + "  ".join(f"{text.format(value)}" for text, value in zip(columns, row)), flush=True)


def given_rounds(description):
    """How many rounds are run, once the program to measure is known and all here has its priority."""
    parser = options(description, "--relayd", "relayd")
    parser.set_defaults(rounds=3)
    given = parser.parse_args()
    demand(given.relayd)
    Relayd.program = given.relayd
    os.makedirs(DATA, exist_ok=True)
    with contextlib.suppress(OSError):
        os.nice(HIGHER)
    return given.rounds


def main():
    """Measures all."""
    rounds = given_rounds(__doc__.split("\n", 1)[0])
    kinds = []
    for kind in (ServiceRelayd, CarbonCRelay, CarbonRelay):
        if reason := kind.missing():
            print(f"  {kind.name}: left out, {reason}")
        else:
            kinds.append(kind)
    show("a restart under load", ("{:,.0f} lost of who watches,", "{:,.0f} of the blind,", "{:,.0f} datagrams;",
                                  "refused for {:.3f} s,", "stopped in {:.3f} s"), restarts, kinds, rounds)
    show("from a producer to the store at 20,000 a second", ("{:.2f} ms in the middle,", "{:.2f} at the 99th percentile"),
         distance, [Direct, *kinds], rounds)
    show("a store that is away for 10 to 11 s", ("{:,.0f} lost;", "the first after {:.2f} s,", "all after {:.2f} s;",
                                                   "{:,.0f} out of order"), comes_back, kinds, rounds)


if __name__ == "__main__":
    main()
