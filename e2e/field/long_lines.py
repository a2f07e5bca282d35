"""A relay, carbon's or another relayd, or carbon-cache behind relayd, and a producer whose lines are longer than it reads: the
datapoints of others all arrive.
"""

import contextlib
import functools
import itertools
import pickle
import socket
import struct
import tempfile
import threading
import time

from fixtures.harness import Settings
from fixtures.stores import Store, free_ports

from cases import Field
from programs import HOST, LIMIT, CarbonCache, CarbonRelay, Relayd, wait_until

LONGEST_LINE = 16_384
LONG = b"x" * (LONGEST_LINE - 5) + b" 1 -1"  # shorter than a line may be, until the time is written for -1
PICKLED = pickle.dumps([("x" * LONGEST_LINE, (1, 1))], 2)
PACE = 0.005   # seconds between two datapoints of the honest producer
COUNT = 12     # long lines
RATE = 5       # a second
RATES = {5: 30, 50: 100}  # in the longer form, with the number of long lines: without a limit each takes a second
LIMITED = ("--longest-name", "1024")
QUEUE = 100_000
PATIENCE = 400  # seconds


def by_line(relay):
    """A long line."""
    with socket.create_connection((HOST, relay.line_port), LIMIT) as stream:
        stream.sendall(LONG + b"\n")


def by_pickle(relay):
    """A datapoint whose line is long."""
    with socket.create_connection((HOST, relay.pickle_port), LIMIT) as stream:
        stream.sendall(struct.pack("!L", len(PICKLED)) + PICKLED)


def by_datagram(relay):
    """A long line as a datagram."""
    with socket.socket(socket.AF_INET, socket.SOCK_DGRAM) as sender:
        sender.sendto(LONG, (HOST, relay.udp_port))


WAYS = (by_line, by_pickle, by_datagram)


def sent_beside_long_lines(relay, ways=WAYS, rate=RATE, count=COUNT):
    """Sends this many long lines a second by these ways in turn, and gives the numbers of the honest datapoints that were sent
    meanwhile."""
    ends, sent = threading.Event(), []

    def produce():
        with socket.create_connection((HOST, relay.line_port), LIMIT) as stream:
            while not ends.wait(PACE):
                stream.sendall(b"honest.n%d %d %d\n" % (len(sent), len(sent), time.time()))
                sent.append(len(sent))

    producer = threading.Thread(target=produce, daemon=True)
    producer.start()
    for _, send in zip(range(count), itertools.cycle(ways)):
        time.sleep(1 / rate)
        send(relay)
    time.sleep(1)
    ends.set()
    producer.join(LIMIT)
    return sent


def of_store(store):
    """The numbers of the honest datapoints that came to a store."""
    return [int(line.split()[1].partition(b".")[0]) for line in store.lines() if line.startswith(b"honest.n")]


def of_cache(cache):
    """Those that a cache keeps."""
    return sorted(int(name.removeprefix("honest.n")) for name in cache.metrics() if name.startswith("honest.n"))


@contextlib.contextmanager
def behind_carbon_cache(folder):
    """The port of a carbon-cache, and what gives the numbers that came to it."""
    with CarbonCache(folder) as cache:
        yield cache.port, functools.partial(of_cache, cache)


@contextlib.contextmanager
def behind_carbon_relay(folder):
    """The same of a carbon-relay before a store."""
    with began_store() as store, CarbonRelay(folder, store.port, "line") as other:
        yield other.port, functools.partial(of_store, store)


@contextlib.contextmanager
def behind_relayd(folder):
    """The same of a second relayd."""
    with began_store() as store, Relayd(folder, [f"{HOST}:{store.port}"], queue=QUEUE) as other:
        yield other.line_port, functools.partial(of_store, store)


@contextlib.contextmanager
def began_store():
    """A store that listens."""
    store = Store(*free_ports(1))
    store.start()
    try:
        yield store
    finally:
        store.stop()


class LongLines(Field):
    """An honest producer beside long lines: five a second, by each way in turn. In the longer form also five and fifty a second,
    by each way alone, with a limit on names and without."""

    def all_arrive(self, behind):
        """Each honest datapoint arrives, once and in order."""
        self.arrives(behind)
        if Settings.longer:
            for options, rate, way in itertools.product((LIMITED, ()), RATES, WAYS):
                with self.subTest(options=options, rate=rate, way=way.__name__):
                    self.arrives(behind, options, ways=(way,), rate=rate, count=RATES[rate])

    def arrives(self, behind, options=(), **how):
        """The same beside some long lines."""
        folder, own = (tempfile.mkdtemp(dir=self.folder) for _ in range(2))
        with behind(folder) as (port, arrived), \
                Relayd(own, [f"{HOST}:{port}"], queue=QUEUE, options=options) as relay:
            sent = sent_beside_long_lines(relay, **how)
            wait_until(lambda: len(arrived()) >= len(sent), PATIENCE)
            self.assertEqual(arrived(), sent)
            self.settles(relay)

    def test_carbon_cache(self):
        self.all_arrive(behind_carbon_cache)

    def test_carbon_relay(self):
        self.all_arrive(behind_carbon_relay)

    def test_another_relayd(self):
        self.all_arrive(behind_relayd)
