"""Cases with real programs. Each compares what stores kept with what producers say that they sent."""

import collections
import contextlib
import os
import random
import re
import shutil
import socket
import subprocess
import tempfile
import threading
import time
import unittest

from fixtures.stores import free_ports
from programs import (CarbonAggregator, CarbonCache, CarbonRelay, Collectd, HAProxy, HOST, LIMIT, Relayd, as_written,
                      wait_until)

TIMES = 8         # that collectd measures each metric at least
LEAST_KEPT = 5    # of those, since two that fall into one second are one value to a store
LEAST_METRICS = 6


class Field(unittest.TestCase):
    """A case with a folder of its own."""

    def setUp(self):
        self.folder = tempfile.mkdtemp(prefix="relayd-field-")
        self.addCleanup(shutil.rmtree, self.folder, ignore_errors=True)

    def path(self, name):
        """A folder for a program."""
        return os.path.join(self.folder, name)

    def begin(self, program):
        """Starts a program, which is ended when the case ends."""
        program.begin()
        self.addCleanup(program.end)
        return program

    def settles(self, relay, pattern="settled"):
        """Stops the relay, whose last line must say that all agrees."""
        relay.end()
        self.assertRegex(relay.output().splitlines()[-1], f"^({pattern})$")
        self.assertEqual(relay.process.returncode, 0)

    def settles_or_is_sealed(self, relay):
        """The same, of a run that may be too long for its steps to be compared."""
        self.settles(relay, r"settled|sealed \d")

    def nothing_lost(self, relay):
        """Whether all that was offered was taken, and nothing was dropped."""
        def holds():
            return all(row["queued"] == 0 and row["dropped"] == 0 for row in relay.report().values())
        self.assertTrue(wait_until(holds), relay.report())


class FromCollectd(Field):
    """collectd, relayd and two carbon-caches."""

    def measured(self, *stores, **how):
        """Lets collectd measure some times, and gives what it measured once all has come to the stores."""
        relay = self.begin(Relayd(self.path("relayd"), **how))
        producer = self.begin(Collectd(self.path("collectd"), relay.line_port))

        def has_measured():
            values = producer.values().values()
            return len(values) >= LEAST_METRICS and min(map(len, values)) >= TIMES
        self.assertTrue(wait_until(has_measured), "collectd has measured")
        producer.end()
        self.nothing_lost(relay)
        sent = producer.values()

        def is_written():
            kept = {}
            for store in stores:
                kept |= store.values()
            return kept == sent
        wait_until(is_written)  # `compare` names what differs still
        self.settles(relay)
        return sent, [store.values() for store in stores]

    def compare(self, sent, kept):
        """What is kept of each metric must be what collectd sent of it."""
        self.assertEqual(sorted(kept), sorted(sent))
        self.assertTrue(any(value % 1 for values in kept.values() for value in values.values()), "a value has a fraction")
        for name, values in kept.items():
            self.assertGreaterEqual(len(values), LEAST_KEPT, name)
            self.assertEqual(values, sent[name], name)

    def test_by_rules(self):
        """By relay rules each store has exactly its own share."""
        first, second = (self.begin(CarbonCache(self.path(name))) for name in ("first", "second"))
        rules = (f"[memory]\npattern = ^collectd\\.web1\\.memory\ndestinations = {HOST}:{first.port}\n\n"
                 f"[rest]\ndefault = true\ndestinations = {HOST}:{second.port}\n")
        sent, kept = self.measured(first, second, rules=rules,
                                   stores=[f"{HOST}:{first.port}", f"{HOST}:{second.port}"])
        self.assertTrue(kept[0] and all(".memory." in name for name in kept[0]))
        self.assertTrue(kept[1] and not any(".memory." in name for name in kept[1]))
        self.compare(sent, {**kept[0], **kept[1]})

    def test_by_ring(self):
        """On the ring each store has the share that carbon's own ring gives it."""
        from carbon.hashing import ConsistentHashRing
        stores = [self.begin(CarbonCache(self.path(name))) for name in ("a", "b")]
        sent, kept = self.measured(*stores, stores=[f"{HOST}:{store.port}:{name}" for store, name in zip(stores, "ab")])
        ring = ConsistentHashRing([(HOST, "a"), (HOST, "b")])
        for values, instance in zip(kept, "ab"):
            self.assertTrue(values)
            self.assertEqual({ring.get_node(name)[1] for name in values}, {instance})
        self.compare(sent, {**kept[0], **kept[1]})


class Taker:
    """A store over memory: takes one connection after the other and keeps what each sent."""

    def __init__(self):
        self.listener = socket.create_server((HOST, 0))
        self.listener.settimeout(LIMIT)
        self.port = self.listener.getsockname()[1]

    def lines(self, count):
        """The next lines of one connection."""
        stream, _ = self.listener.accept()
        got = b""
        with stream:
            stream.settimeout(LIMIT)
            while got.count(b"\n") < count and (more := stream.recv(65536)):
                got += more
        return got.splitlines()


class FromCarbonRelay(Field):
    """carbon's own relay as a producer of pickles."""

    def test_pickles(self):
        """What carbon-relay is given as lines comes out as the same lines, in order."""
        taker = Taker()
        self.addCleanup(taker.listener.close)
        relay = self.begin(Relayd(self.path("relayd"), [f"{HOST}:{taker.port}:a"]))
        producer = self.begin(CarbonRelay(self.path("carbon"), relay.pickle_port))
        lines = [f"servers.web{i % 7}.cpu {i} {1_700_000_000 + i}".encode() for i in range(1500)]
        with socket.create_connection((HOST, producer.port)) as stream:
            stream.sendall(b"\n".join(lines) + b"\n")
            self.assertEqual(taker.lines(len(lines)), lines)
        self.settles(relay)


class ThroughCarbonAggregator(Field):
    """carbon's aggregator as a destination, which sends its sums back to the relay as pickles."""

    def test_sums(self):
        """The store has what was sent, and the sum, which is not aggregated again."""
        taker = Taker()
        self.addCleanup(taker.listener.close)
        port, = free_ports(1)
        store, target = f"{HOST}:{taker.port}", f"{HOST}:{port}"
        relay = self.begin(Relayd(self.path("relayd"), [store, target], rules=(
            f"[to aggregate]\npattern = ^servers\\..*\\.load$\ncontinue = true\ndestinations = {target}\n"
            f"[all]\ndefault = true\ndestinations = {store}\n")))
        self.begin(CarbonAggregator(self.path("aggregator"), relay.pickle_port, port,
                                    "all.load (1) = sum servers.*.load\n"))
        now = int(time.time())
        lines = [f"servers.web{i}.load {i} {now}".encode() for i in range(1, 4)]
        with socket.create_connection((HOST, relay.line_port)) as stream:
            stream.sendall(b"\n".join(lines) + b"\n")
        self.assertEqual(taker.lines(4), [*lines, f"all.load 6 {now}".encode()])
        self.assertEqual([counts["offered"] for counts in relay.report().values()], [4, 3])
        self.settles(relay)


class FromStatsd(Field):
    """A daemon like statsd, which sends what it has gathered as lines, and two carbon-caches."""

    GAUGES = ("12.625", "0.0333333333333333", "1.5e-05", "-0.25", ".5", "1234567.1", "0.30000000000000004")

    def test_gauges_with_fractions(self):
        """Each store keeps what it was sent, rounded to ten decimals."""
        stores = [self.begin(CarbonCache(self.path(name))) for name in ("a", "b")]
        names = [f"{HOST}:{store.port}:{name}" for store, name in zip(stores, "ab")]
        relay = self.begin(Relayd(self.path("relayd"), names))
        now = int(time.time()) - 60
        sent = {f"stats.gauges.web{place}.queue_{number}": {now + i: text for i, text in enumerate(self.GAUGES)}
                for place in range(6) for number in range(4)}
        lines = [f"{name} {text} {moment}\n" for name, values in sent.items() for moment, text in values.items()]
        with socket.create_connection((HOST, relay.line_port)) as stream:
            stream.sendall("".join(lines).encode())
        written = {name: {moment: as_written(text) for moment, text in values.items()} for name, values in sent.items()}

        def are_kept():
            return {**stores[0].values(), **stores[1].values()} == written
        self.assertTrue(wait_until(are_kept), "both stores keep what was sent")
        self.assertTrue(all(store.values() for store in stores))
        self.nothing_lost(relay)
        self.settles(relay)


class FromShell(Field):
    """Producers that send a datagram from a shell."""

    def test_datagrams(self):
        """Each datagram's lines come out."""
        taker = Taker()
        self.addCleanup(taker.listener.close)
        relay = self.begin(Relayd(self.path("relayd"), [f"{HOST}:{taker.port}:a"]))
        for i in range(20):
            words = ["/bin/bash", "-c", f"echo cron.backup.files {i} 170000000{i % 10} >/dev/udp/{HOST}/{relay.udp_port}"]
            subprocess.run(words, check=True)
        expected = [f"cron.backup.files {i} 170000000{i % 10}".encode() for i in range(20)]
        self.assertEqual(taker.lines(20), expected)
        self.settles(relay)


class Keeper:
    """A store over memory that takes all connections at once, and keeps what it reads on each."""

    def __init__(self):
        self.listener = socket.create_server((HOST, 0), backlog=64)
        self.port = self.listener.getsockname()[1]
        self.connections = []
        threading.Thread(target=self.accept, daemon=True).start()

    def accept(self):
        """Takes connections until the listener is closed."""
        while True:
            try:
                stream, _ = self.listener.accept()
            except OSError:
                return
            got = bytearray()
            self.connections.append(got)
            threading.Thread(target=self.read, args=(stream, got), daemon=True).start()

    @staticmethod
    def read(stream, got):
        """Reads a connection to its end."""
        with stream:
            try:
                while more := stream.recv(65536):
                    got += more
            except OSError:
                pass


class Sender(threading.Thread):
    """A producer that numbers its datapoints, and connects again when its connection is lost.

    It keeps what it sent on which connection, and whether the other end read that connection to its end.
    """

    def __init__(self, port, number, stop):
        super().__init__(daemon=True)
        self.port, self.number, self.stop = port, number, stop
        self.sent = 0   # datapoints, on all connections
        self.here = 0   # of these on the connection of now
        self.lost = 0   # connections
        self.whole = set()  # what was sent on the connection that was read to its end

    def run(self):
        while not self.whole:
            first = self.sent
            try:
                with socket.create_connection((HOST, self.port), timeout=LIMIT) as stream:
                    self.send(stream, first)
                    while not self.stop.is_set():
                        self.send(stream, first)
                    self.end(stream, first)
            except OSError:
                self.here, self.lost = 0, self.lost + 1
                time.sleep(0.05)

    def send(self, stream, first):
        """Sends some more datapoints on a connection that began with this number, and rests."""
        lines = [f"load.p{self.number}.m{i % 40} {i} 1700000000\n" for i in range(self.sent, self.sent + 50)]
        self.sent += 50
        stream.sendall("".join(lines).encode())
        self.here = self.sent - first
        time.sleep(0.005)

    def end(self, stream, first):
        """Says that no more comes, and waits until the other end has read all."""
        stream.shutdown(socket.SHUT_WR)
        if stream.recv(1) == b"":
            self.whole = {(f"p{self.number}", i) for i in range(first, self.sent)}


class ScaleOut(Field):
    """HAProxy before three relays of one configuration."""

    def test_a_relay_is_killed(self):
        """Each store has its own share of the ring alone, in whole lines, each producer's in order, nothing twice.

        What producers sent on connections that were not lost is there whole.
        """
        from carbon.hashing import ConsistentHashRing
        stores = {name: Keeper() for name in "abc"}
        for store in stores.values():
            self.addCleanup(store.listener.close)
        targets = [f"{HOST}:{store.port}:{name}" for name, store in stores.items()]
        relays = [self.begin(Relayd(self.path(f"relay{i}"), targets, queue=200_000)) for i in range(3)]
        balancer = self.begin(HAProxy(self.path("haproxy"), [relay.line_port for relay in relays],
                                      [relay.pickle_port for relay in relays]))
        stop = threading.Event()
        senders = [Sender(balancer.port, number, stop) for number in range(6)]
        for sender in senders:
            sender.start()
        self.assertTrue(wait_until(lambda: all(sender.here >= 2000 for sender in senders)))
        relays[0].end(9)
        self.assertTrue(wait_until(lambda: any(sender.lost for sender in senders)))
        self.assertTrue(wait_until(lambda: all(sender.here >= 2000 for sender in senders)))
        stop.set()
        for sender in senders:
            sender.join(LIMIT)
            self.assertTrue(sender.whole, f"the connection of producer {sender.number} was not read to its end")
        for relay in relays[1:]:
            self.nothing_lost(relay)
        whole = set().union(*(sender.whole for sender in senders))
        self.assertTrue(wait_until(lambda: whole <= self.datapoints(stores)))
        for relay in relays[1:]:
            self.settles_or_is_sealed(relay)
        self.compare(stores, ConsistentHashRing([(HOST, name) for name in stores]))

    @staticmethod
    def lines(got):
        """The whole lines of a connection to a store: metric names and values."""
        for line in bytes(got).split(b"\n")[:-1]:
            metric, value, _ = line.decode().split(" ")
            yield metric, int(value)

    def datapoints(self, stores):
        """What the stores have got: the producer and the number of each datapoint."""
        return {(metric.split(".")[1], value) for store in stores.values() for got in store.connections
                for metric, value in self.lines(got)}

    def compare(self, stores, ring):
        """Looks at every line of every store."""
        seen = set()
        for name, store in stores.items():
            for got in store.connections:
                last = collections.defaultdict(lambda: -1)
                for metric, value in self.lines(got):
                    datapoint = (metric.split(".")[1], value)
                    self.assertEqual(ring.get_node(metric)[1], name)
                    self.assertGreater(value, last[metric], f"{metric} {value} comes after {last[metric]}")
                    last[metric] = value
                    self.assertNotIn(datapoint, seen)
                    seen.add(datapoint)


class LostStore(Field):
    """carbon-cache is killed and started again."""

    def test_killed_and_started_again(self):
        """The store has what was sent before and after, and the other store lacks nothing."""
        lost, other = (self.begin(CarbonCache(self.path(name))) for name in ("lost", "other"))
        rules = f"[all]\ndefault = true\ndestinations = {HOST}:{lost.port}, {HOST}:{other.port}\n"
        relay = self.begin(Relayd(self.path("relayd"), [f"{HOST}:{lost.port}", f"{HOST}:{other.port}"], rules=rules))
        self.now, self.sent = int(time.time()) - 1000, 0
        with socket.create_connection((HOST, relay.line_port)) as self.producer:
            self.send(40)
            self.assertTrue(wait_until(lambda: self.kept_by(lost)), "some was written")
            lost.end(9)
            self.assertTrue(wait_until(lambda: self.is_queued(relay, lost)), "the relay knows that the store is gone")
            last = self.sent
            self.send(20)
            lost.begin()
            self.send(40)
        self.nothing_lost(relay)
        whole = {self.now + i: float(i) for i in range(self.sent)}
        self.assertTrue(wait_until(lambda: self.kept_by(other) == whole), self.kept_by(other))
        later = {self.now + i for i in range(last, self.sent)}
        self.assertTrue(wait_until(lambda: later <= set(self.kept_by(lost))), "what came later was written")
        kept = self.kept_by(lost)
        self.assertTrue(all(whole[moment] == value for moment, value in kept.items()))
        # The killed store had not written all that it had, and what was sent before the relay knew is lost.
        missing = sorted(set(range(self.sent)) - {int(value) for value in kept.values()})
        self.assertTrue(not missing or missing[-1] < last, missing)
        self.assertEqual(missing, list(range(missing[0], missing[-1] + 1)) if missing else [])
        self.settles(relay)

    def send(self, count):
        """Sends `count` datapoints, one for each second from long ago on."""
        for i in range(self.sent, self.sent + count):
            self.producer.sendall(f"steady.count {i} {self.now + i}\n".encode())
            time.sleep(0.02)
        self.sent += count

    def is_queued(self, relay, store):
        """Whether some datapoints wait for a store that is gone, after one more was sent."""
        self.send(1)
        return relay.report()[f"{HOST}:{store.port}"]["queued"] > 4

    @staticmethod
    def kept_by(store):
        """What a store keeps of the datapoints."""
        return store.values().get("steady.count", {})


class Gate(threading.Thread):
    """A store that is closed and opened again and again on one port. It looks at every line that it gets."""

    LINE = re.compile(rb"soak\.p\d+\.m\d+ \d+ 1700000000")

    def __init__(self, seed, stop):
        super().__init__(daemon=True)
        self.port, = free_ports(1)
        self.random, self.stop = random.Random(seed), stop
        self.lines, self.losses, self.bad = 0, 0, []

    def run(self):
        is_last = False
        while not is_last:
            is_last = self.stop.is_set()
            with socket.create_server((HOST, self.port)) as listener:
                listener.settimeout(LIMIT if is_last else 3)
                with contextlib.suppress(OSError):
                    stream, _ = listener.accept()
                    self.losses += 1
                    self.take(stream, time.monotonic() + self.random.uniform(1, 8))
            time.sleep(self.random.uniform(0, 1.5))

    def take(self, stream, end):
        """Reads one connection until it is time to close it."""
        rest = b""
        with stream:
            stream.settimeout(1)
            while time.monotonic() < end or self.stop.is_set():
                try:
                    got = stream.recv(1 << 18)
                except TimeoutError:
                    continue
                if not got:
                    return
                *lines, rest = (rest + got).split(b"\n")
                self.lines += len(lines)
                for line in lines[:1] + lines[-1:]:
                    if not self.LINE.fullmatch(line):
                        self.bad.append(line)


class Soak(Field):
    """Full load for a minute, while stores are closed and opened again."""

    SECONDS = 60
    LOSSES = 4  # of connections, for each store
    LINES = 5000  # that a producer sends at once

    def test_every_count_adds_up(self):
        """All lines are whole, and what each queue counted adds up at the end."""
        stop, stores_stop = threading.Event(), threading.Event()
        stores = [Gate(seed, stores_stop) for seed in range(4)]
        targets = [f"{HOST}:{store.port}:s{i}" for i, store in enumerate(stores)]
        for store in stores:
            store.start()
        relay = self.begin(Relayd(self.path("relayd"), targets, replicas=2))
        block = "".join(f"soak.p{i % 9}.m{i} {i} 1700000000\n" for i in range(self.LINES)).encode()
        blocks = []

        def produce():
            with socket.create_connection((HOST, relay.line_port)) as stream:
                while not stop.is_set():
                    stream.sendall(block)
                    blocks.append(1)
        producers = [threading.Thread(target=produce, daemon=True) for _ in range(3)]
        for producer in producers:
            producer.start()
        time.sleep(self.SECONDS)
        self.assertTrue(wait_until(lambda: all(store.losses >= self.LOSSES for store in stores)), "each store was closed")
        stop.set()
        for producer in producers:
            producer.join(LIMIT)
        stores_stop.set()
        self.assertTrue(wait_until(lambda: self.is_through(relay.report(), 2 * self.LINES * len(blocks))), relay.report())
        counts = relay.report()
        for row in counts.values():
            self.assertEqual(row["offered"], row["kept"] + row["dropped"])
            self.assertEqual(row["kept"], row["taken"] + row["queued"])
            self.assertGreater(row["taken"], 0)
        self.settles_or_is_sealed(relay)
        for store, row in zip(stores, counts.values()):
            self.assertEqual(store.bad, [])
            self.assertLessEqual(store.lines, row["taken"] + store.losses)

    @staticmethod
    def is_through(counts, offers):
        """Whether this many offers were made in all, and nothing waits."""
        return (sum(row["offered"] for row in counts.values()) == offers
                and all(row["queued"] == 0 for row in counts.values()))
