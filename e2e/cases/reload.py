"""`relayd reload`: a new configuration without a lost datapoint, over the same sockets."""

import contextlib
import os
import pickle
import random
import resource
import socket
import threading
import time

from fixtures import sockets
from fixtures.harness import LIMIT, Ran, held, run
from fixtures.reloading import ALL, FOREVER, RELOADED, Reloads, numbered, text_of
from fixtures.running import Relay, frame
from fixtures.stores import free_ports

MANY = 1_000  # connections


class Connections(Reloads):
    """What producers see of a reload: nothing."""

    def test_a_line_is_cut(self):
        """The rest of the line comes after the reload, over the same connection, to the same connection of the store."""
        store, = self.stores(1)
        dests = [f"127.0.0.1:{store.port}"]
        with self.running(dests) as relay, socket.create_connection(("127.0.0.1", relay.line), LIMIT) as producer:
            producer.sendall(b"a.1 1 1700000000\na.2 2 17")
            self.wait_for(lambda: store.lines() == [b"a.1 1 1700000000"], "the first line has come")
            self.reloads(relay, dests)
            producer.sendall(b"00000000\na.3 3 1700000000\n")
            self.wait_for(lambda: len(store.lines()) == 3, "all lines have come")
            self.assertEqual(store.lines(), [b"a.%d %d 1700000000" % (n, n) for n in (1, 2, 3)])
            self.assertEqual(store.connections(), 1)
            self.stops(relay)

    def test_a_frame_is_cut(self):
        """Within its length, and within its rows; a frame that is split over two reloads too."""
        store, = self.stores(1)
        dests = [f"127.0.0.1:{store.port}"]
        whole = frame(pickle.dumps([("p.%d" % number, (1700000000, number)) for number in range(500)], 2))
        with self.running(dests) as relay, socket.create_connection(("127.0.0.1", relay.pickle), LIMIT) as producer:
            for cut in (2, 700):
                producer.sendall(whole[:cut])
                self.wait_for(lambda: sockets.under_way(relay.pickle) == 0, "it is read")
                self.reloads(relay, dests)
                producer.sendall(whole[cut:cut + 100])
                self.wait_for(lambda: sockets.under_way(relay.pickle) == 0, "it is read")
                self.reloads(relay, dests)
                producer.sendall(whole[cut + 100:])
            self.wait_for(lambda: len(store.lines()) == 1_000, "all rows have come")
            self.assertEqual(store.lines(), [b"p.%d %d 1700000000" % (number, number) for number in range(500)] * 2)
            self.stops(relay)

    def test_datagrams(self):
        """The socket stays open: what comes meanwhile waits there."""
        store, = self.stores(1)
        dests = [f"127.0.0.1:{store.port}"]
        with self.running(dests) as relay:
            for number in range(5):
                relay.datagram(b"u.%d 1 1700000000\n" % number)
                self.reloads(relay, dests)
            self.wait_for(lambda: len(store.lines()) == 5, "all have come")
            self.assertEqual(sorted(store.lines()), [b"u.%d 1 1700000000" % number for number in range(5)])
            self.stops(relay)

    def test_several_threads(self):
        """With several receivers of lines and several senders each connection and each store goes on."""
        stores = self.stores(3)
        dests = [f"127.0.0.1:{store.port}" for store in stores]
        options = ("--line-receivers", "3", "--senders", "2")
        with self.running(dests, options=options) as relay, contextlib.ExitStack() as at_end:
            producers = [at_end.enter_context(socket.create_connection(("127.0.0.1", relay.line), LIMIT))
                         for _ in range(12)]
            kept = [b""] * len(producers)
            for turn in range(5):
                for number, producer in enumerate(producers):
                    text = kept[number] + b"l%d.%d %d 1700000000\n" % (number, turn, turn)
                    cut = random.randrange(1, len(text))
                    producer.sendall(text[:cut])
                    kept[number] = text[cut:]
                # A destination has another place, and another sender.
                dests = dests[1:] + dests[:1]
                self.reloads(relay, dests)
            for number, producer in enumerate(producers):
                producer.sendall(kept[number])
            for store in stores:
                self.wait_for(lambda: len(store.lines()) == 60, "all lines have come")
                self.assertEqual(store.connections(), 1)
                for number in range(len(producers)):
                    start = b"l%d." % number
                    self.assertEqual([line for line in store.lines() if line.startswith(start)],
                                     [b"l%d.%d %d 1700000000" % (number, turn, turn) for turn in range(5)])
            self.stops(relay)

    def test_many_connections(self):
        """Each of them goes on in the middle of its line."""
        self.needs_descriptors(2 * MANY)
        store, = self.stores(1)
        dests = [f"127.0.0.1:{store.port}"]
        with self.running(dests) as relay, contextlib.ExitStack() as at_end:
            producers = [at_end.enter_context(socket.create_connection(("127.0.0.1", relay.line), LIMIT)) for _ in range(MANY)]
            for number, producer in enumerate(producers):
                producer.sendall(b"m.%d 1 17" % number)
            self.wait_for(lambda: sockets.under_way(relay.line) == 0, "all is read")
            for _ in range(2):
                self.reloads(relay, dests)
            for producer in producers:
                producer.sendall(b"00000000\n")
            self.wait_for(lambda: len(store.lines()) == MANY, "all lines have come")
            self.assertEqual(sorted(store.lines()), sorted(b"m.%d 1 1700000000" % number for number in range(MANY)))
            self.stops(relay)

    def test_an_idle_connection(self):
        """It is closed as soon as without reloads."""
        store, = self.stores(1)
        dests = [f"127.0.0.1:{store.port}"]
        with self.running(dests, options=("--idle", "2")) as relay:
            with socket.create_connection(("127.0.0.1", relay.line), LIMIT) as producer:
                producer.sendall(b"a 1 17")
                producer.settimeout(0.5)
                began = time.monotonic()
                closed = False
                while not closed and time.monotonic() < began + LIMIT:
                    self.reloads(relay, dests)
                    with contextlib.suppress(socket.timeout):
                        closed = producer.recv(1) == b""
                self.assertTrue(closed)
                self.assertGreaterEqual(time.monotonic() - began, 2)
            self.stops(relay)

    def test_connections_are_counted_at_once(self):
        """Those that were handed over are open, in each answer right behind a reload."""
        store, = self.stores(1)
        port, = free_ports(1)
        dests = [f"127.0.0.1:{store.port}"]
        with self.running(dests, options=("--status", str(port))) as relay, contextlib.ExitStack() as producers:
            for _ in range(50):
                producers.enter_context(socket.create_connection(("127.0.0.1", relay.line), LIMIT))
            self.wait_for(lambda: self.connections(relay, port) == 50, "all are counted")
            for _ in range(12):
                self.reloads(relay, dests)
                self.assertEqual([self.connections(relay, port) for _ in range(3)], [50] * 3)
            self.stops(relay)

    def connections(self, relay, port):
        """How many connections of lines the status shows."""
        receivers = self.status(relay, port)["receivers"]
        return next(it["connections"] for it in receivers if it["receiver"] == "line")


class Runs(Reloads):
    """The runs on both sides of a reload: their files, counts and records."""

    def test_the_files_of_the_start(self):
        """Without files the relay reads those again that it began with."""
        one, two = self.stores(2)
        names = [f"127.0.0.1:{store.port}" for store in (one, two)]
        config = self.path("start.conf")
        rules = self.write("start-rules.conf", ALL.format(names[0]))
        *listening, admin = free_ports(4)
        self.write("start.conf", self.configuration(names[:1], listening))
        words = ["run", "--config", config, "--rules", rules, "--admin", str(admin)]
        with held(words, bufsize=0) as child:
            relay = Relay(child, *listening, admin)
            self.assertTrue(relay.is_ready())
            self.write("start.conf", self.configuration(names[1:], listening))
            self.write("start-rules.conf", ALL.format(names[1]))
            self.assertEqual(self.reload(relay), RELOADED)
            relay.lines(b"a 1 1700000000\n")
            self.wait_for(lambda: two.lines() == [b"a 1 1700000000"], "the line has come to the new store")
            self.settles(relay)

    def test_counts_go_on(self):
        """Those of report, status and metrics are of all runs, and never fall."""
        store, = self.stores(1)
        dests = [f"127.0.0.1:{store.port}"]
        status, = free_ports(1)
        with self.running(dests, options=("--status", str(status))) as relay:
            with socket.create_connection(("127.0.0.1", relay.line), LIMIT) as producer:
                for turn in range(1, 4):
                    producer.sendall(b"a 1 1700000000\nbad\n" * 100)
                    self.wait_for(lambda: len(store.lines()) == 100 * turn, "all lines have come")
                    self.wait_for(lambda: relay.totals()["taken"] == 100 * turn, "all are counted")
                    self.reloads(relay, dests)
                    counts = relay.totals()
                    self.assertEqual(counts, {"queued": 0, "offered": 100 * turn, "kept": 100 * turn, "dropped": 0,
                                              "taken": 100 * turn})
                    self.wait_for(lambda: self.received(relay, status) == (100 * turn, 100 * turn), "the status has them")
                    there = self.status(relay, status)["destinations"][0]
                    self.assertTrue(there["connected"])
            self.stops(relay)

    def test_counts_of_a_sealed_run_go_on(self):
        """So do those of a run with more offers than a history has room for, and what was queued comes, once and in order."""
        slow, = self.stores(1, reads=False, room=4096)
        dests = [f"127.0.0.1:{slow.port}"]
        lines = numbered(70_000)
        with self.running(dests, options=("--drain", FOREVER), MAX_QUEUE_SIZE="100000") as relay:
            relay.lines(text_of(lines))
            self.wait_for(lambda: relay.totals()["kept"] == len(lines), "all is queued")
            self.reloads(relay, dests, MAX_QUEUE_SIZE="100000")
            counts = relay.totals()
            self.assertEqual([counts[name] for name in ("offered", "kept", "dropped")], [len(lines), len(lines), 0])
            self.assertEqual(counts["queued"] + counts["taken"], len(lines))
            slow.read_on()
            self.wait_for(lambda: len(slow.lines()) == len(lines), "all lines have come")
            self.assertEqual(slow.lines(), lines)
            self.stops(relay)
        self.assertIn(b"run 1: sealed 0\n", relay.log.lines)

    def test_counts_of_a_sealed_run(self):
        """So are those of a run that was too long for its history to be kept."""
        store, = self.stores(1)
        dests = [f"127.0.0.1:{store.port}"]
        count = 70_000
        with self.running(dests, MAX_QUEUE_SIZE="100000") as relay:
            relay.lines(text_of(numbered(count)))
            self.wait_for(lambda: relay.totals()["taken"] == count, "all are taken")
            before = relay.totals()
            self.reloads(relay, dests, MAX_QUEUE_SIZE="100000")
            self.assertEqual(relay.totals(), before)
            relay.lines(b"b 1 1700000000\n")
            after = {name: number + (name in ("offered", "kept", "taken")) for name, number in before.items()}
            self.wait_for(lambda: relay.totals() == after, "one more is counted")
            self.wait_for(lambda: b"run 1: sealed 0\n" in relay.log.lines, "the log says that it was sealed")
            self.stops(relay)

    def received(self, relay, port):
        """How many datapoints and bad lines the status has."""
        receivers = self.status(relay, port)["receivers"]
        return tuple(sum(it[name] for it in receivers) for name in ("datapoints", "bad_lines"))

    def test_the_log_repeats_nothing(self):
        """What it has said of a receiver's bad input and losses comes once more, at the end, and not after a reload."""
        store, = self.stores(1)
        dests = [f"127.0.0.1:{store.port}"]
        said = {b"receiver line: 1 bad line\n": 2, b"receiver line: bad line from 127.0.0.1: 2 fields\n": 1,
                b"receiver line: 1 unfinished line\n": 2}
        with self.running(dests) as relay:
            relay.lines(b"a 1\na 1 17")
            self.wait_for(lambda: set(said) <= set(relay.log.lines), f"the log has {set(said)}: {relay.log.lines}")
            self.reloads(relay, dests)
            relay.pickles(b"no pickle")
            self.wait_for(lambda: b"receiver pickle: 1 bad pickle\n" in relay.log.lines, "the log goes on")
            self.stops(relay)
        self.assertEqual({line: relay.log.lines.count(line) for line in said}, said)

    def test_records(self):
        """Each run that another one follows has a record of its own, and the last one has the file itself."""
        store, = self.stores(1)
        dests = [f"127.0.0.1:{store.port}"]
        record = self.path("record")
        with self.running(dests, options=("--record", record)) as relay:
            for turn in range(3):
                if turn:
                    self.reloads(relay, dests)
                relay.lines(b"run.%d 1 1700000000\n" % turn)
                self.wait_for(lambda: len(store.lines()) == turn + 1, "the line has come")
            self.stops(relay)
        for turn, name in enumerate((record + ".1", record + ".2", record)):
            with open(name, encoding="ascii") as file:
                text = file.read()
            self.assertIn((b"run.%d" % turn).hex(), text)


class Refusals(Reloads):
    """What a relay does not take: it goes on as it was."""

    def refuses(self, relay, expected, *words):
        """A case: the reload is refused so, and the relay sends as before."""
        with self.subTest(expected):
            self.assertEqual(self.reload(relay, *words), expected)
            relay.lines(b"a 1 1700000000\n")
            relay.sent += 1
            self.wait_for(lambda: len(relay.store.lines()) == relay.sent, "the relay sends as before")

    def test_refusals(self):
        store, = self.stores(1)
        dests = [f"127.0.0.1:{store.port}"]
        with self.running(dests) as relay:
            relay.store, relay.sent = store, 0
            config = self.write("config", "[relay]\nDESTINATIONS = a:b\n")
            fault = Ran(1, b"", b"relayd: config: DESTINATIONS: BadDestination\n")
            self.refuses(relay, fault)
            explained = self.reload(relay, "--explain")
            self.assertEqual(explained.status, 1)
            self.assertTrue(explained.err.startswith(fault.err + b"relayd: note: "), explained)
            os.remove(config)
            away = b"relayd: config: cannot read: %s: No such file or directory (os error 2)\n" % config.encode()
            for words in ((), ("--explain",)):
                self.refuses(relay, Ran(3, b"", away), *words)
            self.write("config", self.configuration(dests, (store.port, *relay.listening[1:])))
            self.refuses(relay, Ran(3, b"", b"relayd: listen: line\n"))
            self.reloads(relay, dests)
            self.write("config", "[relay]\nDESTINATIONS = a:b\n")
            self.refuses(relay, fault)
            self.stops(relay)

    def test_no_relay(self):
        port, = free_ports(1)
        ran = run(("reload", "--admin", str(port)))
        self.assertEqual((ran.status, ran.out), (3, b""))

    def test_a_stop_at_once(self):
        """A stop that comes while a reload is under way is answered by the run that follows, or the reload by nobody."""
        store, = self.stores(1)
        dests = [f"127.0.0.1:{store.port}"]
        for _ in range(5):
            with self.running(dests) as relay:
                lines = numbered(1_000)
                relay.lines(text_of(lines))
                words = self.files(relay, dests)
                ran = []
                asking = threading.Thread(target=lambda: ran.append(self.reload(relay, *words)))
                asking.start()
                time.sleep(random.random() * 0.02)
                self.assertEqual(relay.command(b"stop"), b"stopping\n")
                self.assertEqual(relay.child.wait(LIMIT), 0)
                asking.join(LIMIT)
                self.assertRegex(ran[0].out, rb"\A(reloaded: .*\n)?\Z")
                self.assertEqual(relay.child.stdout.read(), b"settled\n")

    def test_out_of_memory(self):
        """A configuration for which there is no memory is refused, and the relay goes on."""
        store, = self.stores(1)
        dests = [f"127.0.0.1:{store.port}"]

        def limit():
            resource.setrlimit(resource.RLIMIT_AS, (1_000_000_000, 1_000_000_000))

        with self.running(dests, before=limit) as relay:
            relay.store, relay.sent = store, 0
            many = dests + [f"127.0.0.1:{port}" for port in free_ports(40)]
            words = self.files(relay, many, MAX_QUEUE_SIZE="1000000")
            ran = self.reload(relay, *words)
            self.assertEqual(ran, Ran(4, b"", b"relayd: no memory\n"))
            self.refuses(relay, ran, *words)
            self.assertEqual(self.reload(relay, *self.files(relay, dests)), RELOADED)
            self.stops(relay)
