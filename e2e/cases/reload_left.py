"""What an ended run left for a store goes out in the next, before anything newer, with and without files."""

import fcntl
import os
import pickle
import socket
import struct
import termios
import threading
import time

from fixtures import networks, sockets
from fixtures.harness import LIMIT, LONGEST_LINE
from fixtures.reloading import FOREVER, LONG, Reloads, numbered, text_of
from fixtures.stores import Store, free_ports

SENT = "/proc/sys/net/ipv4/tcp_wmem"  # what the system holds of a connection that sends


def waiting_at(stream):
    """How many bytes of a connection wait to be read."""
    return struct.unpack("i", fcntl.ioctl(stream, termios.FIONREAD, bytes(4)))[0]


class Left(Reloads):
    """What stores get that was queued before a reload."""

    def test_a_store_in_the_middle_of_a_line(self):
        """A store that reads nothing keeps its connection over several reloads, and gets all once, in order."""
        store, = self.stores(1, reads=False, room=4096)
        dests = [f"127.0.0.1:{store.port}"]
        with self.running(dests, MAX_QUEUE_SIZE="100000") as relay:
            for turn in range(4):
                relay.lines(text_of(LONG[turn * 5_000:][:5_000]))
                self.wait_for(lambda: relay.totals()["kept"] == (turn + 1) * 5_000, "all lines are queued")
                self.reloads(relay, dests, MAX_QUEUE_SIZE="100000")
            store.read_on()
            self.wait_for(lambda: len(store.lines()) == len(LONG), "all lines have come")
            self.assertEqual(store.lines(), LONG)
            self.assertEqual(store.connections(), 1)
            self.stops(relay)

    def test_a_store_in_the_middle_of_a_line_that_is_too_long(self):
        """That line is the last of its connection all the same: what comes behind it comes by the next one."""
        networks.in_own_network(self.goes_on_in_a_long_line, 32768, 60999)

    def goes_on_in_a_long_line(self):
        """The store has a part of the line at the reload, since the system holds less than a line of it."""
        with open(SENT, "w", encoding="ascii") as file:
            file.write("4096 4096 4096")
        store, = self.stores(1, reads=False, room=4096)
        dests = [f"127.0.0.1:{store.port}"]
        name = "x" * LONGEST_LINE
        lines = [name.encode() + b" 1 1", *numbered(10)]
        status, = free_ports(1)
        with self.running(dests, options=("--status", str(status))) as relay:
            relay.pickles(pickle.dumps([(name, (1, 1))], 2))
            self.wait_for(lambda: store.open and waiting_at(store.open[0]) > 0, "the store has a part of the line")
            self.reloads(relay, dests)
            self.assertLess(self.status(relay, status)["destinations"][0]["written_bytes"], len(lines[0]))
            relay.lines(text_of(lines[1:]))
            self.wait_for(lambda: relay.totals()["kept"] == len(lines), "all lines are queued")
            store.read_on()
            self.wait_for(lambda: store.lines() == lines, "all lines have come")
            self.assertEqual(store.connections(), 2)
            self.stops(relay)

    def test_a_store_that_comes_back(self):
        """What was queued for a store that is away goes out first once it is there."""
        port, = free_ports(1)
        dests = [f"127.0.0.1:{port}"]
        lines = numbered(3_000)
        with self.running(dests) as relay:
            for turn in range(3):
                relay.lines(text_of(lines[turn * 1_000:][:1_000]))
                self.wait_for(lambda: relay.totals()["kept"] == (turn + 1) * 1_000, "all lines are queued")
                self.reloads(relay, dests)
            self.assertEqual(relay.totals()["queued"], 3_000)
            store = Store(port)
            self.addCleanup(store.stop)
            store.start()
            self.wait_for(lambda: len(store.lines()) == 3_000, "all lines have come")
            self.assertEqual(store.lines(), lines)
            self.wait_for(lambda: relay.totals()["queued"] == 0, "nothing is queued")
            self.stops(relay)

    def test_a_store_that_goes_while_a_rest_is_sent(self):
        """It gets what the first connection took, and by the next one all others, from a whole line on."""
        store, = self.stores(1, reads=False, room=4096)
        dests = [f"127.0.0.1:{store.port}"]
        with self.running(dests, MAX_QUEUE_SIZE="100000") as relay:
            relay.lines(text_of(LONG))
            self.wait_for(lambda: relay.totals()["kept"] == len(LONG), "all lines are queued")
            self.reloads(relay, dests, MAX_QUEUE_SIZE="100000")
            slowly = threading.Event()
            reader = threading.Thread(target=store.read_slowly, args=(0.01, slowly))
            reader.start()
            self.wait_for(lambda: len(store.lines()) > len(LONG) // 2, "half of them have come")
            slowly.set()
            reader.join(LIMIT)
            store.open[0].shutdown(socket.SHUT_WR)
            store.read_on()
            self.wait_for(lambda: len(store.lines()) >= len(LONG), "all lines have come")
            self.assertEqual(store.lines(), LONG)
            self.assertEqual(store.connections(), 2)
            self.stops(relay)

    def test_more_is_left_than_a_queue_holds(self):
        """What does not fit is dropped, counted as dropped and not as taken, and the log says so."""
        port, = free_ports(1)
        status, = free_ports(1)
        dests = [f"127.0.0.1:{port}"]
        lines = numbered(250)
        with self.running(dests, options=("--status", str(status)), MAX_QUEUE_SIZE="100") as relay:
            for turn in range(5):
                relay.lines(text_of(lines[turn * 50:][:50]))
                self.wait_for(lambda: relay.totals()["offered"] == 50 * (turn + 1), "all lines are offered")
                self.reloads(relay, dests, MAX_QUEUE_SIZE="100")
            counts = relay.totals()
            self.assertEqual(counts, {"queued": 100, "offered": 250, "kept": 100, "dropped": 150, "taken": 0})
            there = self.status(relay, status)["destinations"][0]
            self.assertEqual({name: there[name] for name in counts}, counts)
            said = b"dropped 50 at a reload"
            self.wait_for(lambda: relay.log.of(dests[0]).count(said) == 3, "the log says so")
            store = Store(port)
            self.addCleanup(store.stop)
            store.start()
            self.wait_for(lambda: len(store.lines()) == 100, "what fitted has come")
            self.assertEqual(store.lines(), lines[:100])
            self.wait_for(lambda: relay.totals() == counts | {"queued": 0, "taken": 100}, "the store took these alone")
            self.stops(relay)

    def test_more_is_left_than_a_queue_holds_with_a_spool(self):
        """The file keeps what has no room: all is still queued, nothing is dropped, and the store gets all in order."""
        lines = numbered(250)
        for is_back in (True, False):
            with self.subTest(is_back):
                port, = free_ports(1)
                dests = [f"127.0.0.1:{port}"]
                folder = self.path(f"spool-{is_back}")
                os.mkdir(folder)
                with self.running(dests, options=("--spool", folder), MAX_QUEUE_SIZE="100") as relay:
                    for turn in range(5):
                        relay.lines(text_of(lines[turn * 50:][:50]))
                        counts = {"queued": 50 * (turn + 1), "offered": 50 * (turn + 1), "kept": 50 * (turn + 1),
                                  "dropped": 0, "taken": 0}
                        self.wait_for(lambda: relay.totals() == counts, "all lines are queued")
                        self.reloads(relay, dests, MAX_QUEUE_SIZE="100")
                    self.wait_for(lambda: relay.totals() == counts, "all lines are still queued")
                    if is_back:
                        store = Store(port)
                        self.addCleanup(store.stop)
                        store.start()
                        self.wait_for(lambda: len(store.lines()) == 250, "all lines have come")
                        self.assertEqual(store.lines(), lines)
                        self.wait_for(lambda: relay.totals() == counts | {"queued": 0, "taken": 250}, "all are taken")
                    self.stops(relay)
                if is_back:
                    self.assertEqual(os.listdir(folder), ["~lock"])
                else:
                    with open(os.path.join(folder, dests[0]), "rb") as file:
                        self.assertEqual(file.read(), text_of(lines))

    def test_a_store_that_reads_nothing_with_a_spool(self):
        """It gets all once, in order, also what went to the file because there was no room."""
        store, = self.stores(1, reads=False, room=4096)
        dests = [f"127.0.0.1:{store.port}"]
        folder = self.path("spool")
        os.mkdir(folder)
        with self.running(dests, options=("--spool", folder), MAX_QUEUE_SIZE="5000") as relay:
            for turn in range(4):
                relay.lines(text_of(LONG[turn * 5_000:][:5_000]))
                self.wait_for(lambda: relay.totals()["kept"] == (turn + 1) * 5_000, "all lines are queued")
                self.reloads(relay, dests, MAX_QUEUE_SIZE="5000")
            store.read_on()
            self.wait_for(lambda: len(store.lines()) == len(LONG), "all lines have come")
            self.assertEqual(store.lines(), LONG)
            self.assertEqual(relay.totals()["dropped"], 0)
            self.stops(relay)

    def test_a_drain_after_a_reload(self):
        """A stop waits for what an ended run left, as for what is queued."""
        store, = self.stores(1, reads=False, room=4096)
        dests = [f"127.0.0.1:{store.port}"]
        with self.running(dests, options=("--drain", FOREVER), MAX_QUEUE_SIZE="100000") as relay:
            relay.lines(text_of(LONG))
            self.wait_for(lambda: relay.totals()["kept"] == len(LONG), "all lines are queued")
            self.reloads(relay, dests, MAX_QUEUE_SIZE="100000")
            slowly = threading.Event()
            reader = threading.Thread(target=store.read_slowly, args=(0.05, slowly))
            reader.start()
            self.assertEqual(relay.command(b"stop"), b"stopping\n")
            time.sleep(0.5)
            self.assertIsNone(relay.child.poll())
            slowly.set()
            reader.join(LIMIT)
            store.read_on()
            self.assertEqual(relay.child.wait(LIMIT), 0)
            self.wait_for(lambda: len(store.lines()) == len(LONG), "all lines have come")
            self.assertEqual(store.lines(), LONG)
            relay.log.thread.join(LIMIT)
            self.assertIn(b"relay stopped, 0 datapoints not sent\n", relay.log.lines)

    def test_a_spool_that_is_being_sent(self):
        """The file of an earlier run goes on where it was, over its connection, and what came since is behind it."""
        folder = self.path("spool")
        os.mkdir(folder)
        store, = self.stores(1, reads=False, room=4096)
        dests = [f"127.0.0.1:{store.port}"]
        with open(os.path.join(folder, dests[0]), "wb") as file:
            file.write(text_of(LONG))
        later = numbered(100, b"later")
        with self.running(dests, options=("--spool", folder)) as relay:
            self.wait_for(lambda: sockets.unsent(store.port) > 0, "a part is sent")
            relay.lines(text_of(later))
            self.wait_for(lambda: relay.totals()["kept"] == 100, "all lines are queued")
            for _ in range(2):
                self.reloads(relay, dests)
            store.read_on()
            self.wait_for(lambda: len(store.lines()) == len(LONG) + 100, "all lines have come")
            self.assertEqual([bytes(taken) for taken in store.taken], [text_of(LONG), text_of(later)])
            self.stops(relay)
        self.assertEqual(os.listdir(folder), ["~lock"])

    def test_a_stop_after_reloads(self):
        """The file of a store that is away has what ended runs left, and then what is queued."""
        folder = self.path("spool")
        os.mkdir(folder)
        port, = free_ports(1)
        dests = [f"127.0.0.1:{port}"]
        lines = numbered(300)
        with self.running(dests, options=("--spool", folder)) as relay:
            for turn in range(3):
                relay.lines(text_of(lines[turn * 100:][:100]))
                self.wait_for(lambda: relay.totals()["kept"] == (turn + 1) * 100, "all lines are queued")
                if turn < 2:
                    self.reloads(relay, dests)
            self.stops(relay)
        with open(os.path.join(folder, dests[0]), "rb") as file:
            self.assertEqual(file.read(), text_of(lines))
