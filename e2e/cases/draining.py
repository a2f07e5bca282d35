"""`relayd run --drain SECONDS`: what is queued when the relay takes `stop` is still sent, for that long at most."""

import contextlib
import os
import re
import socket
import threading
import time

from fixtures.harness import LIMIT
from fixtures.log import Log
from fixtures.running import WithRelays
from fixtures.stores import free_ports

ALL = "[all]\ndefault = true\ndestinations = {}\n"
COUNT = 30_000
# With names of this length they do not fit the room that the system has for a connection.
LINES = [b"%s.%d %d 1700000000" % (b"n" * 220, number, number) for number in range(COUNT)]
LAST = re.compile(rb"relay stopped, (\d+) datapoints not sent\n")
FOREVER = "3600"  # seconds: for so long no case waits
REST = 0.05  # seconds between two reads of a slow store


class Draining(WithRelays):
    """A stop of a relay whose stores have not got all."""

    @contextlib.contextmanager
    def queued(self, store, dests, seconds, *options):
        """A relay that drains for so many seconds, and has sent the first store of its destinations a part of the lines."""
        options = ("--drain", seconds, "--log", *options)
        with self.relay(dests, ALL.format(", ".join(dests)), options=options, MAX_QUEUE_SIZE="100000") as relay:
            relay.log = Log(relay.child.stderr)
            relay.lines(b"".join(line + b"\n" for line in LINES))
            self.wait_for(lambda: all(counts["kept"] == COUNT for _, counts in relay.report()), "all lines are queued")
            self.wait_for(store.is_connected, "the store is connected")
            yield relay

    def stopped(self, relay):
        """Stops the relay, and returns the time before that."""
        began = time.monotonic()
        self.assertEqual(relay.command(b"stop"), b"stopping\n")
        return began

    @contextlib.contextmanager
    def reads_slowly(self, store):
        """A store that reads a little now and then meanwhile."""
        reads_on = threading.Event()
        reader = threading.Thread(target=store.read_slowly, args=(REST, reads_on))
        reader.start()
        try:
            yield
        finally:
            reads_on.set()
            reader.join(LIMIT)

    def test_a_slow_store_and_one_that_is_down(self):
        """The slow one gets all, in order; the other holds up nobody, and nothing more is received meanwhile. The stop is
        answered before that."""
        slow, = self.stores(1, reads=False, room=4096)
        dests = [f"127.0.0.1:{slow.port}", f"127.0.0.1:{free_ports(1)[0]}"]
        with self.queued(slow, dests, FOREVER) as relay:
            with self.reads_slowly(slow):
                self.stopped(relay)
                self.wait_for(lambda: not self.listens(relay.line), "the receivers have ended")
                self.assertIsNone(relay.child.poll())
            slow.read_on()
            self.assertEqual(relay.child.wait(LIMIT), 0)
            self.assertEqual(relay.child.stdout.read(), b"settled\n")
            self.wait_for(lambda: slow.lines() == LINES, "the store has all")
            relay.log.thread.join(LIMIT)
            self.assertEqual(relay.log.lines[-2:], [
                b"destination %s stopped, %d datapoints not sent\n" % (dests[1].encode(), COUNT),
                b"relay stopped, %d datapoints not sent\n" % COUNT])

    def listens(self, port):
        """Whether something listens at a port."""
        with socket.socket() as stream:
            return stream.connect_ex(("127.0.0.1", port)) == 0

    def test_a_store_that_takes_nothing(self):
        """The relay waits for it for a second, and the log says so, and how much was not sent."""
        def waited():
            store, = self.stores(1, reads=False, room=4096)
            dests = [f"127.0.0.1:{store.port}"]
            with self.queued(store, dests, FOREVER) as relay:
                began = self.stopped(relay)
                self.assertEqual(relay.child.wait(LIMIT), 0)
                took = time.monotonic() - began
                self.assertGreaterEqual(took, 1.0)
                self.assertEqual(relay.child.stdout.read(), b"settled\n")
                left = self.left_at_the_end(relay.log, dests[0], b"takes nothing")
                store.read_on()
                self.wait_for(lambda: len(store.lines()) == COUNT - left, "the store has what was sent")
                self.assertEqual(store.lines(), LINES[:COUNT - left])
                self.assertGreater(left, 0)
            return took

        self.gets_below(3.0, waited)

    def left_at_the_end(self, log, dest, why=None):
        """How many datapoints were not sent, all of them for one destination, for which the relay did not wait, if so."""
        log.thread.join(LIMIT)
        left = int(LAST.fullmatch(log.lines[-1])[1])
        of_dest = [] if why is None else [b"destination %s not waited for: %s\n" % (dest.encode(), why)]
        of_dest.append(b"destination %s stopped, %d datapoints not sent\n" % (dest.encode(), left))
        self.assertEqual(log.lines[-1 - len(of_dest):-1], of_dest)
        return left

    def test_a_store_that_is_too_slow(self):
        """At its rate the store would not have all in time. Where a file keeps the rest, the relay does not wait for it; without
        one it sends what it can."""
        def waited(*options):
            slow, = self.stores(1, reads=False, room=4096)
            dests = [f"127.0.0.1:{slow.port}"]
            with self.queued(slow, dests, "6", *options) as relay:
                with self.reads_slowly(slow):
                    began = self.stopped(relay)
                    self.assertEqual(relay.child.wait(LIMIT), 0)
                    took = time.monotonic() - began
                relay.log.thread.join(LIMIT)
                is_given_up = b"not waited for: too slow" in relay.log.of(dests[0])
                self.assertEqual(is_given_up, bool(options))
                self.assertIn(b"relay stopped, 0 datapoints not sent\n" if options else b"", b"".join(relay.log.lines))
            return took

        folder = os.path.join(os.fspath(self.folder), "spool")
        os.mkdir(folder)
        self.gets_below(4.0, lambda: waited("--spool", folder))
        self.assertGreaterEqual(waited(), 5.9)

    def test_no_longer_than_it_may(self):
        """A store that takes something now and then holds up the end for those seconds at most."""
        def waited():
            store, = self.stores(1, reads=False, room=4096)
            dests = [f"127.0.0.1:{store.port}"]
            with self.queued(store, dests, "1") as relay:
                began = self.stopped(relay)
                self.assertEqual(relay.child.wait(LIMIT), 0)
                took = time.monotonic() - began
                self.assertEqual(relay.child.stdout.read(), b"settled\n")
                relay.log.thread.join(LIMIT)
                self.assertGreater(int(LAST.fullmatch(relay.log.lines[-1])[1]), 0)
            return took

        self.gets_below(3.0, waited)

    def test_nothing_is_left(self):
        """Where the stores have all, or none is connected, the relay ends as soon as one without the option."""
        def waited():
            store, = self.stores(1)
            dests = [f"127.0.0.1:{store.port}", f"127.0.0.1:{free_ports(1)[0]}"]
            with self.relay(dests, ALL.format(", ".join(dests)), options=("--drain", FOREVER)) as relay:
                relay.lines(b"a 1 1\n")
                self.wait_for(lambda: store.lines() == [b"a 1 1"], "the line has come")
                began = time.monotonic()
                self.settles(relay)
                return time.monotonic() - began

        self.gets_below(2.0, waited)
