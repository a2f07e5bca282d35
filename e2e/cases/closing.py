"""How receivers close: what was sent before a stop is read, and nobody holds it up."""

import contextlib
import os
import signal
import socket
import threading
import time

from fixtures.harness import LIMIT
from fixtures.receiving import Receiving, is_closed

WAITING = 40          # producers whose lines wait while the relay sleeps
EACH = 100
CHUNK = 20            # lines that a producer writes at once
WATCHING = 40         # producers that look for the end before each write
AGAIN = 10            # producers that connect again
QUIET = 0.02          # seconds for which nothing comes before a relay that stops no longer waits for more
CLOSING = 0.5         # seconds that it takes at most to close its receivers
BELOW_ROOM = 100      # datagrams that fit into a socket's buffer


class Watcher:
    """A producer that looks for the end before each write, and may connect again then."""

    def __init__(self, port, text, comes_again):
        self.port, self.text, self.comes_again = port, text, comes_again
        self.sent = 0         # times the text
        self.longest = 0.0    # seconds from a look to the end of the write
        self.is_over = False  # whether it has seen the end, for good
        self.stream = socket.create_connection(("127.0.0.1", port), LIMIT)

    def write(self):
        """Looks, and writes unless the connection is closed."""
        began = time.monotonic()
        if is_closed(self.stream):
            self.stream.close()
            self.come_again()
            return
        with contextlib.suppress(ConnectionError):
            self.stream.sendall(self.text)
            self.sent += 1
        self.longest = max(self.longest, time.monotonic() - began)

    def come_again(self):
        """Connects again, if it is one that does and the port is open."""
        self.is_over = True
        if self.comes_again:
            with contextlib.suppress(ConnectionRefusedError):
                self.stream = socket.create_connection(("127.0.0.1", self.port), LIMIT)
                self.is_over = False


def write_by_turns(watchers, ended):
    """Lets each of these producers write, one after the other, again and again until all are over, or that is set."""
    while not all(watcher.is_over for watcher in watchers):
        for watcher in watchers:
            if not watcher.is_over:
                watcher.write()
        if ended.is_set():
            return
        time.sleep(0.02)


class Closing(Receiving):
    """What was sent before a stop is read."""

    @contextlib.contextmanager
    def asleep(self, relay):
        """A relay that has no processor meanwhile."""
        os.kill(relay.child.pid, signal.SIGSTOP)
        try:
            yield
        finally:
            with contextlib.suppress(ProcessLookupError):
                os.kill(relay.child.pid, signal.SIGCONT)

    def test_lines_that_wait(self):
        """Those of connections that are held, and of connections that wait to be taken."""
        self.gets_below(CLOSING, self.stops_with_lines)

    def stops_with_lines(self):
        """How long a stop takes beside lines that wait."""
        with self.logged(("--drain", "3600"), MAX_QUEUE_SIZE="100000") as relay:
            held = [self.connected(relay) for _ in range(WAITING // 2)]
            for stream in held:
                stream.sendall(b"first 1 1\n")
            self.wait_for(lambda: len(relay.store.lines()) == len(held), "they are held")

            def send():
                waiting = held + [self.connected(relay) for _ in range(WAITING // 2)]
                for number, stream in enumerate(waiting):
                    stream.sendall(b"".join(b"w%d %d 1\n" % (number, value) for value in range(EACH)))

            return self.stops_after(relay, send, WAITING // 2 + WAITING * EACH)

    def stops_after(self, relay, send, count):
        """Sends what waits while the relay sleeps, and stops it. The store has so many lines then, unless the machine did not
        let the relay read them in time. Gives how long the stop took."""
        with self.asleep(relay), socket.create_connection(("127.0.0.1", relay.admin), LIMIT) as admin:
            send()
            admin.sendall(b"stop\n")
            began = time.monotonic()
            os.kill(relay.child.pid, signal.SIGCONT)
            self.has_ended(relay)
            took = time.monotonic() - began
        if took < CLOSING:
            self.has_all(relay, count)
        return took

    def has_all(self, relay, count):
        """The store has so many lines of a relay that has ended, and no more."""
        self.wait_for(lambda: len(relay.store.lines()) >= count, f"the store has {count} lines")
        relay.store.finish()
        self.assertEqual(len(relay.store.lines()), count)

    def test_producers_that_watch(self):
        """A producer that looks for the end before each write loses nothing, and sees the end before the relay is gone."""
        self.gets_below(1, lambda: self.stops_beside(WATCHING, comes_again=False))

    def test_producers_that_come_again(self):
        """Nor does one that connects again while the relay closes, as long as its port is open.

        Beside one that writes without looking the relay has 50 milliseconds for the last connections. Where a busy machine
        does not run it then it loses some; one that does not take them loses some in each attempt.
        """
        self.gets_below(1, lambda: self.stops_beside(AGAIN, comes_again=True))

    def stops_beside(self, count, comes_again):
        """Stops a relay beside so many producers that watch, and maybe one that does not. The store has all that they wrote,
        unless the machine held one up between its look and its write for longer than the relay waits for more, or the relay
        for longer than it reads on. Gives the greatest part of these times; or how much is lost, of those that come again.
        """
        with self.logged(("--drain", "3600"), MAX_QUEUE_SIZE="1000000") as relay, contextlib.ExitStack() as stack:
            watchers = [Watcher(relay.line, b"p%d 1 1\n" % place * CHUNK, comes_again) for place in range(count)]
            if comes_again:
                stack.enter_context(self.never_stops(relay))
            ended = threading.Event()
            producers = threading.Thread(target=write_by_turns, args=(watchers, ended))
            producers.start()
            self.wait_for(lambda: min(watcher.sent for watcher in watchers) > 2, "all send")
            for watcher in watchers:
                watcher.longest = 0.0  # what ended before the stop does not matter
            began = time.monotonic()
            try:
                self.ends(relay)
            finally:
                ended.set()
            took = time.monotonic() - began
            producers.join(LIMIT)
            sent = CHUNK * sum(watcher.sent for watcher in watchers)
            relay.store.finish()
            lost = sent - sum(line != b"blind 1 1" for line in relay.store.lines())
            if comes_again:
                return lost
            held_up = max(took / CLOSING, *(watcher.longest / QUIET for watcher in watchers))
            if held_up < 1:
                self.assertEqual(lost, 0)
                self.assertTrue(all(watcher.is_over for watcher in watchers), "each has seen the end")
            return held_up

    @contextlib.contextmanager
    def never_stops(self, relay):
        """Beside a producer that writes without looking until it cannot."""
        def write():
            with socket.create_connection(("127.0.0.1", relay.line), LIMIT) as stream, contextlib.suppress(OSError):
                while True:
                    stream.sendall(b"blind 1 1\n")
                    time.sleep(0.002)

        thread = threading.Thread(target=write)
        thread.start()
        yield
        thread.join(LIMIT)

    def test_a_producer_that_comes_again_at_once(self):
        """It comes again once: its new connection is half-closed only when no port is open."""
        with self.logged(("--drain", "10"), MAX_QUEUE_SIZE="1000000") as relay:
            came = {"watching": 0, "blind": 0}

            def produce(name, again):
                with contextlib.suppress(OSError):
                    while True:
                        with socket.create_connection(("127.0.0.1", relay.line), LIMIT) as stream:
                            came[name] += 1
                            while not (again and is_closed(stream)):
                                stream.sendall(b"%s 1 1\n" % name.encode())
                                time.sleep(0.002)

            threads = [threading.Thread(target=produce, args=given) for given in (("watching", True), ("blind", False))]
            for thread in threads:
                thread.start()
            self.wait_for(lambda: len(set(relay.store.lines())) == 2, "both send")
            self.ends(relay)
            for thread in threads:
                thread.join(LIMIT)
            self.assertLessEqual(came["watching"], 2)

    def test_datagrams_that_wait(self):
        """They are read before the socket is closed."""
        self.gets_below(CLOSING, self.stops_with_datagrams)

    def stops_with_datagrams(self):
        """How long a stop takes beside datagrams that wait."""
        with self.logged(("--drain", "3600")) as relay:
            def send():
                for number in range(BELOW_ROOM):
                    relay.datagram(b"d%d 1 1" % number)

            return self.stops_after(relay, send, BELOW_ROOM)

    def test_producers_that_never_stop(self):
        """They hold up no stop for longer than half a second and a little."""
        self.gets_below(1.5, self.stops_beside_blind_ones)

    def stops_beside_blind_ones(self):
        """How long a stop takes beside producers that never stop."""
        with self.logged() as relay:
            gone = threading.Event()

            def produce():
                with socket.create_connection(("127.0.0.1", relay.line), LIMIT) as stream, \
                        contextlib.suppress(OSError):
                    while not gone.is_set():
                        stream.sendall(b"a 1 1\n" * CHUNK)
                        time.sleep(0.002)

            threads = [threading.Thread(target=produce) for _ in range(4)]
            for thread in threads:
                thread.start()
            self.wait_for(lambda: len(relay.store.lines()) > EACH, "they send")
            began = time.monotonic()
            self.ends(relay)
            took = time.monotonic() - began
            gone.set()
            for thread in threads:
                thread.join(LIMIT)
            return took

    def test_silent_producers(self):
        """A relay to which nobody sends stops at once: no wait is sat out."""
        self.gets_below(0.15, self.stops_beside_silent_ones)

    def stops_beside_silent_ones(self):
        """How long a stop takes beside silent producers."""
        with self.logged() as relay:
            silent = [self.connected(relay) for _ in range(5)]
            self.connected(relay, relay.pickle)
            for stream in silent:
                stream.sendall(b"a 1 1\n")
            self.wait_for(lambda: len(relay.store.lines()) == len(silent), "all are taken")
            began = time.monotonic()
            self.ends(relay)
            return time.monotonic() - began
