"""`relayd run --spool DIR`: a file goes out on connections of its own, and goes only once its store has ended these in order."""

import os
import signal
import subprocess
import sys
import time

from fixtures import sockets
from fixtures.harness import LIMIT
from fixtures.log import Log
from fixtures.spooling import ALL, WithSpool, numbered, text_of
from fixtures.stores import Store, free_ports, until

FILE = numbered(60_000)             # what the system takes of a connection that nobody reads
TEXT = text_of(FILE)
LIVE = b"live.metric 1 1700000000"
PART = 16 * 1_048_576               # bytes of a file that go out on one connection at most
PARTS = numbered(160_000, b"p" * 200)  # two parts and some
AT_ONCE = 0.5                       # seconds; the tries of a destination begin a whole one apart
LONGEST_END = 5.0                   # seconds that a store may take to end a connection
PATIENCE = 8.0                      # seconds; a system with less patience has given up what it has for a store by then
FOREVER = "3600"                    # seconds: for so long no case waits
OVERLONG = b"o" * 17_000 + b" 1 1700000000"
AGAIN = b"lines may come twice"
# Takes a connection, and reads nothing of it.
READS_NOTHING = """
import socket, sys, time
listener = socket.create_server(("127.0.0.1", int(sys.argv[1])))
stream, _ = listener.accept()
time.sleep(3600)
"""


class WithEnds(WithSpool):
    """A subject whose relays send a file."""

    def store_of(self, **how):
        """A store, its destination, and a file for that."""
        store, = self.stores(1, **how)
        dest = f"127.0.0.1:{store.port}"
        self.write(dest, TEXT)
        return store, dest

    def logging(self, dests, *options):
        """A relay with a log."""
        return self.spooling(dests, "--log", *options)

    def system_has_all(self, port, text=TEXT):
        """Waits until the system has taken a text for a store that does not read it."""
        self.wait_for(lambda: sockets.under_way(port) >= len(text), "the system has all")

    def is_sent(self, relay, store, lines):
        """Waits until a store has these lines, and then the next one, and the file is gone."""
        relay.lines(LIVE + b"\n")
        self.wait_for(lambda: store.lines()[-1:] == [LIVE], "the live line has come")
        self.assertEqual(store.lines(), [*lines, LIVE])
        self.wait_for(lambda: self.files() == [], "the file is gone")

    def ended(self, relay, log):
        """Stops a relay, and gives what its log said of files."""
        self.ends(relay)
        log.thread.join(LIMIT)
        return [line for line in log.lines if line.startswith(b"spool: ")]


class Orderly(WithEnds):
    """Stores that read to the end and close then."""

    def test_a_store_that_reads_all(self):
        """The file has a connection of its own, and live lines another one, at once; for the log the store was never lost."""
        def connected_again():
            store, dest = self.store_of()
            with self.logging([dest]) as relay:
                log = Log(relay.child.stderr)
                self.wait_for(lambda: store.lines() == FILE, "the file has come")
                began = time.monotonic()
                self.wait_for(lambda: store.connections() == 2, "it is connected again")
                took = time.monotonic() - began
                self.is_sent(relay, store, FILE)
                self.assertEqual([bytes(taken) for taken in store.taken], [TEXT, LIVE + b"\n"])
                self.wait_for(lambda: log.of(dest)[1:] == [b"connected", b"spool sent"], "the log says so")
                self.assertEqual(self.ended(relay, log), [])
            return took

        self.gets_below(AT_ONCE, connected_again)

    def test_a_file_of_several_parts(self):
        """Each goes out on a connection of its own, in whole lines."""
        store, = self.stores(1)
        dest = f"127.0.0.1:{store.port}"
        self.write(dest, text_of(PARTS))
        with self.spooling([dest]) as relay:
            self.is_sent(relay, store, PARTS)
            *parts, live = map(bytes, store.taken)
            self.assertEqual(live, LIVE + b"\n")
            self.assertEqual(len(parts), len(text_of(PARTS)) // PART + 1)
            for part in parts:
                self.assertLessEqual(len(part), PART)
                self.assertTrue(part.endswith(b"\n"))
            self.settles(relay)

    def test_a_file_that_is_replaced_meanwhile(self):
        """Somebody takes it away while the store reads the last of it, and puts another there: that one stays."""
        store, dest = self.store_of(reads=False)
        with self.spooling([dest]) as relay:
            self.system_has_all(store.port)
            os.remove(self.path(dest))
            self.write(dest, b"other 1 1\n")
            store.read_on()
            relay.lines(LIVE + b"\n")
            self.wait_for(lambda: store.lines() == [*FILE, LIVE], "all lines have come")
            self.settles(relay)
        self.assertEqual(self.held(dest), [b"other 1 1"])

    def test_an_overlong_line(self):
        """The connection that took it ends with it, as ever; the file goes on behind it, and no line comes twice."""
        store, = self.stores(1)
        dest = f"127.0.0.1:{store.port}"
        lines = [*FILE[:100], OVERLONG, *FILE[100:200]]
        self.write(dest, text_of(lines))
        with self.logging([dest]) as relay:
            log = Log(relay.child.stderr)
            self.is_sent(relay, store, lines)
            self.assertEqual(self.ended(relay, log), [])


class Lost(WithEnds):
    """Stores that are lost with lines that they have not read."""

    def test_a_store_that_closes_before_it_has_read_all(self):
        """The system had all of the file: it goes out again, and the log says so."""
        for read in (0, len(TEXT) // 2):
            with self.subTest(read=read):
                store, dest = self.store_of(reads=False)
                with self.logging([dest]) as relay:
                    log = Log(relay.child.stderr)
                    self.system_has_all(store.port)
                    while read > 0:
                        read -= len(store.open[0].recv(read))
                    store.break_off()
                    store.read_on()
                    self.is_sent(relay, store, FILE)
                    said, = self.ended(relay, log)
                    self.assertIn(f"spool: {self.path(dest)}: ".encode(), said)
                    self.assertIn(f"bytes 0 to {len(TEXT)} ".encode(), said)
                    self.assertIn(AGAIN, said)
                    self.assertTrue(any(line.endswith(b"lost: connection reset by peer (error 104)") for line in log.of(dest)))

    def test_a_store_that_is_killed(self):
        """Nothing is lost, whether it comes back while the relay runs or later."""
        for is_back in (True, False):
            with self.subTest(is_back=is_back):
                self.killed(is_back)

    def killed(self, is_back):
        """A store is killed when the system has all of the file."""
        port, = free_ports(1)
        dest = f"127.0.0.1:{port}"
        self.write(dest, TEXT)
        store = Store(port)
        self.addCleanup(store.stop)
        with subprocess.Popen([sys.executable, "-c", READS_NOTHING, str(port)]) as process:
            self.assertTrue(until(lambda: sockets.listening(port)))
            with self.spooling([dest]) as relay:
                self.system_has_all(port)
                process.send_signal(signal.SIGKILL)
                process.wait(LIMIT)
                if is_back:
                    store.start()
                    self.is_sent(relay, store, FILE)
                else:
                    self.wait_for(lambda: self.sent_bytes(dest) == 0, "the lock says that nothing is sent")
                self.settles(relay)
        if not is_back:
            self.assertEqual(self.held(dest), FILE)
            store.start()
            with self.spooling([dest]) as relay:
                self.is_sent(relay, store, FILE)
                self.settles(relay)

    def test_a_store_that_goes_within_the_file(self):
        """What it had not read comes again, from where its connection began: what was ended in order does not."""
        store = LosesOne(free_ports(1)[0]).start()
        self.addCleanup(store.stop)
        dest = f"127.0.0.1:{store.port}"
        self.write(dest, text_of(PARTS))
        with self.logging([dest]) as relay:
            log = Log(relay.child.stderr)
            relay.lines(LIVE + b"\n")
            self.wait_for(lambda: store.lines()[-1:] == [LIVE], "the live line has come")
            first, lost, *parts = map(bytes, store.taken)
            self.assertEqual(b"".join([first, *parts]), text_of([*PARTS, LIVE]))
            self.assertEqual(lost, parts[0][:len(lost)])
            said, = self.ended(relay, log)
            self.assertIn(f"bytes {len(first)} to ".encode(), said)

    def test_what_comes_later_stays_behind(self):
        """A stop while the store is away keeps it behind the file, all of which is sent again."""
        store, dest = self.store_of(reads=False)
        with self.spooling([dest]) as relay:
            self.system_has_all(store.port)
            store.stop()
            self.queued(relay, [LIVE])
            self.settles(relay)
        self.assertEqual(self.held(dest), [*FILE, LIVE])
        store.read_on()
        store.start()
        with self.spooling([dest]) as relay:
            self.wait_for(lambda: store.lines() == [*FILE, LIVE], "all lines have come")
            self.settles(relay)


class LosesOne(Store):
    """A store that reads a part of its second connection, and closes it with the rest unread."""

    def read(self, stream, place):
        if place == 1:
            self.keep(place, stream.recv(65_536))
            until(lambda: sockets.waiting(self.port) > 0)
            self.close(stream)
        else:
            super().read(stream, place)


class NoEnd(WithEnds):
    """Stores that never close, or not for a while."""

    def test_a_store_that_never_closes(self):
        """Its live lines wait for five seconds at most, and go on over another connection; those of another store do not wait."""
        def waited():
            (other,), (store, dest) = self.stores(1), self.store_of(closes=False)
            with self.logging([dest, f"127.0.0.1:{other.port}"]) as relay:
                log = Log(relay.child.stderr)
                self.wait_for(lambda: store.lines() == FILE, "the file has come")
                began = time.monotonic()
                relay.lines(LIVE + b"\n")
                self.wait_for(lambda: other.lines() == [LIVE], "the other store has the live line")
                self.assertLess(time.monotonic() - began, LONGEST_END - 1)
                self.wait_for(lambda: store.lines() == [*FILE, LIVE], "the live line has come")
                took = time.monotonic() - began
                self.assertEqual([bytes(taken) for taken in store.taken], [TEXT, LIVE + b"\n"])
                self.wait_for(lambda: self.files() == [], "the file is gone")
                said, = self.ended(relay, log)
                self.assertIn(b"within 5 seconds", said)
            return took

        self.gets_below(LONGEST_END + AT_ONCE, waited)

    def test_a_large_file(self):
        """Its parts are not waited for one after the other."""
        def waited():
            store, = self.stores(1, closes=False)
            dest = f"127.0.0.1:{store.port}"
            self.write(dest, text_of(PARTS))
            with self.spooling([dest]) as relay:
                self.wait_for(lambda: store.size() > 0, "the file begins to come")
                began = time.monotonic()
                self.is_sent(relay, store, PARTS)
                took = time.monotonic() - began
                self.assertEqual(store.connections(), 2)
                self.settles(relay)
            return took

        self.gets_below(LONGEST_END + 4, waited)

    def test_a_store_that_stands_still(self):
        """It reads on after a while, and gets all lines once: what the system has taken then counts as sent."""
        store, dest = self.store_of(reads=False)
        with self.spooling([dest]) as relay:
            self.system_has_all(store.port)
            self.wait_for(lambda: self.files() == [], "the file is gone")
            time.sleep(PATIENCE)
            store.read_on()
            self.is_sent(relay, store, FILE)
            self.settles(relay)


class Meanwhile(WithEnds):
    """A reload, or a stop, while the relay waits for the end."""

    def reloads(self, relay, *dests):
        """Gives the relay these destinations."""
        config = self.configuration(dests, (relay.line, relay.pickle, relay.udp), MAX_QUEUE_SIZE="100000")
        self.given({"config": config, "rules": ALL.format(", ".join(dests)), "rewrite": None})
        ran = self.run_words(["reload", "--admin", str(relay.admin)])
        self.assertEqual(ran.status, 0, ran)

    def test_a_reload(self):
        """The next run waits on, on the same connection: the store gets all once."""
        store, dest = self.store_of(reads=False)
        with self.logging([dest]) as relay:
            log = Log(relay.child.stderr)
            self.system_has_all(store.port)
            for _ in range(3):
                self.reloads(relay, dest)
            self.assertEqual(self.files(), [dest])
            store.read_on()
            self.is_sent(relay, store, FILE)
            self.assertEqual(store.connections(), 2)
            self.assertEqual(self.ended(relay, log), [])

    def test_a_reload_and_then_a_reset(self):
        """The file goes out again."""
        store, dest = self.store_of(reads=False)
        with self.spooling([dest]) as relay:
            self.system_has_all(store.port)
            self.reloads(relay, dest)
            store.break_off()
            store.read_on()
            self.is_sent(relay, store, FILE)
            self.settles(relay, b"settled\n")

    def test_a_destination_that_goes_and_returns(self):
        """Its file is waited for where it is gone, and nothing is lost when it returns."""
        for is_reset in (False, True):
            with self.subTest(is_reset=is_reset):
                other, = self.stores(1)
                store, dest = self.store_of(reads=False)
                with self.spooling([dest, f"127.0.0.1:{other.port}"], "--drain", FOREVER) as relay:
                    self.system_has_all(store.port)
                    self.reloads(relay, f"127.0.0.1:{other.port}")
                    self.assertEqual(self.files(), [dest])
                    if is_reset:
                        store.break_off()
                    else:
                        self.reloads(relay, dest)
                    store.read_on()
                    self.wait_for(lambda: self.files() == [], "the file is gone")
                    self.assertEqual(store.lines(), FILE)
                    self.ends(relay)

    def test_a_stop(self):
        """It does not wait for the end: the file stays, and goes out again at the next start, which the log says."""
        for options in ((), ("--drain", FOREVER)):
            with self.subTest(options=options):
                self.gets_below(3.0, lambda given=options: self.stopped(given))

    def stopped(self, options):
        """How long a stop takes while the relay waits for the end."""
        store, dest = self.store_of(reads=False)
        with self.logging([dest], *options) as relay:
            log = Log(relay.child.stderr)
            self.system_has_all(store.port)
            self.queued(relay, [LIVE])
            took = self.ends(relay)
            log.thread.join(LIMIT)
        self.assertEqual(self.held(dest), [*FILE, LIVE])
        self.assertEqual(self.sent_bytes(dest), 0)
        self.assertEqual(sum(AGAIN in line for line in log.lines), 1)
        store.break_off()
        store.read_on()
        with self.spooling([dest]) as relay:
            self.wait_for(lambda: self.files() == [], "the file is gone")
            self.assertEqual(store.lines(), [*FILE, LIVE])
            self.settles(relay)
        return took
