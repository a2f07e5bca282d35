"""How a running relay connects to its stores, and how it ends their connections."""

import contextlib
import itertools
import os
import subprocess
import threading
import time
import unittest

from fixtures import sockets
from fixtures.harness import LIMIT
from fixtures.log import Log
from fixtures.mounts import in_place
from fixtures.networks import in_own_network
from fixtures.refused import compiled
from fixtures.running import WithRelays, shown
from fixtures.stores import Store, free_ports

ALL = "[all]\ndefault = true\ndestinations = {}\n"
AT_ONCE = 0.5                # seconds; the tries of a destination begin a whole one apart
STOOD = 1.3                  # seconds that a connection stands, so that a try may follow its loss at once
FIRST, LAST = 40_000, 40_007 # the ports that the system gives to connections, where there are few
COUNT = 20_000
FEW = 500                    # of them: they fit the room for what is sent, and not the store's
# With names of this length they do not fit the room that the system has for a connection.
LINES = [b"%s.%d %d 1700000000" % (b"n" * 220, number, number) for number in range(COUNT)]
READ_AWAY = 16 * 1_048_576   # bytes
ENDING = 1.0                 # seconds that a store may take to read to the end once the relay is stopped
PATIENCE = 8.0               # seconds; a system with less patience has given up what it has for a store by then


def text_of(lines):
    """Lines as they are sent."""
    return b"".join(line + b"\n" for line in lines)


class Hosts(WithRelays):
    """Hosts that have several addresses."""

    def hosts(self, *lines):
        """A file of hosts with these lines, which is written in place."""
        path = self.folder / "hosts"
        path.write_text("".join(line + "\n" for line in lines))
        return path

    @contextlib.contextmanager
    def relay_among(self, path, dest, *options):
        """A relay with one destination, for which this is the file of hosts."""
        with contextlib.ExitStack() as held:
            try:
                relay = held.enter_context(self.relay([dest], ALL.format(dest), before=in_place(path, "/etc/hosts"),
                                                      options=options))
            except subprocess.SubprocessError as fault:
                raise unittest.SkipTest("this system lets no process have a hosts file of its own") from fault
            yield relay

    def gets(self, store, relay, line):
        """The store gets a line."""
        relay.lines(line + b"\n")
        self.wait_for(lambda: store.lines()[-1:] == [line], f"{line!r} has come")

    def test_each_address_is_tried(self):
        """Nobody listens at the first one, nor at the second: a name with addresses of both kinds, and Debian's own
        lines for `localhost`."""
        for names in (("::1 many.example", "127.0.0.2 many.example", "127.0.0.1 many.example"),
                      ("127.0.0.1 localhost", "::1 localhost ip6-localhost ip6-loopback")):
            store, = self.stores(1)
            name = names[0].split()[1]
            with self.subTest(name), self.relay_among(self.hosts(*names), f"{name}:{store.port}") as relay:
                self.gets(store, relay, b"a 1 1")
                self.settles(relay)

    def test_an_address_that_refuses(self):
        """The log says which; and the status is not away before each address was tried."""
        store, = self.stores(1)
        hosts = self.hosts("::1 two.example", "127.0.0.1 two.example")
        name, (status,) = f"two.example:{store.port}", free_ports(1)
        with self.relay_among(hosts, name, "--log", "--status", str(status)) as relay:
            log, states = Log(relay.child.stderr), set()
            while not store.is_connected():
                states.add(shown(status)["state"])
            self.wait_for(lambda: len(log.of(name)) == 2, "the log has it")
            self.assertEqual(log.of(name), [f"cannot connect to [::1]:{store.port}: connection refused (error 111)".encode(),
                                            b"connected"])
            self.assertNotIn("away", states)
            self.settles(relay)

    def test_no_address_that_answers(self):
        """Once each was tried, the status is away."""
        port, status = free_ports(2)
        hosts = self.hosts("::1 two.example", "127.0.0.1 two.example")
        with self.relay_among(hosts, f"two.example:{port}", "--status", str(status)) as relay:
            self.wait_for(lambda: shown(status)["state"] == "away", "the status says so")
            self.assertGreater(shown(status)["destinations"][0]["failed_tries"], 1)
            self.settles(relay)

    def test_the_address_that_was_connected_is_the_first(self):
        """Also where the system names another one first. Since the connection has stood for a second, the next one comes
        at once."""
        store, = self.stores(1)
        hosts = self.hosts("::1 two.example", "127.0.0.1 two.example")
        with self.relay_among(hosts, f"two.example:{store.port}") as relay:
            numbers = itertools.count(1)

            def connected_again():
                self.gets(store, relay, b"a %d 1" % next(numbers))
                time.sleep(STOOD)
                began = time.monotonic()
                store.hang_up()
                self.wait_for(store.is_connected, "it is connected again")
                return time.monotonic() - began

            for _ in range(2):
                self.gets_below(AT_ONCE, connected_again)
            self.settles(relay)

    def test_a_name_is_looked_up_again(self):
        """The host moves, and the relay finds it."""
        store, = self.stores(1)
        hosts = self.hosts("127.0.0.1 moves.example")
        with self.relay_among(hosts, f"moves.example:{store.port}") as relay:
            self.gets(store, relay, b"a 1 1")
            moved = Store(store.port, host="127.0.0.2")
            self.addCleanup(moved.stop)
            moved.start()
            self.hosts("127.0.0.2 moves.example")
            store.stop()
            self.wait_for(moved.is_connected, "the store is found at its new address")
            self.gets(moved, relay, b"b 2 2")
            self.settles(relay)


class Itself(WithRelays):
    """A try to a port of this machine at which nobody listens, and which the system gives to the try itself."""

    def test_a_connection_to_itself(self):
        """It is a failed try: the store can begin to listen there, and gets all."""
        in_own_network(self.connected_to_itself, FIRST, LAST)

    def connected_to_itself(self):
        """The case."""
        port = FIRST + 4
        dest = f"127.0.0.1:{port}"
        lines = [b"a %d 1" % number for number in range(50)]
        with self.relay([dest], ALL.format(dest), options=("--log",)) as relay:
            log = Log(relay.child.stderr)
            relay.lines(text_of(lines))
            self.wait_for(lambda: any(b"connected to itself" in line for line in log.of(dest)), "a try came to itself")
            self.assertEqual(relay.totals()["taken"], 0)
            store = Store(port)
            self.addCleanup(store.stop)
            self.wait_for(lambda: self.listens(store), "the store listens")
            self.wait_for(lambda: store.lines() == lines, "the store has all")
            self.assertEqual(relay.command(b"stop"), b"stopping\n")
            self.assertEqual(relay.child.wait(LIMIT), 0)

    def listens(self, store):
        """Whether the store can listen at its port."""
        try:
            store.start()
        except OSError:
            return False
        return True


class StandsStill(WithRelays):
    """A store that reads nothing for a while."""

    def test_it_reads_on_later(self):
        """It gets what the system had for it when the relay ended, though it read nothing for seconds."""
        store, = self.stores(1, reads=False, room=4096)
        dest = f"127.0.0.1:{store.port}"
        lines = LINES[:FEW]
        with self.relay([dest], ALL.format(dest)) as relay:
            relay.lines(text_of(lines))
            self.wait_for(lambda: relay.totals()["taken"] == FEW, "the lines are taken")
            self.settles(relay)
        time.sleep(PATIENCE)
        store.read_on()
        self.wait_for(lambda: store.lines() == lines, "all lines have come")


class Talking(WithRelays):
    """Stores that send something."""

    def test_a_slow_store_that_has_sent_something(self):
        """It gets all that the relay counts as sent, though it reads most of it after the relay has ended."""
        store, = self.stores(1, reads=False, room=4096, says=b"hello\n")
        dest = f"127.0.0.1:{store.port}"
        with self.relay([dest], ALL.format(dest), options=("--drain", "3600", "--log"), MAX_QUEUE_SIZE="100000") as relay:
            log = Log(relay.child.stderr)
            relay.lines(text_of(LINES))
            self.wait_for(lambda: relay.report()[0][1]["kept"] == COUNT, "all lines are queued")
            self.wait_for(store.is_connected, "the store is connected")
            threading.Thread(target=self.read_slowly, args=(store,), daemon=True).start()
            self.assertEqual(relay.command(b"stop"), b"stopping\n")
            self.assertEqual(relay.child.wait(LIMIT), 0)
            log.thread.join(LIMIT)
            self.assertEqual(log.lines[-1], b"relay stopped, 0 datapoints not sent\n")
            self.wait_for(lambda: store.lines() == LINES, "the store has all")

    def read_slowly(self, store):
        """Reads what a connection brings in small pieces."""
        stream = store.open[0]
        with contextlib.suppress(OSError):
            while more := stream.recv(4096):
                store.keep(0, more)
                time.sleep(0.001)

    def test_a_store_that_greets(self):
        """What it sends in the moment in which it is connected is read too, so that it gets all lines, though it reads them
        after the relay has ended: waits that begin late report both together."""
        library = compiled(self.folder, "late_waits")
        store, = self.stores(1, reads=False, room=4096, says=b"hello\n")
        dest = f"127.0.0.1:{store.port}"
        lines = LINES[:FEW]
        with self.relay([dest], ALL.format(dest), before=lambda: os.environ.update(LD_PRELOAD=library)) as relay:
            relay.lines(text_of(lines))
            self.wait_for(lambda: relay.totals()["taken"] == FEW, "the lines are taken")
            self.greets(store)
            self.settles(relay)
        store.read_on()
        store.finish()
        self.assertEqual(store.lines(), lines)

    def greets(self, store):
        """The relay has read what the store sent."""
        self.wait_for(store.is_connected, "the store has sent it")
        self.wait_for(lambda: sockets.unread(store.port) == 0, "the relay has read it")

    def test_a_store_that_sends_without_an_end(self):
        """The relay reads it away: the store's sending never waits, all lines come, and the run ends in time."""
        self.gets_below(ENDING + 2, self.ends_beside_one_that_sends)

    def ends_beside_one_that_sends(self):
        """How long the end takes."""
        store, = self.stores(1)
        dest = f"127.0.0.1:{store.port}"
        lines = [b"a %d 1" % number for number in range(2_000)]
        with self.relay([dest], ALL.format(dest)) as relay:
            self.wait_for(store.is_connected, "the store is connected")
            stream = store.open[0]
            sent = []

            def talk():
                with contextlib.suppress(OSError):
                    while True:
                        sent.append(stream.send(b"x" * 65_536))

            threading.Thread(target=talk, daemon=True).start()
            relay.lines(text_of(lines))
            self.wait_for(lambda: store.lines() == lines, "all lines have come")
            self.wait_for(lambda: sum(sent) > READ_AWAY, "more was read away than the system holds")
            began = time.monotonic()
            self.settles(relay)
            return time.monotonic() - began

    def test_a_store_that_never_closes(self):
        """One that has sent something may take a second to close its end, and no more."""
        self.gets_below(ENDING + 1, self.ends_beside_one_that_never_closes)

    def ends_beside_one_that_never_closes(self):
        """How long the end takes."""
        store, = self.stores(1, reads=False, says=b"hello\n")
        dest = f"127.0.0.1:{store.port}"
        with self.relay([dest], ALL.format(dest)) as relay:
            relay.lines(b"a 1 1\n")
            self.wait_for(lambda: relay.totals()["taken"] == 1, "the line is taken")
            self.greets(store)
            began = time.monotonic()
            self.settles(relay)
            return time.monotonic() - began
