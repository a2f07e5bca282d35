"""`relayd run --log`: what it writes on standard error about destinations and receivers, and nothing else."""

import contextlib
import resource
import socket
import struct
import time

from fixtures.harness import LIMIT, Ran
from fixtures.log import LINE, Log
from fixtures.mounts import in_place
from fixtures.running import WithRelays
from fixtures.stores import Store, free_ports

ALL = "[all]\ndefault = true\ndestinations = {}\n"
CLOSED = b"closed by the store"
PAUSES = b"paused: too many open files (error 24)"
GOES_ON = b"accepting again"
DESCRIPTORS = 64  # of a relay that lacks them
PRODUCERS = 150   # more than that
FILE_ROOM = 200   # bytes that a file may have


def refused(dest):
    """The line on a destination whose host is an address, at which nobody listens."""
    host, port = dest.split(":")[:2]
    return f"cannot connect to {host}:{port}: connection refused (error 111)".encode()


def reset(store):
    """A store that does not read closes its connections so that their peers get a reset, and goes on listening."""
    with store.lock:
        streams, store.open = store.open, []
    for stream in streams:
        stream.setsockopt(socket.SOL_SOCKET, socket.SO_LINGER, struct.pack("ii", 1, 0))
        stream.close()


class Logging(WithRelays):
    """Lines of the log."""

    @contextlib.contextmanager
    def logged(self, dests, **changed):
        """A relay with a log, whose lines are read."""
        with self.relay(dests, ALL.format(", ".join(dests)), options=("--log",), **changed) as relay:
            relay.log = Log(relay.child.stderr)
            yield relay

    def ends_well(self, relay):
        """The relay stops and settles; each line of its log has the form of one."""
        self.assertEqual(relay.command(b"stop"), b"stopping\n")
        self.assertEqual(relay.child.wait(LIMIT), 0)
        self.assertEqual(relay.child.stdout.read(), b"settled\n")
        relay.log.thread.join(LIMIT)
        for line in relay.log.lines:
            self.assertTrue(LINE.fullmatch(line), line)

    def expect_lines(self, relay, dest, *lines):
        """Waits until the log has these lines of a destination, and no others."""
        self.wait_for(lambda: len(relay.log.of(dest)) >= len(lines), f"the log has {lines}: {relay.log.lines}")
        self.assertEqual(relay.log.of(dest), list(lines))

    def test_nothing_without_it(self):
        """A store that is lost, one that is not there and a full queue say nothing where no log is asked for."""
        store, = self.stores(1)
        dests = [f"127.0.0.1:{store.port}", f"127.0.0.1:{free_ports(1)[0]}"]
        with self.relay(dests, ALL.format(", ".join(dests)), MAX_QUEUE_SIZE="5") as relay:
            relay.lines(b"a 1 1\n" * 20)
            self.wait_for(lambda: relay.report()[1][1]["dropped"] == 15, "the queue has dropped")
            self.wait_for(store.is_connected, "the store is connected")
            store.hang_up()
            self.wait_for(lambda: store.connections() == 2, "the store is connected again")
            time.sleep(1.2)
            self.settles(relay)

    def test_a_store_that_goes_and_comes_again(self):
        store, = self.stores(1)
        dest = f"127.0.0.1:{store.port}:a"
        with self.logged([dest]) as relay:
            self.expect_lines(relay, dest, b"connected")
            self.wait_for(store.is_connected, "the store has the connection")
            store.stop()
            self.expect_lines(relay, dest, b"connected", b"lost: " + CLOSED, refused(dest))
            again = Store(store.port)
            self.addCleanup(again.stop)
            again.start()
            self.expect_lines(relay, dest, b"connected", b"lost: " + CLOSED, refused(dest), b"connected")
            self.ends_well(relay)

    def test_a_reset(self):
        """The log has the system's word for it, while the relay writes and while it does not."""
        store, = self.stores(1, reads=False)
        dest = f"127.0.0.1:{store.port}"
        with self.logged([dest]) as relay:
            self.expect_lines(relay, dest, b"connected")
            self.wait_for(lambda: len(store.open) == 1, "the store has the connection")
            reset(store)
            self.wait_for(lambda: b"connection reset by peer (error 104)" in b"".join(relay.log.of(dest)),
                          "the log has the reset")
            self.assertNotIn(CLOSED, b"".join(relay.log.of(dest)))
            self.ends_well(relay)

    def test_stores_that_were_never_there(self):
        """The log has each once, however often it is tried."""
        store, = self.stores(1)
        gone = f"127.0.0.1:{free_ports(1)[0]}"
        unknown = "no-such-host.invalid:2003"
        there = f"127.0.0.1:{store.port}"
        with self.logged([gone, unknown, there], before=self.without_name_servers()) as relay:
            self.expect_lines(relay, gone, refused(gone))
            self.expect_lines(relay, unknown, b"cannot connect: host not found")
            time.sleep(3.2)
            self.expect_lines(relay, gone, refused(gone))
            self.expect_lines(relay, unknown, b"cannot connect: host not found")
            self.expect_lines(relay, there, b"connected")
            self.ends_well(relay)

    def without_name_servers(self):
        """What a relay does before it begins, so that it looks up hosts in the system's file alone, and has an answer at once.

        Where that is not permitted it asks the name servers that there are.
        """
        path = self.folder / "nsswitch.conf"
        path.write_text("hosts: files\n", encoding="ascii")
        put = in_place(path, "/etc/nsswitch.conf")

        def put_if_permitted():
            with contextlib.suppress(OSError):
                put()
        return put_if_permitted

    def test_drops(self):
        """The log says when a queue begins to drop and when it stops, with the number that the report counts."""
        port, = free_ports(1)
        dest = f"127.0.0.1:{port}"
        with self.logged([dest], MAX_QUEUE_SIZE="10") as relay:
            self.expect_lines(relay, dest, refused(dest))
            relay.lines(b"a 1 1\n" * 25)
            self.expect_lines(relay, dest, refused(dest), b"queue full, dropping")
            time.sleep(2.2)
            relay.lines(b"a 1 1\n" * 7)
            self.wait_for(lambda: relay.totals()["dropped"] == 22, "all are dropped")
            store = Store(port)
            self.addCleanup(store.stop)
            store.start()
            self.expect_lines(relay, dest, refused(dest), b"queue full, dropping", b"connected", b"stopped dropping, dropped 22")
            self.assertEqual(relay.totals()["dropped"], 22)
            self.wait_for(lambda: len(store.lines()) == 10, "the store has read all")  # else its connection is reset
            store.stop()
            lines = (refused(dest), b"queue full, dropping", b"connected", b"stopped dropping, dropped 22", b"lost: " + CLOSED)
            self.expect_lines(relay, dest, *lines, refused(dest))
            relay.lines(b"a 1 1\n" * 31)
            self.expect_lines(relay, dest, *lines, refused(dest), b"queue full, dropping")
            self.wait_for(lambda: relay.totals()["offered"] == 25 + 7 + 31, "all are offered")
            dropped = relay.totals()["dropped"]
            again = Store(port)
            self.addCleanup(again.stop)
            again.start()
            self.expect_lines(relay, dest, *lines, refused(dest), b"queue full, dropping", b"connected",
                              b"stopped dropping, dropped %d" % (dropped - 22))
            self.assertEqual(relay.totals()["dropped"], dropped)
            self.ends_well(relay)

    def test_a_receiver_without_descriptors(self):
        """The log says once that it pauses, however often it tries, and that it goes on, and nothing of the others."""
        store, = self.stores(1)
        dest = f"127.0.0.1:{store.port}"

        def few():
            resource.setrlimit(resource.RLIMIT_NOFILE, (DESCRIPTORS, DESCRIPTORS))

        with self.logged([dest], before=few) as relay:
            self.expect_lines(relay, dest, b"connected")
            streams = [socket.create_connection(("127.0.0.1", relay.line), LIMIT) for _ in range(PRODUCERS)]
            for stream in streams:
                self.addCleanup(stream.close)
            self.wait_for(lambda: relay.log.of("line", "receiver"), "the log has the pause")
            time.sleep(2.2)
            self.assertEqual(relay.log.of("line", "receiver"), [PAUSES])
            for stream in streams:
                stream.close()
            # It may pause again before it has taken them all.
            self.wait_for(lambda: relay.log.of("line", "receiver")[-1] == GOES_ON, "the log has that it goes on")
            self.ends_well(relay)
            lines = relay.log.of("line", "receiver")
            self.assertEqual(lines, ([PAUSES, GOES_ON] * len(lines))[:len(lines)])
            self.assertEqual(relay.log.of("pickle", "receiver") + relay.log.of("udp", "receiver"), [])

    def test_a_file_with_no_more_room(self):
        """Lines that the system's limit for a file does not permit are lost, and the relay goes on and settles."""
        def few():
            resource.setrlimit(resource.RLIMIT_FSIZE, (FILE_ROOM, FILE_ROOM))

        stores = self.stores(2)
        dests = [f"127.0.0.1:{store.port}" for store in stores]
        path = self.folder / "log"
        with open(path, "wb") as file, \
                self.relay(dests, ALL.format(", ".join(dests)), options=("--log",), stderr=file, before=few) as relay:
            for number in range(1, 5):
                self.wait_for(lambda: all(store.is_connected() for store in stores), "all are connected")
                for store in stores:
                    store.hang_up()
                self.wait_for(lambda: all(store.connections() > number for store in stores), "all are connected again")
                time.sleep(1.1)
            self.settles(relay)
        text = path.read_bytes()
        self.assertLessEqual(len(text), FILE_ROOM)
        self.assertTrue(text.endswith(b"\n"))
        self.assertGreater(text.count(b"\n"), 1)
        for line in text.splitlines(keepends=True):
            self.assertTrue(LINE.fullmatch(line), line)

    def test_a_store_that_flaps(self):
        """A store that closes each connection as it comes: a line a second at most, and not none."""
        store, = self.stores(1)
        dest = f"127.0.0.1:{store.port}"
        began = time.monotonic()
        with self.logged([dest]) as relay:
            while len(relay.log.of(dest)) < 4 and time.monotonic() < began + LIMIT:
                store.hang_up()
                time.sleep(0.01)
            lines = relay.log.of(dest)
            passed = time.monotonic() - began
            self.assertGreaterEqual(len(lines), 4)
            # A slow machine makes what has passed longer, and never the lines more.
            self.assertLessEqual(len(lines), passed + 1)
            self.ends_well(relay)

    def test_a_log_that_cannot_be_written(self):
        """Standard error takes nothing: the relay goes on."""
        store, = self.stores(1)
        dest = f"127.0.0.1:{store.port}"
        with open("/dev/full", "wb") as full:
            with self.relay([dest], ALL.format(dest), options=("--log",), stderr=full) as relay:
                self.wait_for(lambda: store.connections() == 1, "the store is connected")
                time.sleep(1.2)
                relay.lines(b"a 1 1\n")
                self.wait_for(lambda: store.lines() == [b"a 1 1"], "the line has come")
                answer, ran = relay.stop()
                self.assertEqual((answer, ran), (b"stopping\n", Ran(0, b"settled\n", b"")))
