"""`relayd run --spool DIR` where a destination has several files: its segments, which go out in the order of their numbers."""

import os
import signal

from fixtures.harness import LIMIT, Ran
from fixtures.log import Log
from fixtures.spooling import LONG, WithSpool, numbered, text_of
from fixtures.stores import Store, free_ports

COUNT = 1_000
PIECE = 65_536  # bytes of a file that are sent at once
NO_SEGMENTS = ["~1", "~000001", "~00000", "~0000a", "~aside"]  # behind a destination: these are none


class Segments(WithSpool):
    """Files with a number behind the destination."""

    def segments(self, dest, *numbers):
        """Makes a segment of each of these numbers; returns the lines of all."""
        lines = numbered(len(numbers) * COUNT)
        for place, number in enumerate(numbers):
            self.write(f"{dest}~{number:05}" if number else dest, text_of(lines[place * COUNT:][:COUNT]))
        return lines

    def store_later(self, port):
        """A store that begins now."""
        store = Store(port).start()
        self.addCleanup(store.stop)
        return store

    def test_they_go_out_in_order(self):
        """The first one is the file of an older version; a number may be missing. What comes live is behind all."""
        for numbers in (0, 1, 2), (3, 9, 10, 99999), (0, 7):
            with self.subTest(numbers=numbers):
                store, = self.stores(1)
                dest = f"127.0.0.1:{store.port}"
                lines = self.segments(dest, *numbers)
                with self.spooling([dest]) as relay:
                    relay.lines(b"last 1 1\n")
                    self.wait_for(lambda: store.lines() == [*lines, b"last 1 1"], "the store has all, once, in order")
                    self.wait_for(lambda: self.files() == [], "the files are gone")
                    self.settles(relay)
                self.assertEqual(self.sent_bytes(dest), 0)

    def test_a_stop_writes_behind_them(self):
        """What is left goes to a segment behind the last one, and the next run sends all."""
        port, = free_ports(1)
        dest = f"127.0.0.1:{port}"
        lines = self.segments(dest, 1, 3)
        more = numbered(100, b"z")
        with self.spooling([dest]) as relay:
            self.queued(relay, more)
            self.settles(relay)
        self.assertEqual(self.files(), [f"{dest}~{number:05}" for number in (1, 3, 4)])
        self.assertEqual(self.held(f"{dest}~00004"), more)
        store = self.store_later(port)
        with self.spooling([dest]) as relay:
            self.wait_for(lambda: store.lines() == lines + more, "the store has all, once, in order")
            self.settles(relay)
        self.assertEqual(self.files(), [])

    def test_a_run_that_is_killed(self):
        """At most the lines of one piece come twice, and the next run goes on with the next segment."""
        store, dest = self.store_that_reads_nothing()
        self.write(dest, text_of(LONG[:10_000]))
        self.write(f"{dest}~00001", text_of(LONG[10_000:]))
        with self.spooling([dest]) as relay:
            self.begins_to_send(store)
            relay.child.send_signal(signal.SIGKILL)
            relay.child.wait(LIMIT)
        store.read_on()
        with self.spooling([dest]) as relay:
            self.wait_for(lambda: store.lines()[-1:] == LONG[-1:], "the last line has come")
            self.wait_for(lambda: self.files() == [], "the files are gone")
            self.settles(relay)
        came = [line for taken in store.taken for line in bytes(taken).split(b"\n")[:-1]]
        self.assertEqual(set(came), set(LONG))
        self.assertLessEqual(len(came) - len(LONG), PIECE // len(LONG[0]) + 1)

    def test_what_waits_is_said_of_all(self):
        """The log has one line, and the report all datapoints."""
        port, = free_ports(1)
        dest = f"127.0.0.1:{port}"
        lines = self.segments(dest, 0, 1, 2)
        with self.spooling([dest], "--log") as relay:
            log = Log(relay.child.stderr)
            said = b"destination %s spool waits, %d datapoints, %d bytes" % (dest.encode(), len(lines), len(text_of(lines)))
            self.wait_for(lambda: any(line.startswith(said) for line in list(log.lines)), "the log says how much waits")
            relay.command(b"stop")
            relay.child.wait(LIMIT)
            log.thread.join(LIMIT)
        self.assertEqual(sum(b"spool waits" in line for line in log.lines), 1)

    def test_a_line_without_an_end(self):
        """It is put aside, whichever segment it is in, and the lines behind it in the next one are sent."""
        store, = self.stores(1)
        dest = f"127.0.0.1:{store.port}"
        lines = self.segments(dest, 0, 1, 2)
        with open(self.path(f"{dest}~00001"), "ab") as file:
            file.write(b"begun 1 17")
        with self.spooling([dest]) as relay:
            self.wait_for(lambda: store.lines() == lines, "the store has all whole lines")
            self.wait_for(lambda: self.files() == [f"{dest}~aside"], "the rest is put aside")
            self.settles(relay)

    def test_other_names_stay(self):
        """What has another form is no segment, and nothing is sent of it."""
        store, = self.stores(1)
        dest = f"127.0.0.1:{store.port}"
        for behind in NO_SEGMENTS:
            self.write(dest + behind, b"never 1 1\n")
        with self.spooling([dest]) as relay:
            relay.lines(b"last 1 1\n")
            self.wait_for(lambda: store.lines() == [b"last 1 1"], "the store has the live line alone")
            self.settles(relay)
        self.assertEqual(self.files(), sorted(dest + behind for behind in NO_SEGMENTS))

    def test_one_that_is_taken_away(self):
        """The others go out."""
        store, dest = self.store_that_reads_nothing()
        for number, first, behind in (1, 0, 16_000), (2, 16_000, 18_000), (3, 18_000, 20_000):
            self.write(f"{dest}~{number:05}", text_of(LONG[first:behind]))
        with self.spooling([dest]) as relay:
            self.begins_to_send(store)
            os.remove(self.path(f"{dest}~00002"))
            store.read_on()
            self.wait_for(lambda: self.files() == [], "the others are sent")
            self.settles(relay)
        self.assertEqual(store.lines(), LONG[:16_000] + LONG[18_000:])

    def test_one_that_is_a_link(self):
        """The relay does not begin."""
        self.write("elsewhere~", b"a 1 1\n")
        os.symlink(self.path("elsewhere~"), self.path("127.0.0.1:2003~00001"))
        said = f"relayd: spool: {self.path('127.0.0.1:2003~00001')}: a link\n".encode()
        self.assertEqual(self.refused(["127.0.0.1:2003"]), Ran(3, b"", said))

    def test_one_of_no_destination(self):
        """The log names it, and it stays."""
        store, = self.stores(1)
        self.write("10.0.0.9:2003~00001", b"a 1 1\n")
        with self.spooling([f"127.0.0.1:{store.port}"], "--log") as relay:
            log = Log(relay.child.stderr)
            self.wait_for(lambda: any(b"10.0.0.9:2003~00001: of no destination" in line for line in list(log.lines)),
                          "the log names it")
            relay.command(b"stop")
            relay.child.wait(LIMIT)
            log.thread.join(LIMIT)
        self.assertEqual(self.files(), ["10.0.0.9:2003~00001"])
