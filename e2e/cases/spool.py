"""`relayd run --spool DIR`: what is not sent when the relay stops is kept in files there, and sent at the next start."""

import contextlib
import ctypes
import http.client
import json
import os
import subprocess
import threading
import time

from fixtures.harness import LIMIT, Ran, run
from fixtures.log import Log
from fixtures.running import COMMAND_TRIES, WithRelays
from fixtures.spooling import ALL, LONG, QUEUE, WithSpool, numbered, text_of
from fixtures.stores import Store, free_ports

COUNT = 3_000
FOREVER = "3600"  # seconds: for so long no case waits
REST = 0.05       # seconds between two reads of a slow store
PATIENCE = 5      # seconds for which a store reads nothing
LIBC = ctypes.CDLL(None, use_errno=True)


class Spool(WithSpool):
    """A relay that keeps what it did not send."""

    # ---- a store that is away

    def test_a_store_that_is_away_over_two_restarts(self):
        """Each run keeps what it got, behind what the runs before kept; once the store is back it gets all, once, in order."""
        port, = free_ports(1)
        dest = f"127.0.0.1:{port}"
        lines = numbered(3 * COUNT)
        for turn in range(3):
            with self.spooling([dest]) as relay:
                self.queued(relay, lines[turn * COUNT:][:COUNT])
                self.settles(relay)
            self.assertEqual(self.held(dest), lines[:(turn + 1) * COUNT])
            self.assertEqual(self.files(), [dest])
        store = Store(port).start()
        self.addCleanup(store.stop)
        with self.spooling([dest]) as relay:
            self.wait_for(lambda: store.lines() == lines, "the store has all")
            relay.lines(b"last 1 1\n")
            self.wait_for(lambda: store.lines() == [*lines, b"last 1 1"], "the next line comes behind them")
            self.wait_for(lambda: self.files() == [], "the file is gone")
            self.settles(relay)
        self.assertEqual(self.files(), [])

    def test_instances_and_two_destinations(self):
        """Each destination has a file of its own, named as in DESTINATIONS; one that is connected has none."""
        away, = free_ports(1)
        store, = self.stores(1)
        dests = [f"127.0.0.1:{away}:a", f"127.0.0.1:{store.port}:b"]
        lines = numbered(100)
        with self.spooling(dests) as relay:
            self.queued(relay, lines)
            self.wait_for(lambda: store.lines() == lines, "the other store has all")
            self.settles(relay)
        self.assertEqual(self.files(), dests[:1])
        self.assertEqual(self.held(dests[0]), lines)
        self.assertEqual(os.stat(self.path(dests[0])).st_mode & 0o777, 0o600)

    def test_a_store_that_reads_nothing(self):
        """The stop waits for it no longer than a drain does, and what it did not take is in the file, from a whole line on."""
        self.gets_below(3.0, self.stopped_before_one_that_reads_nothing)

    def stopped_before_one_that_reads_nothing(self):
        """How long the stop takes."""
        store, dest = self.store_that_reads_nothing()
        with self.spooling([dest], "--drain", FOREVER, "--log") as relay:
            log = Log(relay.child.stderr)
            self.queued(relay, LONG)
            self.begins_to_send(store)
            took = self.ends(relay)
            log.thread.join(LIMIT)
        kept = self.held(dest)
        self.assertEqual(kept, LONG[len(LONG) - len(kept):])
        self.assertGreater(len(kept), 0)
        store.read_on()
        self.wait_for(lambda: len(store.lines()) == len(LONG) - len(kept), "the store has what was sent")
        self.assertIn(log.lines[-4], [b"destination %s not waited for: %s\n" % (dest.encode(), why)
                                      for why in (b"takes nothing", b"too slow")])
        self.assertEqual(log.lines[-3:], [
            b"destination %s stopped, %d datapoints spooled\n" % (dest.encode(), len(kept)),
            b"relay stopped, %d datapoints spooled\n" % len(kept),
            b"relay stopped, 0 datapoints not sent\n"])
        with self.spooling([dest]) as relay:
            self.wait_for(lambda: store.lines() == LONG, "the store has all, once")
            self.settles(relay)
        return took

    def test_a_store_that_reads_on_after_the_end(self):
        """It gets what the system had for it when the relay ended, though it read nothing for seconds."""
        store, dest = self.store_that_reads_nothing()
        with self.spooling([dest]) as relay:
            self.queued(relay, LONG)
            self.begins_to_send(store)
            self.settles(relay)
        kept = self.held(dest)
        self.assertLess(len(kept), len(LONG))
        time.sleep(PATIENCE)
        store.read_on()
        self.wait_for(lambda: len(store.lines()) + len(kept) == len(LONG), "what the system had has come")
        self.assertEqual([*store.lines(), *kept], LONG)

    def test_a_store_that_takes_slowly(self):
        """A stop while the file is being sent keeps what the store did not take, then what came meanwhile; nothing is lost."""
        store, dest = self.store_that_reads_nothing()
        self.write(dest, text_of(LONG))
        more = numbered(100, b"z")
        with self.spooling([dest]) as relay:
            self.queued(relay, more)
            self.begins_to_send(store)
            self.settles(relay)
        kept = self.held(dest)
        self.assertEqual(kept[-len(more):], more)
        self.assertEqual(kept[:-len(more)], LONG[len(LONG) + len(more) - len(kept):])
        self.assertGreater(self.sent_bytes(dest), 0, "a part was sent")
        store.read_on()
        with self.spooling([dest]) as relay:
            self.wait_for(lambda: store.lines() == LONG + more, "the store has all, once, in order")
            self.wait_for(lambda: self.files() == [], "the file is gone")
            self.settles(relay)
        self.assertEqual(self.files(), [])

    def test_a_store_that_goes_while_the_file_is_sent(self):
        """The next connection gets all lines, also those that the store did not read from the first one."""
        store, dest = self.store_that_reads_nothing()
        self.write(dest, text_of(LONG))
        with self.spooling([dest]) as relay:
            self.begins_to_send(store)
            store.hang_up()
            self.wait_for(store.is_connected, "it is connected again")
            store.read_on()
            self.wait_for(lambda: store.lines()[-1:] == LONG[-1:], "the last line has come")
            self.assertEqual(bytes(store.taken[1]), text_of(LONG))
            self.settles(relay)

    # ---- beside other options

    def test_beside_a_drain_and_none(self):
        """Without a drain the file has what the store did not take, and with one that lasts nothing is left for it."""
        self.assertGreater(self.left_by_a_slow_store("0"), 0)
        self.gets_below(1, lambda: self.left_by_a_slow_store(FOREVER))

    def left_by_a_slow_store(self, drain):
        """How many lines a relay with this drain keeps. The store reads slowly where it drains, and else first at the end."""
        store, dest = self.store_that_reads_nothing()
        lines, reads_on = LONG[:15_000], threading.Event()
        with self.spooling([dest], "--drain", drain) as relay:
            self.queued(relay, lines)
            self.begins_to_send(store)
            self.addCleanup(reads_on.set)
            reader = threading.Thread(target=store.read_slowly, args=(REST, reads_on))
            if drain != "0":
                reader.start()
            answer = relay.command(b"stop")
            reads_on.set()
            if drain != "0":
                reader.join(LIMIT)
                store.read_on()
            self.assertEqual(answer, b"stopping\n")
            self.assertEqual(relay.end().status, 0)
        kept = self.held(dest) if os.path.exists(self.path(dest)) else []
        store.read_on()
        self.wait_for(lambda: store.lines() + kept == lines, "store and file have all, once, in order")
        return len(kept)

    def test_beside_two_senders(self):
        """Each sender keeps the files of its own destinations."""
        ports = free_ports(5)
        dests = [f"127.0.0.1:{port}" for port in ports]
        lines = numbered(200)
        with self.spooling(dests, "--senders", "2") as relay:
            self.queued(relay, lines)
            self.wait_for(lambda: all(it[1]["kept"] == len(lines) for it in relay.report()), "all queues have them")
            self.settles(relay)
        for dest in dests:
            self.assertEqual(self.held(dest), lines)
        stores = [Store(port).start() for port in ports]
        for store in stores:
            self.addCleanup(store.stop)
        with self.spooling(dests, "--senders", "2") as relay:
            for store in stores:
                self.wait_for(lambda it=store: it.lines() == lines, "each store has its own")
            self.wait_for(lambda: self.files() == [], "the files are gone")
            self.settles(relay)
        self.assertEqual(self.files(), [])

    def test_beside_a_record(self):
        """The record says that the file was the last connection, and replays to its text."""
        port, = free_ports(1)
        dest = f"127.0.0.1:{port}"
        lines = numbered(50)
        record = self.path("~record")
        with self.spooling([dest], "--record", record) as relay:
            self.queued(relay, lines)
            self.settles(relay)
            config = relay.config
        self.assertEqual(self.held(dest), lines)
        words = ["replay", *self.given({"config": config, "rules": ALL.format(dest), "rewrite": None}), "--text", record]
        replayed = self.run_words(words)
        self.assertEqual(replayed.status, 0)
        self.assertIn(lines[-1], replayed.out)

    def test_beside_the_status(self):
        """The status shows the destination as connected while its file is sent."""
        store, dest = self.store_that_reads_nothing()
        self.write(dest, text_of(LONG))
        status, = free_ports(1)
        with self.spooling([dest], "--status", str(status)) as relay:
            self.begins_to_send(store)
            self.wait_for(lambda: self.shows(status)["destinations"][0]["connected"], "it is shown as connected")
            self.settles(relay)

    def shows(self, port):
        """What a status server shows. It waits a second for a request, and is asked again where that is too short."""
        for _ in range(COMMAND_TRIES):
            with contextlib.closing(http.client.HTTPConnection("127.0.0.1", port, timeout=LIMIT)) as client, \
                    contextlib.suppress(ConnectionError):
                client.request("GET", "/status.json")
                return json.loads(client.getresponse().read())
        self.fail("the status server does not answer")

    def test_nothing_is_left(self):
        """A relay whose stores have all ends as soon as one without the option, and leaves no file."""
        def stopped():
            store, = self.stores(1)
            with self.spooling([f"127.0.0.1:{store.port}"]) as relay:
                relay.lines(b"a 1 1\n")
                self.wait_for(lambda: store.lines() == [b"a 1 1"], "the line has come")
                took = self.ends(relay)
            self.assertEqual(self.files(), [])
            return took

        self.gets_below(1.0, stopped)

    def test_memory_does_not_grow_with_the_file(self):
        """A file of 64 MB takes no more memory than its pieces."""
        store, = self.stores(1)
        dest = f"127.0.0.1:{store.port}"
        piece = text_of(numbered(20_000))
        with open(self.path(dest), "wb") as file:
            size = 0
            while size < 64_000_000:
                size += file.write(piece)
        with self.spooling([dest]) as relay:
            self.wait_for(lambda: store.size() == size, "the store has all")
            self.assertLess(relay.resident(), 40_000_000)
            self.settles(relay)

    # ---- faults

    def test_a_directory_that_cannot_be_written(self):
        """It is found at the start."""
        dests = ["127.0.0.1:2004"]
        there = os.path.join(self.dir, "there-is-none")
        ran = self.refused(dests, folder=there)
        fault = "relayd: spool: {}: cannot write: {}\n"
        self.assertEqual(ran, Ran(3, b"", fault.format(there, "No such file or directory (os error 2)").encode()))
        self.write("file", b"")
        ran = self.refused(dests, folder=self.path("file"))
        self.assertEqual(ran, Ran(3, b"", fault.format(self.path("file"), "Not a directory (os error 20)").encode()))

    def test_two_relays_and_one_directory(self):
        """The second is refused; once the first has ended, another one may begin."""
        dests = [f"127.0.0.1:{free_ports(1)[0]}"]
        with self.spooling(dests) as relay:
            ran = self.refused(dests)
            self.assertEqual(ran, Ran(3, b"", f"relayd: spool: {self.dir}: another relay uses it\n".encode()))
            self.settles(relay)
        with self.spooling(dests) as relay:
            self.settles(relay)

    def test_a_directory_that_is_taken_away(self):
        """The relay ends as ever, the other destination gets all, and the log says what was not kept."""
        self.gets_below(3.0, self.stopped_without_its_directory)

    def stopped_without_its_directory(self):
        """How long the stop takes."""
        os.makedirs(self.dir, exist_ok=True)
        away, = free_ports(1)
        store, = self.stores(1)
        dests = [f"127.0.0.1:{away}", f"127.0.0.1:{store.port}"]
        lines = numbered(100)
        with self.spooling(dests, "--log") as relay:
            log = Log(relay.child.stderr)
            self.queued(relay, lines)
            self.wait_for(lambda: store.lines() == lines, "the other store has all")
            subprocess.run(["rm", "-rf", self.dir], check=True)
            took = self.ends(relay, status=3)
            log.thread.join(LIMIT)
        self.assertEqual(log.lines[-5:-1], [
            b"destination %s spool: cannot write\n" % dests[0].encode(),
            b"destination %s stopped, 100 datapoints not sent\n" % dests[0].encode(),
            b"relay stopped, 0 datapoints spooled\n",
            b"relay stopped, 100 datapoints not sent\n"])
        return took

    def test_a_full_disk(self):
        """What has room is kept in whole lines, the other destination's file too, and the log says how much was not."""
        if os.geteuid() != 0 or LIBC.mount(b"none", os.fsencode(self.dir), b"tmpfs", 0, b"size=256k") != 0:
            self.skipTest("no file system of its own can be mounted here")
        self.addCleanup(LIBC.umount2, os.fsencode(self.dir), 2)
        dests = [f"127.0.0.1:{port}" for port in free_ports(2)]
        rules = f"[small]\npattern = ^s\ndestinations = {dests[0]}\n\n" + ALL.format(dests[1])
        options = ("--spool", self.dir, "--log")
        small = numbered(10, b"s")
        with self.relay(dests, rules, options=options, MAX_QUEUE_SIZE=QUEUE) as relay:
            log = Log(relay.child.stderr)
            self.queued(relay, small)
            self.queued(relay, LONG[:5_000], 1)
            self.ends(relay)
            log.thread.join(LIMIT)
        kept = self.held(dests[1])
        self.assertEqual(kept, LONG[:len(kept)])
        self.assertGreater(len(kept), 100)
        self.assertEqual(self.held(dests[0]), small)
        self.assertEqual(log.of(dests[1])[-3:], [
            b"spool: no room", b"stopped, %d datapoints spooled" % len(kept),
            b"stopped, %d datapoints not sent" % (5_000 - len(kept))])
        self.assertEqual(log.lines[-1], b"relay stopped, %d datapoints not sent\n" % (5_000 - len(kept)))

    def test_a_full_disk_at_the_start(self):
        """A relay does its work all the same, and says so."""
        if os.geteuid() != 0 or LIBC.mount(b"none", os.fsencode(self.dir), b"tmpfs", 0, b"size=16k") != 0:
            self.skipTest("no file system of its own can be mounted here")
        self.addCleanup(LIBC.umount2, os.fsencode(self.dir), 2)
        with contextlib.suppress(OSError), open(self.path("~filler"), "wb", buffering=0) as file:
            while file.write(b"x" * 4096):
                pass
        store, = self.stores(1)
        dest = f"127.0.0.1:{store.port}"
        with self.spooling([dest]) as relay:
            relay.lines(b"a 1 1\n")
            self.wait_for(lambda: store.lines() == [b"a 1 1"], "the line has come")
            answer, ran = relay.stop()
            self.assertEqual(answer, b"stopping\n")
            self.assertEqual(ran, Ran(0, b"settled\n", f"relayd: spool: {self.dir}: no room\n".encode()))

    def test_a_file_without_a_line(self):
        """It is put aside, and the log says so; an empty one goes with it."""
        store, = self.stores(1)
        dest = f"127.0.0.1:{store.port}"
        self.write(dest, b"no line ends here")
        with self.spooling([dest], "--log") as relay:
            log = Log(relay.child.stderr)
            relay.lines(b"a 1 1\n")
            self.wait_for(lambda: store.lines() == [b"a 1 1"], "the line has come, and nothing before it")
            self.ends(relay)
            log.thread.join(LIMIT)
        self.assertEqual(log.lines[0], f"spool: {self.path(dest)}: no lines; it is {self.path(dest)}~aside now\n".encode())
        self.assertEqual(self.files(), [dest + "~aside"])
        with open(self.path(dest + "~aside"), "rb") as file:
            self.assertEqual(file.read(), b"no line ends here")

    def test_a_file_whose_last_line_has_no_end(self):
        """Its whole lines are sent, and it is put aside."""
        store, = self.stores(1)
        dest = f"127.0.0.1:{store.port}"
        self.write(dest, b"a 1 1\nb 2 2\nc 3")
        with self.spooling([dest], "--log") as relay:
            log = Log(relay.child.stderr)
            self.wait_for(lambda: store.lines() == [b"a 1 1", b"b 2 2"], "the whole lines have come")
            relay.lines(b"d 4 4\n")
            self.wait_for(lambda: store.text() == b"a 1 1\nb 2 2\nd 4 4\n", "the cut one has not")
            self.ends(relay)
            log.thread.join(LIMIT)
        self.assertIn(f"spool: {self.path(dest)}: the last line has no end; it stays in {self.path(dest)}~aside\n".encode(),
                      log.lines)
        self.assertEqual(self.files(), [dest + "~aside"])
        with open(self.path(dest + "~aside"), "rb") as file:
            self.assertEqual(file.read(), b"c 3")

    def test_a_file_of_no_destination(self):
        """It stays, the log names it, and so does a note of check."""
        store, = self.stores(1)
        dest = f"127.0.0.1:{store.port}"
        self.write("10.0.0.1:2003:old", b"a 1 1\n")
        with self.spooling([dest], "--log") as relay:
            log = Log(relay.child.stderr)
            config = relay.config
            self.ends(relay)
            log.thread.join(LIMIT)
        self.assertEqual(log.lines[0], f"spool: {self.path('10.0.0.1:2003:old')}: of no destination in DESTINATIONS; "
                                       "it stays\n".encode())
        self.assertEqual(self.files(), ["10.0.0.1:2003:old"])
        files = self.given({"config": config, "rules": ALL.format(dest), "rewrite": None})
        words = ["check", *files, "--longest-name", "1024", "--explain", "--spool", self.dir]
        noted = self.run_words(words)
        self.assertIn(f"relayd: note: spool: {self.path('10.0.0.1:2003:old')}: of no destination in DESTINATIONS, "
                      "so no relay sends it\n".encode(), noted.err)
        self.assertEqual(noted.status, 0)
        self.assertEqual(self.run_words([*words, "--strict"]).status, 1)

    def test_a_name_that_is_too_long_for_a_file(self):
        """The log says that nothing of it is kept, and so does a note of check."""
        dest = f"127.0.0.1:{free_ports(1)[0]}:{'i' * 240}"
        with self.spooling([dest], "--log") as relay:
            log = Log(relay.child.stderr)
            self.queued(relay, numbered(10))
            config = relay.config
            self.ends(relay)
            log.thread.join(LIMIT)
        self.assertEqual(log.lines[0], f"spool: {dest}: too long a name for a file; nothing of it is kept\n".encode())
        self.assertEqual(log.lines[-1], b"relay stopped, 10 datapoints not sent\n")
        files = self.given({"config": config, "rules": ALL.format(dest), "rewrite": None})
        noted = run(["check", *files, "--longest-name", "1024", "--explain", "--spool", self.dir])
        self.assertIn(f"relayd: note: spool: {dest}: too long a name for a file, so nothing of it is kept\n".encode(), noted.err)



class Restart(WithRelays):
    """`relayd restart`: the end of a relay, if its files have no fault."""

    def restart(self, files, admin):
        """What it does."""
        return run(["restart", *self.given(files), "--admin", str(admin)])

    def test_good_files(self):
        """The relay has ended when it returns."""
        store, = self.stores(1)
        dest = f"127.0.0.1:{store.port}"
        rules = ALL.format(dest)
        with self.relay([dest], rules) as relay:
            files = {"config": relay.config, "rules": rules, "rewrite": None}
            self.assertEqual(self.restart(files, relay.admin), Ran(0, b"ok 1 destinations\nstopping\n", b""))
            self.assertEqual(relay.child.wait(LIMIT), 0)

    def test_a_fault(self):
        """The relay goes on, and status and fault are those of check."""
        store, = self.stores(1)
        dest = f"127.0.0.1:{store.port}"
        rules = ALL.format(dest)
        with self.relay([dest], rules) as relay:
            for bad, faulty in (({"config": relay.config, "rules": "[all]\n", "rewrite": None}, "rules"),
                                ({"config": relay.config + "MAX_QUEUE_SIZE = 1\n", "rules": rules, "rewrite": None}, "config")):
                with self.subTest(faulty=faulty):
                    given = self.given(bad)
                    checked = run(["check", *given])
                    self.assertEqual(checked.status, 1)
                    self.assertEqual(run(["restart", *given, "--admin", str(relay.admin)]), checked)
                    relay.lines(faulty.encode() + b" 1 1\n")
                    self.wait_for(lambda it=faulty: it.encode() + b" 1 1" in store.lines(), "the relay goes on")
            self.settles(relay)

    def test_no_relay(self):
        """As `stop`: status 3."""
        store, = self.stores(1)
        dest = f"127.0.0.1:{store.port}"
        files = {"config": self.configuration([dest], free_ports(3)), "rules": ALL.format(dest), "rewrite": None}
        ended = self.restart(files, free_ports(1)[0])
        self.assertEqual((ended.status, ended.out), (3, b"ok 1 destinations\n"))
