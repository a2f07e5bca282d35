"""`relayd run --spool DIR --spool-size BYTES` on disks that fail: the destination that is diverted drops, counted, and no other notices."""

import contextlib
import ctypes
import errno
import os
import signal
import statistics
import subprocess
import sys
import threading
import time

from cases.spool_diversion import MANY, STEP, Diversion
from fixtures.harness import LIMIT, Ran
from fixtures.log import Log
from fixtures.program import TOP
from fixtures.spooling import ALL, LONG, numbered, text_of

LIBC = ctypes.CDLL(None, use_errno=True)
REMOUNT, DETACH = 32, 2  # flags of mount and umount
FUSE = os.path.join(TOP, "e2e", "fixtures", "fuse_disk.py")
MARKS = 60  # lines whose way is timed
BAR = 0.05  # seconds that the median of these ways may last longer
TRIES = 3


def awaits_disk(process):
    """Whether a thread of a process waits for what a process is to answer that serves a disk."""
    folder = f"/proc/{process}/task"
    for thread in os.listdir(folder):
        with contextlib.suppress(FileNotFoundError), open(f"{folder}/{thread}/wchan", encoding="ascii") as file:
            if file.read() == "request_wait_answer":
                return True
    return False


class Disks(Diversion):
    """Each has a disk of its own."""

    def mounts(self, *given):
        """Mounts something on the folder; at the end it is gone."""
        if os.geteuid() != 0 or LIBC.mount(*given) != 0:
            self.skipTest("no file system of its own can be mounted here")
        self.addCleanup(LIBC.umount2, os.fsencode(self.dir), DETACH)

    def fuse(self):
        """A disk that a process serves: that process, and the file by which it fails."""
        fails = self.dir + ".fails"
        child = subprocess.Popen([sys.executable, FUSE, self.dir, fails], stdout=subprocess.PIPE, stderr=subprocess.DEVNULL)
        self.addCleanup(child.stdout.close)
        self.addCleanup(child.wait)
        self.addCleanup(child.kill)
        if child.stdout.readline() != b"ready\n":
            self.skipTest("no file system of its own can be mounted here")
        self.addCleanup(LIBC.umount2, os.fsencode(self.dir), DETACH)
        self.addCleanup(child.send_signal, signal.SIGCONT)
        self.addCleanup(lambda: os.path.exists(fails) and os.remove(fails))
        return child, fails

    def pours(self, relay, lines, place):
        """Sends lines, as fast as another destination keeps them."""
        for first in range(0, len(lines), STEP):
            before = relay.report()[place][1]["kept"]
            relay.lines(text_of(lines[first:first + STEP]))
            count = before + len(lines[first:first + STEP])
            self.wait_for(lambda count=count: relay.report()[place][1]["kept"] >= count, "the other has them queued")

    def goes_on(self, broken, mended):
        """Drops while the disk is broken, and keeps what comes once it is mended; returns what the log said."""
        port, dest = self.away()
        beside, = self.stores(1)
        lines = numbered(MANY)
        with self.diverting([dest, f"127.0.0.1:{beside.port}"], "--log", size="1073741824") as relay:
            log = Log(relay.child.stderr)
            self.send_many(relay, lines[:10_000])
            broken()
            self.pours(relay, lines[10_000:80_000], place=1)
            self.has_all(beside, lines[:80_000])
            self.wait_for(lambda: self.dropped(relay) > 0, "what has no room is dropped")
            self.wait_for(lambda: any(line in log.of(dest) for line in (b"spool full", b"spool: cannot write")), "the log says so")
            mended()
            self.wait_for(lambda: b"spool goes on" in log.of(dest), "the files take more")
            kept = relay.report()[0][1]["kept"]
            self.pours(relay, lines[80_000:], place=1)
            self.wait_for(lambda: relay.report()[0][1]["kept"] == kept + 20_000, "nothing more is dropped")
            store = self.store_at(port)
            self.wait_for(lambda: store.lines()[-1:] == lines[-1:], "the last one has come")
            self.are_sent()
            came = set(store.lines())
            self.assertEqual(store.lines(), [line for line in lines if line in came], "in order, once")
            self.assertEqual(store.lines()[:10_000], lines[:10_000])
            self.assertEqual(len(came), kept + 20_000)
            self.over(relay)
            log.thread.join(LIMIT)
        return log.of(dest)

    def test_a_full_disk(self):
        """What has no room is dropped; once there is room all is kept."""
        self.mounts(b"none", os.fsencode(self.dir), b"tmpfs", 0, b"size=1m")
        filler = self.path("filler")

        def fill():
            with contextlib.suppress(OSError), open(filler, "wb") as file:
                file.write(bytes(1_048_576))

        def resize():
            self.assertEqual(LIBC.mount(b"none", os.fsencode(self.dir), b"tmpfs", REMOUNT, b"size=64m"), 0)
            os.remove(filler)

        self.assertIn(b"spool full", self.goes_on(fill, resize))

    def fails_by(self, number):
        """A disk that fails by this error; returns what the log said."""
        _, fails = self.fuse()

        def fail():
            with open(fails, "w", encoding="ascii") as file:
                file.write(str(number))

        return self.goes_on(fail, lambda: os.remove(fails))

    def test_a_disk_that_is_read_only(self):
        """The same."""
        self.assertIn(b"spool: cannot write", self.fails_by(errno.EROFS))

    def test_a_disk_that_fails(self):
        """The same."""
        self.assertIn(b"spool: cannot write", self.fails_by(errno.EIO))

    def test_a_disk_that_fails_for_good(self):
        """A store that is there again gets what memory holds, and then what comes."""
        _, fails = self.fuse()
        port, dest = self.away()
        lines = numbered(60_000)
        with self.diverting([dest]) as relay:
            with open(fails, "w", encoding="ascii") as file:
                file.write(str(errno.EIO))
            for first in range(0, 40_000, STEP):
                relay.lines(text_of(lines[first:first + STEP]))
                self.wait_for(lambda count=first + STEP: relay.report()[0][1]["offered"] == count, "all were offered")
            dropped = self.dropped(relay)
            self.assertGreater(dropped, 0)
            store = self.store_at(port)
            self.wait_for(lambda: relay.report()[0][1]["queued"] == 0, "the store takes what is there")
            self.send_many(relay, lines[40_000:])
            self.wait_for(lambda: store.lines()[-1:] == lines[-1:], "the last one has come")
            self.assertEqual(self.dropped(relay), dropped)
            came = set(store.lines())
            self.assertEqual(store.lines(), [line for line in lines if line in came], "in order, once")
            self.assertEqual(len(came), len(lines) - dropped)
            self.over(relay)

    def goes_meanwhile(self, is_mended):
        """A destination goes while its disk fails, or once that is mended: what it was to get, how many of that were kept, and
        what the log said."""
        _, fails = self.fuse()
        _, dest = self.away()
        beside, = self.stores(1)
        other = f"127.0.0.1:{beside.port}"
        lines = numbered(40_000)
        with self.diverting([dest, other], "--log", "--drain", "1", size="1073741824") as relay:
            log = Log(relay.child.stderr)
            with open(fails, "w", encoding="ascii") as file:
                file.write(str(errno.EIO))
            self.pours(relay, lines, place=1)
            self.has_all(beside, lines)
            self.assertGreater(self.dropped(relay), 0)
            kept = relay.report()[0][1]["kept"]
            if is_mended:
                os.remove(fails)
            self.given({"config": relay.config.replace(f"{dest}, ", "", 1), "rules": ALL.format(other), "rewrite": None})
            self.assertEqual(self.run_words(["reload", "--admin", str(relay.admin)]).status, 0)
            self.wait_for(lambda: any(line.startswith(b"gone, ") for line in log.of(dest)), "the log says what became of it")
            self.over(relay)
            log.thread.join(LIMIT)
        return lines, kept, log.of(dest)

    def test_a_store_that_goes_while_its_disk_fails(self):
        """What waited for it is counted, also what was on its way to a file."""
        _, kept, said = self.goes_meanwhile(is_mended=False)
        self.assertIn(b"gone, %d datapoints not sent" % kept, said)

    def test_a_store_that_goes_once_its_disk_is_mended(self):
        """All that waited for it is in files, in order."""
        lines, kept, _ = self.goes_meanwhile(is_mended=True)
        held = [line for name in self.files() for line in self.held(name)]
        self.assertEqual(len(held), kept)
        own = set(held)
        self.assertEqual(held, [line for line in lines if line in own])

    def test_a_disk_that_hangs(self):
        """The median way of a line to another store stays; once the disk goes on, so do the files."""
        child, _ = self.fuse()
        port, dest = self.away()
        beside, = self.stores(1)
        lines = numbered(MANY)
        with self.diverting([dest, f"127.0.0.1:{beside.port}"], size="1073741824") as relay:
            before = self.median_way(relay, beside, b"before", lines[:30_000])
            self.wait_for(lambda: self.files() != [], "files are written")
            with self.hanging(child):
                self.pours(relay, lines[30_000:70_000], 1)
                self.wait_for(lambda: self.dropped(relay) > 0, "what has no room is dropped")
                for attempt in range(TRIES):
                    meanwhile = self.median_way(relay, beside, b"meanwhile%d." % attempt, lines[70_000:])
                    if meanwhile - before < BAR:
                        break
            self.assertLess(meanwhile - before, BAR)
            store = self.store_at(port)
            self.wait_for(lambda: store.size() > 500_000, "the files go on")
            relay.lines(b"last 1 1\n")
            self.wait_for(lambda: b"last 1 1" in store.text(), "the last line has come")
            self.are_sent()
            self.over(relay)

    def test_a_reload_on_a_disk_that_hangs(self):
        """It is refused after ten seconds, in which the relay goes on; once the disk goes on, a reload is done, and nothing is lost."""
        child, _ = self.fuse()
        port, dest = self.away()
        beside, = self.stores(1)
        lines = numbered(15_000)
        words = "reload", "--admin"
        with self.diverting([dest, f"127.0.0.1:{beside.port}"], size="1073741824") as relay:
            self.pours(relay, lines[:12_000], 1)
            self.wait_for(lambda: self.files() != [], "files are written")
            with self.hanging(child):
                relay.lines(text_of(lines[12_000:13_000]))
                self.wait_for(lambda: awaits_disk(relay.child.pid), "the keeper waits for the disk")
                ended = []
                reload = threading.Thread(target=lambda: ended.append(self.run_words((*words, str(relay.admin)))))
                reload.start()
                relay.lines(text_of(lines[13_000:14_000]))
                self.has_all(beside, lines[:14_000])
                self.assertEqual(ended, [])
                reload.join(LIMIT)
                self.assertEqual(ended, [Ran(3, b"", b"relayd: spool: the disk does not answer within 10 seconds\n")])
            self.assertEqual(self.run_words((*words, str(relay.admin))).status, 0)
            relay.lines(text_of(lines[14_000:]))
            self.has_all(beside, lines)
            self.has_all(self.store_at(port), lines)
            self.are_sent()
            self.over(relay)

    def test_a_reload_beside_a_sender_that_waits_for_the_disk(self):
        """Without a size senders read files themselves. A reload is refused after ten seconds, in which commands are answered and the
        other sender goes on; once the disk goes on, a reload is done, and nothing is lost."""
        child, _ = self.fuse()
        store, dest = self.store_that_reads_nothing()
        beside, = self.stores(1)
        lines = numbered(300)
        words = "reload", "--admin"
        self.write(dest, text_of(LONG))
        with self.spooling([dest, f"127.0.0.1:{beside.port}"], "--senders", "2") as relay:
            self.begins_to_send(store)
            with self.hanging(child):
                store.read_on()
                self.wait_for(lambda: awaits_disk(relay.child.pid), "the sender waits for the disk")
                ended = []
                reload = threading.Thread(target=lambda: ended.append(self.run_words((*words, str(relay.admin)))))
                reload.start()
                relay.lines(text_of(lines[:100]))
                self.has_all(beside, lines[:100])
                self.assertEqual(len(relay.report()), 2)
                self.assertEqual(ended, [])
                reload.join(LIMIT)
                self.assertEqual(ended, [Ran(3, b"", b"relayd: spool: the disk does not answer within 10 seconds\n")])
                relay.lines(text_of(lines[100:200]))
                self.has_all(beside, lines[:200])
            self.assertEqual(self.run_words((*words, str(relay.admin))).status, 0)
            relay.lines(text_of(lines[200:]))
            self.has_all(beside, lines)
            self.has_all(store, LONG + lines)
            self.over(relay)

    def reload_that_adds(self, relay, dests):
        """Begins a reload that adds the last of these destinations, the first of which a relay has. Gives its thread, and where its
        end comes."""
        ended = []
        self.given({"config": relay.config.replace(dests[0], ", ".join(dests), 1), "rules": ALL.format(", ".join(dests)),
                    "rewrite": None})
        reload = threading.Thread(target=lambda: ended.append(self.run_words(("reload", "--admin", str(relay.admin)))))
        reload.start()
        return reload, ended

    def test_a_reload_that_adds_a_store_on_a_disk_that_hangs(self):
        """It is refused after ten seconds, in which commands are answered and the relay goes on. Once the disk goes on, what was opened
        late is closed, the log says what was found, and a reload is done."""
        child, _ = self.fuse()
        stores = self.stores(2)
        dests = [f"127.0.0.1:{it.port}" for it in stores]
        lines = numbered(300)
        self.write(dests[1], b"waits 1 1\n")
        with self.spooling(dests[:1], "--log") as relay:
            log = Log(relay.child.stderr)
            words = "reload", "--admin", str(relay.admin)
            with self.hanging(child):
                reload, ended = self.reload_that_adds(relay, dests)
                for turn in range(5):
                    time.sleep(0.2)
                    began = time.monotonic()
                    self.assertEqual(len(relay.report()), 1)
                    self.assertLess(time.monotonic() - began, 5)
                    relay.lines(text_of(lines[turn * 20:(turn + 1) * 20]))
                self.has_all(stores[0], lines[:100])
                self.assertEqual(ended, [])
                reload.join(LIMIT)
                self.assertEqual(ended, [Ran(3, b"", b"relayd: spool: the disk does not answer within 10 seconds\n")])
                self.assertEqual(self.run_words(words), Ran(3, b"", b"relayd: spool: an earlier reload still waits for the disk\n"))
                relay.lines(text_of(lines[100:200]))
                self.has_all(stores[0], lines[:200])
                self.assertEqual(log.of(dests[1]), [])
            self.wait_for(lambda: any(line.startswith(b"spool waits, 1 ") for line in log.of(dests[1])), "the log says what waits")
            self.assertNotIn(self.path(dests[1]), self.open_files(relay))
            self.assertEqual(len(relay.report()), 1)
            self.assertEqual(self.run_words(words).status, 0)
            relay.lines(text_of(lines[200:]))
            self.has_all(stores[0], lines)
            self.has_all(stores[1], [b"waits 1 1", *lines[200:]])
            self.are_sent()
            self.over(relay)

    def test_a_stop_beside_a_reload_that_adds_a_store_on_a_disk_that_hangs(self):
        """It is obeyed at once."""
        child, _ = self.fuse()
        dests = [f"127.0.0.1:{it.port}" for it in self.stores(2)]
        with self.spooling(dests[:1], "--log") as relay, self.hanging(child):
            reload, ended = self.reload_that_adds(relay, dests)
            self.wait_for(lambda: awaits_disk(relay.child.pid), "the reload waits for the disk")
            began = time.monotonic()
            self.assertEqual(relay.command(b"stop"), b"stopping\n")
            reload.join(LIMIT)
            self.assertLess(time.monotonic() - began, 5)
            self.assertEqual([ran.status for ran in ended], [3])
            child.send_signal(signal.SIGCONT)
            self.assertEqual(relay.child.wait(LIMIT), 0)

    def open_files(self, relay):
        """The paths of what a relay has open."""
        folder = f"/proc/{relay.child.pid}/fd"
        return [os.readlink(os.path.join(folder, name)) for name in os.listdir(folder)]

    @contextlib.contextmanager
    def hanging(self, child):
        """The disk that a process serves hangs meanwhile."""
        child.send_signal(signal.SIGSTOP)
        try:
            yield
        finally:
            child.send_signal(signal.SIGCONT)

    def median_way(self, relay, store, prefix, lines):
        """The median of the seconds in which lines came to a store while others are sent."""
        ways = []
        pouring = threading.Thread(target=self.pours, args=(relay, lines, 1))
        pouring.start()
        for number in range(MARKS):
            mark = b"%s%d 1 1\n" % (prefix, number)
            began = time.monotonic()
            relay.lines(mark)
            self.wait_for(lambda mark=mark: store.taken and mark in bytes(store.taken[-1][-200_000:]), "the line has come")
            ways.append(time.monotonic() - began)
        pouring.join()
        return statistics.median(ways)
