"""`relayd run --spool DIR` where files fail, are taken away, or were left by a relay that was killed: no line is lost or made up."""

import contextlib
import ctypes
import os
import re
import resource
import shutil
import signal
import subprocess
import unittest

from fixtures.harness import LIMIT, Ran, Settings
from fixtures.log import Log
from fixtures.refused import compiled
from fixtures.spooling import ALL, LONG, WithSpool, numbered, text_of
from fixtures.stores import Store, free_ports

COUNT = 2_000
PIECE = 65_536  # bytes of a file that are sent at once
LIBC = ctypes.CDLL(None, use_errno=True)
LIVE = b"live.metric 1 1700000000"
# What a relay does to the disk at a stop, with the number of such a call at which it is killed: before it is done.
CALLS = [("openat", 1), ("openat", 2), ("write", 1), ("write", 2), ("write", 3), ("fsync", 1), ("fsync", 2), ("rename", 1),
         ("rename", 2), ("unlink", 1), ("ftruncate", 1), ("pwrite64", 1), ("pwrite64", 2)]


def lines_of(store):
    """The whole lines that all connections of a store took."""
    return [line for taken in store.taken for line in bytes(taken).split(b"\n")[:-1]]


class SendingAFile(WithSpool):
    """The file of an earlier run is sent."""

    def test_a_file_that_is_cut_while_it_is_sent(self):
        """The store gets whole lines of it alone, what comes later is not glued to them, and the log names the file and the place."""
        store, dest = self.store_that_reads_nothing()
        self.write(dest, text_of(LONG))
        with self.spooling([dest], "--log") as relay:
            log = Log(relay.child.stderr)
            self.begins_to_send(store)
            os.truncate(self.path(dest), 1_000)
            self.queued(relay, [LIVE])
            store.read_on()
            self.wait_for(lambda: LIVE in store.text(), "the next line has come")
            self.wait_for(lambda: any(b"more lines" in line for line in list(log.lines)), "the log names the file")
            relay.command(b"stop")
            relay.child.wait(LIMIT)
            log.thread.join(LIMIT)
        came = [line for taken in store.taken for line in bytes(taken).split(b"\n")[:-1]]
        self.assertEqual(set(came) - set(LONG), {LIVE})
        news = [line for line in log.lines if line.startswith(b"spool: " + self.path(dest).encode())]
        self.assertRegex(news[0], rb"it ends at byte \d+, where it had more lines; it stays\n")

    def test_a_file_that_is_taken_away_while_it_is_sent(self):
        """Somebody sends it by hand and removes it: it is not sent on."""
        store, dest = self.store_that_reads_nothing()
        self.write(dest, text_of(LONG))
        with self.spooling([dest], "--log") as relay:
            log = Log(relay.child.stderr)
            self.begins_to_send(store)
            os.remove(self.path(dest))
            self.queued(relay, [LIVE])
            store.read_on()
            self.wait_for(lambda: LIVE in store.text(), "the next line has come")
            self.ends(relay)
            log.thread.join(LIMIT)
        came = [line for taken in store.taken for line in bytes(taken).split(b"\n")[:-1]]
        self.assertEqual(came, [*LONG[:len(came) - 1], LIVE])
        self.assertLess(len(came), len(LONG))
        self.assertTrue(any(b"somebody took it away" in line for line in log.lines))
        self.assertEqual(self.files(), [])

    def test_a_file_that_is_taken_away_before_it_is_sent(self):
        """What is queued is kept in a new file; the old one is not written again."""
        dest = f"127.0.0.1:{free_ports(1)[0]}"
        self.write(dest, text_of(LONG))
        with self.spooling([dest]) as relay:
            self.queued(relay, [LIVE])
            os.remove(self.path(dest))
            self.settles(relay)
        self.assertEqual(self.held(dest), [LIVE])

    def test_a_file_that_somebody_puts_there(self):
        """It is not replaced: what is queued goes behind its lines."""
        dest = f"127.0.0.1:{free_ports(1)[0]}"
        with self.spooling([dest]) as relay:
            self.queued(relay, [LIVE])
            self.write(dest, b"a 1 1\nb 2")
            self.settles(relay)
        self.assertEqual(self.held(dest), [b"a 1 1", LIVE])
        with open(self.path(dest + "~aside"), "rb") as file:
            self.assertEqual(file.read(), b"b 2")

    def test_it_is_killed_while_a_file_is_sent(self):
        """At most the lines of one piece come twice, the log says how many may, and none is cut."""
        store, dest = self.store_that_reads_nothing()
        self.write(dest, text_of(LONG))
        with self.spooling([dest]) as relay:
            self.begins_to_send(store)
            relay.child.send_signal(signal.SIGKILL)
            relay.child.wait(LIMIT)
        self.assertEqual(self.held(dest), LONG)
        store.read_on()
        with self.spooling([dest], "--log") as relay:
            log = Log(relay.child.stderr)
            self.wait_for(lambda: store.lines()[-1:] == LONG[-1:], "the last line has come")
            self.ends(relay)
            log.thread.join(LIMIT)
        self.wait_for(lambda: set(lines_of(store)) == set(LONG), "the store has read both connections")
        twice = len(lines_of(store)) - len(LONG)
        self.assertLessEqual(twice, PIECE // len(LONG[0]) + 1)
        said = [int(more[1]) for line in log.lines if (more := re.search(rb"up to (\d+) lines may come twice", line))]
        self.assertLessEqual(twice, sum(said))

    def test_a_stop_on_a_full_disk(self):
        """A file that was sent in part is not sent twice, and what has room behind it is kept."""
        if os.geteuid() != 0 or LIBC.mount(b"none", os.fsencode(self.dir), b"tmpfs", 0, b"size=6m") != 0:
            self.skipTest("no file system of its own can be mounted here")
        self.addCleanup(LIBC.umount2, os.fsencode(self.dir), 2)
        store, dest = self.store_that_reads_nothing()
        lines = LONG + LONG[:2_000]
        self.write(dest, text_of(lines))
        more = numbered(1_000, b"z")
        with self.spooling([dest]) as relay:
            self.begins_to_send(store)
            self.queued(relay, more)
            self.settles(relay)
        store.read_on()
        with self.spooling([dest]) as relay:
            self.wait_for(lambda: store.lines()[-1:] == more[-1:], "the last line has come")
            self.settles(relay)
        self.assertEqual(store.lines(), lines + more)


class OpeningFiles(WithSpool):
    """A start looks at the files."""

    def is_refused(self, dest, why, *news):
        """A relay with a file that cannot be used does not begin, and names it with the reason, behind what it found before."""
        ran = self.refused([dest])
        lines = [*news, f"relayd: spool: {self.path(dest)}: {why}"]
        self.assertEqual(ran, Ran(3, b"", "".join(f"{line}\n" for line in lines).encode()))

    def test_what_is_no_regular_file(self):
        """A link, a FIFO and a directory are named, stay, and are not followed or waited for."""
        dest = f"127.0.0.1:{free_ports(1)[0]}"
        self.write("target", b"a 1 1\n")
        stranger = f"relayd: spool: {self.path('target')}: of no destination in DESTINATIONS; it stays"
        os.symlink(self.path("target"), self.path(dest))
        self.is_refused(dest, "a link", stranger)
        os.remove(self.path(dest))
        os.mkfifo(self.path(dest))
        self.is_refused(dest, "no regular file", stranger)
        os.remove(self.path(dest))
        os.mkdir(self.path(dest))
        self.is_refused(dest, "no regular file", stranger)
        self.assertEqual(self.files(), [dest, "target"])

    def test_the_lock_is_no_regular_file(self):
        """It is named."""
        os.mkfifo(self.path("~lock"))
        ran = self.refused([f"127.0.0.1:{free_ports(1)[0]}"])
        self.assertEqual(ran, Ran(3, b"", f"relayd: spool: {self.path('~lock')}: no regular file\n".encode()))

    def test_a_file_of_another_user(self):
        """It is named, and stays."""
        if os.geteuid() != 0:
            self.skipTest("only root may give files away")
        dest = f"127.0.0.1:{free_ports(1)[0]}"
        self.write(dest, b"a 1 1\n")
        os.chown(self.path(dest), 65534, 65534)
        self.is_refused(dest, "another user's file")
        self.assertEqual(self.files(), [dest])

    def test_too_few_descriptors_at_a_reload(self):
        """The reload is refused, and changes nothing; later it is done, and the files are sent."""
        stores = self.stores(9)
        dests = [f"127.0.0.1:{store.port}" for store in stores]
        lines = numbered(10)
        for dest in dests[1:]:
            self.write(dest, text_of(lines))
        with self.spooling(dests[:1]) as relay:
            limit = len(os.listdir(f"/proc/{relay.child.pid}/fd")) + 12
            usual = resource.prlimit(relay.child.pid, resource.RLIMIT_NOFILE)
            resource.prlimit(relay.child.pid, resource.RLIMIT_NOFILE, (limit, usual[1]))
            self.given({"config": relay.config.replace(dests[0], ", ".join(dests), 1),
                        "rules": ALL.format(", ".join(dests)), "rewrite": None})
            words = ["reload", "--admin", str(relay.admin)]
            self.assertEqual(self.run_words(words), Ran(3, b"", b"relayd: no descriptors\n"))
            self.assertEqual(self.files(), sorted(dests[1:]))
            resource.prlimit(relay.child.pid, resource.RLIMIT_NOFILE, usual)
            self.assertEqual(self.run_words(words).status, 0)
            for store in stores[1:]:
                self.wait_for(lambda it=store: it.lines() == lines, "the file is sent")
            self.settles(relay)

    def test_what_was_put_aside_before_a_fault(self):
        """It is said: by a start on standard error, by a relay whose reload is refused in its log."""
        dests = [f"127.0.0.1:{port}" for port in free_ports(3)]
        path, fault = self.path(dests[1]), f"spool: {self.path(dests[2])}: no regular file\n"
        said = [f"spool: {path}: no lines; it is {path}~aside{number} now\n" for number in ("", ".1")]
        os.mkdir(self.path(dests[2]))
        self.write(dests[1], b"no end")
        self.assertEqual(self.refused(dests[1:]), Ran(3, b"", f"relayd: {said[0]}relayd: {fault}".encode()))
        self.write(dests[1], b"no end")
        with self.spooling(dests[:1], "--log") as relay:
            log = Log(relay.child.stderr)
            self.given({"config": relay.config.replace(dests[0], ", ".join(dests), 1), "rules": ALL.format(", ".join(dests)),
                        "rewrite": None})
            words = ["reload", "--admin", str(relay.admin)]
            for _ in range(2):
                self.assertEqual(self.run_words(words), Ran(3, b"", f"relayd: {fault}".encode()))
            self.wait_for(lambda: said[1].encode() in log.lines, "the log says so")
            os.rmdir(self.path(dests[2]))
            self.assertEqual(self.run_words(words).status, 0)
            self.ends(relay)
            log.thread.join(LIMIT)
        self.assertEqual([line for line in log.lines if b"aside" in line], [said[1].encode()])
        self.assertEqual(self.files(), [dests[1] + "~aside", dests[1] + "~aside.1"])

    def test_what_is_put_aside_replaces_nothing(self):
        """The second one has a number behind its name."""
        dest = f"127.0.0.1:{free_ports(1)[0]}"
        for text in (b"first", b"second"):
            self.write(dest, text)
            with self.spooling([dest]) as relay:
                self.settles(relay)
        self.assertEqual(self.files(), [dest + "~aside", dest + "~aside.1"])
        for name, text in zip(self.files(), (b"first", b"second")):
            with open(self.path(name), "rb") as file:
                self.assertEqual(file.read(), text)

    def test_what_an_earlier_version_was_writing(self):
        """Its whole lines are sent, behind those of the file, and the log names it."""
        store, = self.stores(1)
        dest = f"127.0.0.1:{store.port}"
        for held in ([], numbered(10)):
            with self.subTest(held=len(held)):
                left = numbered(10, b"left%d" % len(held))
                if held:
                    self.write(dest, text_of(held))
                self.write(dest + "~new", text_of(left) + b"cut")
                before = len(store.lines())
                with self.spooling([dest], "--log") as relay:
                    log = Log(relay.child.stderr)
                    self.wait_for(lambda it=held + left, at=before: store.lines()[at:] == it, "both are sent, in order")
                    self.wait_for(lambda: [name for name in self.files() if "~aside" not in name] == [], "they are gone")
                    self.ends(relay)
                    log.thread.join(LIMIT)
                self.assertTrue(any(line.startswith(b"spool: " + self.path(dest).encode() + b"~new: ") for line in log.lines))
                self.assertEqual([name for name in self.files() if "~aside" not in name], [])


@unittest.skipUnless(shutil.which("strace"), "strace is missing")
class Killed(WithSpool):
    """A relay is killed while it works on its files."""

    def test_at_each_call(self):
        """At a stop: what the file has then comes, in order, each line once, and none that is cut."""
        ends = set()
        for call, number in CALLS:
            for earlier in ([], numbered(COUNT, b"old")):
                with self.subTest(call=call, number=number, earlier=bool(earlier)):
                    ends.add((call, self.killed_at(call, number, earlier)))
        for call in ("write", "fsync"):
            self.assertIn((call, True), ends, "a relay was killed there")

    def killed_at(self, call, number, earlier):
        """A stop is killed at this call of those that name the folder's files. Returns whether there was such a call."""
        dest = self.emptied()
        queued = numbered(COUNT, b"new")
        if earlier:
            self.write(dest, text_of(earlier))
        with self.spooling([dest]) as relay:
            self.queued(relay, queued)
            with subprocess.Popen(["strace", "-f", "-p", str(relay.child.pid), *self.killing(dest, call, number)],
                                  stderr=subprocess.PIPE) as tracer:
                tracer.stderr.readline()
                with contextlib.suppress(OSError):
                    relay.ask(b"stop", b"\n")
                killed = relay.child.wait(LIMIT) == -signal.SIGKILL
                tracer.communicate(timeout=LIMIT)
        written = self.whole_lines(dest)
        self.assertEqual(written, (earlier + queued)[:len(written)], "the file has whole lines, in order")
        if not killed or call == "fsync":
            self.assertEqual(written, earlier + queued, "all was written before")
        self.assertEqual(self.sent_by_another(dest), written)
        return killed

    def test_at_a_start(self):
        """What is behind the whole lines of a file is put aside: it is there once at least, and the lines come, each once."""
        earlier = numbered(COUNT, b"old")
        ends = set()
        for call, number in (*((name, 1) for name in ("openat", "write", "fsync", "ftruncate")), ("openat", 2)):
            with self.subTest(call=call, number=number):
                dest = self.emptied()
                self.write(dest, text_of(earlier) + b"cut 1 17")
                words = ["run", *self.given({"config": self.configuration([dest], free_ports(3)), "rules": ALL.format(dest),
                                             "rewrite": None}), "--admin", str(free_ports(1)[0]), "--spool", self.dir]
                # With -D strace is no parent of the relay, which is the child then.
                with subprocess.Popen(["strace", "-D", "-f", "-o", os.devnull, *self.killing(dest, call, number), Settings.relayd,
                                       *words], stdout=subprocess.PIPE, stderr=subprocess.DEVNULL) as relay:
                    ends.add(relay.stdout.readline())
                    relay.kill()
                self.assertEqual(self.sent_by_another(dest), earlier)
                texts = []
                for name in self.files():
                    with open(self.path(name), "rb") as file:
                        texts.append(file.read())
                self.assertIn(b"cut 1 17", texts)
        self.assertIn(b"", ends, "a relay was killed before it was ready")

    def emptied(self):
        """A destination at which nobody is, and a folder without files."""
        subprocess.run(["find", self.dir, "-mindepth", "1", "-delete"], check=True)
        return f"127.0.0.1:{free_ports(1)[0]}"

    def killing(self, dest, call, number):
        """The words with which strace kills a program at a call of those that name the folder's files."""
        paths = [word for name in (dest, dest + "~new", dest + "~aside", "~lock") for word in ("-P", self.path(name))]
        return ["-e", f"trace={call}", *paths, "-e", f"inject={call}:signal=SIGKILL:when={number}"]

    def whole_lines(self, dest):
        """The whole lines of a file, if it is there."""
        if not os.path.exists(self.path(dest)):
            return []
        with open(self.path(dest), "rb") as file:
            return file.read().split(b"\n")[:-1]

    def sent_by_another(self, dest):
        """What the store of a destination gets, once it is there, of what a relay left, before a line that is new."""
        store = self.store_at(int(dest.split(":")[1]))
        with self.spooling([dest]) as relay:
            relay.lines(b"last 1 1\n")
            self.wait_for(lambda: store.lines()[-1:] == [b"last 1 1"], "the last line has come")
            self.settles(relay)
        return store.lines()[:-1]

    def store_at(self, port):
        """A store at a port."""
        store = Store(port).start()
        self.addCleanup(store.stop)
        return store


class TheEnd(WithSpool):
    """What a stop says of files that it could not write."""

    def test_the_folder_is_gone(self):
        """Standard error names the file and the reason without a log, and the status is the device's."""
        dest = f"127.0.0.1:{free_ports(1)[0]}"
        with self.spooling([dest]) as relay:
            self.queued(relay, numbered(10))
            subprocess.run(["rm", "-rf", self.dir], check=True)
            _, ran = relay.stop()
        self.assertEqual((ran.status, ran.out), (3, b"settled\n"))
        self.assertEqual(ran.err, f"relayd: spool: {self.path(dest)}: cannot write: No such file or directory (os error 2)\n".encode())

    def test_the_folder_is_gone_with_a_file(self):
        """The same where the file of an earlier run is open: what is written there would be lost."""
        dest = f"127.0.0.1:{free_ports(1)[0]}"
        self.write(dest, text_of(numbered(10)))
        with self.spooling([dest]) as relay:
            self.queued(relay, [LIVE])
            subprocess.run(["rm", "-rf", self.dir], check=True)
            _, ran = relay.stop()
        self.assertEqual((ran.status, ran.out), (3, b"settled\n"))
        self.assertIn(b"cannot write", ran.err)

    def test_the_folder_cannot_be_synced(self):
        """The lines are in the file, and count as kept."""
        dest = f"127.0.0.1:{free_ports(1)[0]}"
        library = compiled(os.fspath(self.folder), "starved")

        def fails():
            os.environ.update(LD_PRELOAD=library, NO_FOLDER_SYNCS=library)

        with self.spooling([dest], "--log", before=fails) as relay:
            self.queued(relay, numbered(10))
            log = Log(relay.child.stderr)
            self.ends(relay)
            log.thread.join(LIMIT)
        self.assertEqual(self.held(dest), numbered(10))
        self.assertEqual(log.of(dest)[-1], b"stopped, 10 datapoints spooled")
        self.assertEqual(log.lines[-2:], [b"relay stopped, 10 datapoints spooled\n", b"relay stopped, 0 datapoints not sent\n"])
