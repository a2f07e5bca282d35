"""The files of a reload: which the relay reads, how far, and what it answers of them."""

import contextlib
import os
import subprocess
import threading
import time
import unittest

from fixtures.harness import LIMIT, Ran, Settings, run
from fixtures.mounts import dead
from fixtures.reloading import ALL, RELOADED, Reloads

NOBODY = 65534
SECRET = b"s3cret"
FAULTY = "[relay]\nDESTINATIONS = a:1\ns3cret\n"
BAD_LINE = Ran(1, b"", b"relayd: config: line 3: BadLine\n")
READING = 10.0           # seconds that the files of a reload may take
MOST = 64_000_000        # bytes of a file
DROP = "[post]\n^secret\\..* =\n"
UNKNOWN = b"unknown command\n"


class ReloadFiles(Reloads):
    """A relay whose files are read again."""

    @contextlib.contextmanager
    def one(self, options=(), rewrite=None):
        """A relay with one store."""
        store, = self.stores(1)
        dests = [f"127.0.0.1:{store.port}"]
        with self.running(dests, options=options, rewrite=rewrite) as relay:
            relay.store, relay.sent, relay.dests = store, 0, dests
            yield relay

    def sends(self, relay, name=b"a"):
        """The relay sends a datapoint on."""
        relay.lines(b"%s 1 1700000000\n" % name)
        relay.sent += 1
        self.wait_for(lambda: len(relay.store.lines()) == relay.sent, "the line has come")

    def answers(self, relay):
        """The relay answers a report, and soon."""
        began = time.monotonic()
        self.assertTrue(relay.command(b"report").startswith(b"destination "))
        self.assertLess(time.monotonic() - began, READING / 2)

    def test_a_request_names_no_files(self):
        """What stands behind `reload` makes it no command, and nothing is read."""
        with self.one() as relay:
            other = self.write("other.conf", FAULTY).encode()
            for more in (b"config %s\n" % other, b"config /etc/shadow\nrules /etc/shadow\n", b"longest-name 0\n",
                         b"longest-name 99999999999999\n", b"\n", b"x"):
                with self.subTest(more):
                    self.assertEqual(relay.command(b"reload\n" + more, b""), UNKNOWN)
            self.sends(relay)
            self.assertEqual(relay.command(b"reload\n", b""), b"reloaded: same rules and rewriting\n")
            self.assertEqual(relay.command(b"reload", b""), b"reloaded: same rules and rewriting\n")
            self.stops(relay)

    def test_what_the_relay_began_with_stays(self):
        """Rewriting and the limit on names hold after a reload, and the answer says what changed."""
        with self.one(("--longest-name", "20"), DROP) as relay:
            name = relay.dests[0]
            other, = self.stores(1)
            for rules, answer in ((None, b"same rules and rewriting"),
                                  (ALL.format(name) + "\n", b"rules changed")):
                self.assertEqual(self.reload(relay, *self.files(relay, relay.dests, rules)),
                                 Ran(0, b"reloaded: %s\n" % answer, b""))
                relay.lines(b"secret.a 1 1700000000\n%s 1 1700000000\n" % (b"n" * 21))
                self.sends(relay)
            more = [*relay.dests, f"127.0.0.1:{other.port}"]
            self.assertEqual(self.reload(relay, *self.files(relay, more)),
                             Ran(0, b"reloaded: destination %s added, rules changed\n" % more[1].encode(), b""))
            self.write("rewrite", DROP + "^a$ = b\n")
            self.assertEqual(self.reload(relay), Ran(0, b"reloaded: rewriting changed\n", b""))
            self.stops(relay)
            self.assertEqual({line.split()[0] for line in relay.store.lines()}, {b"a"})

    def test_an_answer_quotes_nothing(self):
        """It has the fault and its line, and nothing of the file."""
        with self.one() as relay:
            self.write("config", FAULTY)
            self.assertEqual(relay.command(b"reload\n", b""), b"refused 1 config: line 3: BadLine\n")
            self.assertEqual(self.reload(relay), BAD_LINE)
            self.sends(relay)
            self.stops(relay)

    def test_notes(self):
        """They are those of `check`, and the user who asks reads the files."""
        with self.one() as relay:
            self.write("config", FAULTY)
            ran = self.reload(relay, "--explain")
            self.assertEqual((ran.status, ran.out), (1, b""))
            self.assertTrue(ran.err.startswith(BAD_LINE.err + b"relayd: note: "), ran)
            self.assertIn(SECRET, ran.err)
            self.files(relay, relay.dests, REPLICATION_FACTR="2")
            words = ("--config", self.path("config"), "--rules", self.path("rules"), "--explain")
            ran = self.reload(relay, "--explain")
            self.assertEqual((ran.status, ran.out), (0, b"reloaded: same rules and rewriting\n"))
            self.assertEqual(ran.err, run(("check", *words)).err)
            self.assertNotEqual(ran.err, b"")
            self.stops(relay)

    @unittest.skipIf(os.geteuid(), "only root can be another user")
    def test_another_user(self):
        """Who may not read the files gets nothing of them, and a note that says so."""
        with self.one() as relay:
            config = self.write("config", FAULTY)
            os.chmod(config, 0o600)
            os.chmod(self.folder, 0o755)

            def become():
                os.setgroups([])
                os.setgid(NOBODY)
                os.setuid(NOBODY)

            program = self.path("relayd")
            with open(Settings.relayd, "rb") as file, open(program, "wb") as copy:
                copy.write(file.read())
            os.chmod(program, 0o755)
            words = (program, "reload", "--admin", str(relay.admin), "--explain")
            ran = subprocess.run(words, preexec_fn=become, capture_output=True, timeout=LIMIT)
            self.assertEqual((ran.returncode, ran.stdout), (1, b""))
            first, note, _ = ran.stderr.split(b"\n", 2)
            self.assertEqual(first + b"\n", BAD_LINE.err)
            self.assertEqual(note, b"relayd: note: %s: Permission denied (os error 13)" % config.encode())
            self.assertNotIn(SECRET, ran.stderr)
            self.sends(relay)
            self.stops(relay)

    def test_what_is_no_file(self):
        """A FIFO, a directory, a device: the relay goes on as it was, and answers others at once."""
        with self.one() as relay:
            config = self.path("config")
            reason = b"relayd: config: cannot read: %s: not a regular file\n" % config.encode()
            for make in (os.mkfifo, os.mkdir, lambda path: os.symlink("/dev/zero", path),
                         lambda path: os.symlink("/proc/self/fd/2", path)):
                with self.subTest(make):
                    if os.path.isdir(config):
                        os.rmdir(config)
                    else:
                        os.remove(config)
                    make(config)
                    self.assertEqual(self.reload(relay), Ran(3, b"", reason))
                    self.answers(relay)
                    self.sends(relay)
            os.remove(config)
            self.reloads(relay, relay.dests)
            self.stops(relay)

    def test_a_file_without_bounds(self):
        """One with holes, and one that grows while it is read: not more than the bound is read, and the relay stays small."""
        with self.one() as relay:
            config = self.path("config")
            reason = b"relayd: config: cannot read: %s: file too large\n" % config.encode()
            before = relay.resident()
            os.truncate(config, 10_000_000_000)
            self.assertEqual(self.reload(relay), Ran(3, b"", reason))
            self.answers(relay)
            os.truncate(config, MOST - 1_000_000)
            is_over = threading.Event()
            growing = threading.Thread(target=grow, args=(config, is_over))
            growing.start()
            try:
                self.assertEqual(self.reload(relay), Ran(3, b"", reason))
            finally:
                is_over.set()
                growing.join(LIMIT)
            self.assertLess(relay.resident() - before, 8 * MOST)
            self.sends(relay)
            self.reloads(relay, relay.dests)
            self.stops(relay)

    def test_a_dead_mount(self):
        """Where a file does not answer, the reload is refused after its time, and no note waits for it; reports are answered
        meanwhile, and a stop."""
        for is_stopped in (True, False):
            with self.subTest(is_stopped), self.one() as relay, contextlib.ExitStack() as stack:
                folder = self.path("dead")
                os.makedirs(folder, exist_ok=True)
                mount = dead(folder)
                try:
                    mount.__enter__()
                except OSError as error:
                    self.skipTest(f"no dead mount can be made: {error}")
                stack.push(mount)
                os.remove(self.path("config"))
                os.symlink(os.path.join(folder, "config"), self.path("config"))
                ran = []
                asking = threading.Thread(target=lambda: ran.append(self.reload(relay, "--explain")))
                began = time.monotonic()
                asking.start()
                time.sleep(0.5)
                self.answers(relay)
                self.sends(relay)
                if is_stopped:
                    self.stops(relay)
                    asking.join(LIMIT)
                    self.assertEqual(ran, [Ran(3, b"", ran[0].err)])
                    continue
                asking.join(LIMIT)
                self.assertGreater(time.monotonic() - began, READING - 1)
                self.assertEqual(ran, [Ran(3, b"", b"relayd: files: not read within 10 seconds\n")])
                for words in ((), ("--explain",)):
                    ran = Ran(3, b"", b"relayd: files: an earlier reload still reads them\n")
                    self.assertEqual(self.reload(relay, *words), ran)
                self.sends(relay)
                stack.close()
                os.remove(self.path("config"))
                self.files(relay, relay.dests)
                self.wait_for(lambda: RELOADED == self.reload(relay), "the earlier reading has ended")
                self.sends(relay)
                self.stops(relay)


def grow(path, is_over):
    """Makes a file longer, until it is enough."""
    with open(path, "ab", buffering=0) as file:
        for _ in range(400):
            if is_over.is_set():
                return
            file.write(bytes(1_000_000))


class Bounds(Reloads):
    """What other commands read of a file, and of a pipe."""

    def test_a_device_without_an_end(self):
        """It is a fault, and the program stays small."""
        good = self.write("good", self.configuration(["127.0.0.1:1"], (2013, 2014, 2015), RELAY_METHOD="consistent-hashing"))
        for words, role in ((("check", "--config", "/dev/zero"), b"config"),
                            (("check", "--config", good, "--rules", "/dev/zero"), b"rules"),
                            (("route", "--config", good, "--rewrite", "/dev/zero", "a"), b"rewrite"),
                            (("run", "--config", "/dev/zero", "--admin", "1"), b"config"),
                            (("replay", "--config", "/dev/zero", good), b"config")):
            with self.subTest(words):
                began = time.monotonic()
                ran = run(words)
                self.assertEqual(ran, Ran(3, b"", b"relayd: %s: cannot read\n" % role))
                self.assertLess(time.monotonic() - began, LIMIT / 2)
        ran = run(("check", "--config", "/dev/zero", "--explain"))
        self.assertTrue(ran.err.startswith(b"relayd: config: cannot read\nrelayd: note: /dev/zero: file too large\n"), ran)

    def test_a_pipe(self):
        """It is read to its end, as a file."""
        text = self.configuration(["127.0.0.1:1"], (2013, 2014, 2015), RELAY_METHOD="consistent-hashing").encode()
        self.assertEqual(run(("check", "--config", "/dev/stdin"), text), Ran(0, b"ok 1 destinations\n", b""))
        long = text + b"# " + bytes(MOST)
        with contextlib.suppress(BrokenPipeError):
            self.assertEqual(run(("check", "--config", "/dev/stdin"), long).status, 3)
