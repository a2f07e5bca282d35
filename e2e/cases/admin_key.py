"""The key of the admin port: who may command a relay, and what the others learn."""

import contextlib
import os
import socket
import subprocess
import sys
import unittest

from fixtures.harness import LIMIT, Ran, Settings, run
from fixtures.program import TOP
from fixtures.reloading import ALL, RELOADED, Reloads
from fixtures.stores import free_ports

NOBODY = 65534
KEY = "0123456789abcdef-a key"
OTHER = "0123456789abcdef-b key"
WRONG = b"wrong key\n"
UNKNOWN = b"unknown command\n"
POST = b"POST / HTTP/1.1\r\nHost: 127.0.0.1:%d\r\nOrigin: http://evil.example\r\nContent-Type: text/plain\r\n" \
       b"Content-Length: 5\r\n\r\nstop\n"


class AdminKey(Reloads):
    """A relay whose admin port has a key."""

    def key_file(self, name="key", key=KEY, mode=0o600):
        """A file with a key."""
        path = self.write(name, key + "\n")
        os.chmod(path, mode)
        return path

    @contextlib.contextmanager
    def keyed(self):
        """A relay with a key, and one store."""
        store, = self.stores(1)
        dests = [f"127.0.0.1:{store.port}"]
        with self.running(dests, options=("--admin-key", self.key_file())) as relay:
            relay.store, relay.dests = store, dests
            yield relay
            if relay.child.poll() is None:
                self.ends(relay)

    def ends(self, relay):
        """The relay stops, and its log has been read."""
        self.stops_by_command(relay, "--admin-key", self.path("key"))

    def asked(self, relay, *words, key="key"):
        """How a command of a client ends, with a key or without."""
        more = () if key is None else ("--admin-key", self.path(key))
        return run((*words, "--admin", str(relay.admin), *more))

    def fault(self, relay, reason):
        """How it ends that was refused."""
        return Ran(3, b"", b"relayd: admin: 127.0.0.1:%d: %s\n" % (relay.admin, reason))

    def test_with_the_key(self):
        """All commands are carried out; the second line of the file is no part of the key."""
        with self.keyed() as relay:
            ran = self.asked(relay, "report")
            self.assertEqual((ran.status, ran.out[:12], ran.err), (0, b"destination ", b""))
            self.key_file("two", KEY + "\r\nmore", 0o640)
            self.assertEqual(self.asked(relay, "report", key="two"), ran)
            self.assertEqual(self.asked(relay, "reload"), RELOADED)
            files = ("--config", self.path("config"), "--rules", self.path("rules"))
            self.assertEqual(self.asked(relay, "restart", *files).out, b"ok 1 destinations\nstopping\n")
            self.assertEqual(relay.child.wait(LIMIT), 0)
            relay.log.thread.join(LIMIT)

    def test_without_the_key(self):
        """No command is carried out without it, or with another one, in whatever form; each has its one answer."""
        with self.keyed() as relay:
            self.key_file("other", OTHER)
            self.key_file("longer", KEY + "x")
            self.key_file("shorter", KEY[:-1])
            for key in (None, "other", "longer", "shorter"):
                for words in (("report",), ("stop",), ("stop", "--wait"), ("reload",), ("reload", "--explain")):
                    with self.subTest(key=key, words=words):
                        self.assertEqual(self.asked(relay, *words, key=key), self.fault(relay, b"wrong key"))
            for text in (b"key \nstop", b"key %s\nstop" % OTHER.encode(), b"KEY %s\nstop" % KEY.encode(),
                         b"stop\nkey %s" % KEY.encode(), b"key %sx\nstop" % KEY.encode(), b"files", b"report"):
                with self.subTest(text):
                    self.assertIn(relay.command(text), (WRONG, UNKNOWN))
            self.assertEqual(relay.command(b"key %s\nhello" % KEY.encode()), UNKNOWN)
            self.assertEqual(relay.command(b"key %s\nreload\nconfig /x\n" % KEY.encode(), b""), UNKNOWN)
            relay.lines(b"a 1 1700000000\n")
            self.wait_for(lambda: relay.store.lines() == [b"a 1 1700000000"], "the relay sends")
            self.wait_for(lambda: self.refusals(relay), "the log counts them")

    def test_in_pieces(self):
        """A key and a command are put together."""
        with self.keyed() as relay:
            text = b"key %s\nreport\n" % KEY.encode()
            for place in range(1, len(text)):
                with socket.create_connection(("127.0.0.1", relay.admin), LIMIT) as stream:
                    stream.sendall(text[:place])
                    stream.sendall(text[place:])
                    self.assertTrue(stream.recv(100).startswith(b"destination "), place)

    def test_a_relay_without_a_key(self):
        """It answers as one that knows none: a client with a key sends the command again."""
        store, = self.stores(1)
        dests = [f"127.0.0.1:{store.port}"]
        self.key_file()
        with self.running(dests) as relay:
            self.assertEqual(relay.command(b"key %s\nreport" % KEY.encode()), UNKNOWN)
            self.assertEqual(self.asked(relay, "report").status, 0)
            self.assertEqual(self.asked(relay, "reload"), RELOADED)
            self.ends(relay)

    def test_a_browser(self):
        """What begins like a request of HTTP is no command, with a key and without; it is counted."""
        store, = self.stores(1)
        dests = [f"127.0.0.1:{store.port}"]
        for options in ((), ("--admin-key", self.key_file())):
            with self.subTest(options), self.running(dests, ALL.format(*dests), options=options) as relay:
                for text in (POST % relay.admin, b"GET /stop HTTP/1.1\r\n\r\nstop\n", b"PUT stop\r\nstop\nstop\n"):
                    self.assertEqual(relay.command(text, b""), UNKNOWN)
                self.wait_for(lambda: self.refusals(relay), "the log counts them")
                line = self.refusals(relay)[0]
                self.assertRegex(line, rb"\Aadmin: (1 unknown command|[23] unknown commands), 0 without the key\n\Z")
                self.assertIsNone(relay.child.poll())
                self.ends(relay)

    def test_the_rest_is_said_at_the_end(self):
        """The log has one line a minute, also over a reload, and at the end what was refused since."""
        with self.keyed() as relay:
            self.assertEqual(relay.command(b"hello"), UNKNOWN)
            self.wait_for(lambda: self.refusals(relay), "the log counts it")
            self.assertEqual(relay.command(b"stop"), WRONG)
            self.assertEqual(self.asked(relay, "reload"), RELOADED)
            for _ in range(2):
                self.assertEqual(relay.command(b"hello"), UNKNOWN)
            self.ends(relay)
            self.assertEqual(self.refusals(relay), [b"admin: 1 unknown command, 0 without the key\n",
                                                    b"admin: 2 unknown commands, 1 without the key\n"])

    def refusals(self, relay):
        """The lines of the log on refused commands."""
        return [line for line in list(relay.log.lines) if line.startswith(b"admin: ")]

    def test_the_file(self):
        """One that others may read, or that has no key, is refused by its name, by the relay and by its clients."""
        port, = free_ports(1)
        config = self.write("config", "")
        commands = (("report",), ("stop",), ("reload",), ("run", "--config", config))
        for mode in (0o644, 0o604, 0o660, 0o666, 0o700, 0o200, 0o620):
            path = self.key_file("shared", KEY, mode)
            for words in commands:
                with self.subTest(mode=mode, words=words):
                    self.assertEqual(run((*words, "--admin", str(port), "--admin-key", path)), Ran(
                        1, b"", b"relayd: admin key: %s: mode %o, not 600 or 640\n" % (path.encode(), mode)))
        for key in ("", KEY[:15], "x" * 129, "\n" + KEY):
            path = self.key_file("bad", key)
            for words in commands:
                with self.subTest(key=key, words=words):
                    self.assertEqual(run((*words, "--admin", str(port), "--admin-key", path)), Ran(
                        1, b"", b"relayd: admin key: %s: the first line has not 16 to 128 bytes\n" % path.encode()))
        os.mkfifo(self.path("fifo"))
        for path, reason in ((self.path("none"), b"No such file or directory (os error 2)"),
                             (self.path("fifo"), b"not a regular file"), (self.path(""), b"not a regular file")):
            with self.subTest(path):
                self.assertEqual(run(("stop", "--admin", str(port), "--admin-key", path)), Ran(
                    3, b"", b"relayd: admin key: %s: %s\n" % (path.encode(), reason)))
        for mode in (0o600, 0o640, 0o400, 0o440):
            with self.subTest(mode=mode):
                ran = run(("stop", "--admin", str(port), "--admin-key", self.key_file("good", KEY, mode)))
                self.assertEqual(ran, Ran(3, b"", b"relayd: admin: 127.0.0.1:%d: connection refused\n" % port))

    def test_its_own_metrics(self):
        """The script that sends a relay's report to Graphite takes the key too."""
        script = os.path.join(TOP, "examples", "report_to_graphite.py")
        with self.keyed() as relay:
            words = (sys.executable, script, "--admin", str(relay.admin), "--to", f"127.0.0.1:{relay.line}")
            for more, expected in ((("--admin-key", self.path("key")), (0, b"")),
                                   ((), (1, b"report_to_graphite: this is no line of a report: wrong key\n"))):
                ran = subprocess.run((*words, *more), capture_output=True, timeout=LIMIT)
                self.assertEqual((ran.returncode, ran.stderr), expected)

    @unittest.skipIf(os.geteuid(), "only root can be another user")
    def test_another_user(self):
        """Who may not read the file cannot command the relay."""
        with self.keyed() as relay:
            os.chmod(self.folder, 0o755)
            program = self.path("relayd")
            with open(Settings.relayd, "rb") as file, open(program, "wb") as copy:
                copy.write(file.read())
            os.chmod(program, 0o755)

            def become():
                os.setgroups([])
                os.setgid(NOBODY)
                os.setuid(NOBODY)

            for more, err in (((), b"relayd: admin: 127.0.0.1:%d: wrong key\n" % relay.admin),
                              (("--admin-key", self.path("key")), b"relayd: admin key: %s: Permission denied (os error 13)\n"
                               % self.path("key").encode())):
                words = (program, "stop", "--admin", str(relay.admin), *more)
                ran = subprocess.run(words, preexec_fn=become, capture_output=True, timeout=LIMIT)
                self.assertEqual((ran.returncode, ran.stdout, ran.stderr), (3, b"", err))
            self.assertEqual(self.asked(relay, "report").status, 0)
