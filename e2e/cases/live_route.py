"""`relayd route --admin`: where a running relay sends metrics."""

import contextlib
import json
import os

from fixtures.answering import answering
from fixtures.harness import Ran, run
from fixtures.reloading import Reloads

MOST = 4096         # bytes of a name that is asked for
LONGEST_KEY = 128   # bytes
UNKNOWN = b"unknown command\n"
REWRITE = "[pre]\n^gone =\n^moved = both\n^odd = \"{\\\\[\n"
NAMES = ("a", "both.x", "moved.x", "none", "gone", "dropped", "odd", "\u00e4\"\\", "\u2028{", "a;host=b", "x" * MOST,
         "\u00e4" * (MOST // 2))
BAD = ("", "a b", "a\tb", "\x7f", " a")


def rules(first, second):
    """Rules by which some names go to two destinations, some to one and some to none."""
    return (f"[both]\npattern = ^both\ndestinations = {first}, {second}\n[none]\npattern = ^(none|dropped)\ndestinations = h:9\n"
            f"[rest]\ndefault = true\ndestinations = {first}\n")


class LiveRoute(Reloads):
    """A relay with two stores, and its files."""

    @contextlib.contextmanager
    def routing(self, options=()):
        """The relay, and the files that it runs by."""
        dests = [f"127.0.0.1:{store.port}" for store in self.stores(2)]
        self.write("rewriting", REWRITE)
        with self.running(dests, rules(*dests), options=("--rewrite", self.path("rewriting"), *options)) as relay:
            relay.dests = dests
            yield relay
            if relay.child.poll() is None:
                self.stops(relay)

    def by_files(self, *words, given=None):
        """How `route` ends by the files of the relay."""
        files = ("--config", self.path("config"), "--rules", self.path("rules"), "--rewrite", self.path("rewriting"))
        return run(("route", *files, *words), given)

    def asked(self, relay, *words, given=None):
        """How it ends by the relay itself."""
        return run(("route", "--admin", str(relay.admin), *words), given)

    def test_the_same_as_by_the_files(self):
        """The line of each name, its object and its status; those of a file of names, and their notes."""
        names = "".join(f" {name}\r\n\n" for name in (*NAMES, "b c")).encode()
        with self.routing() as relay:
            for name in (*NAMES, *BAD):
                for words in ((), ("--json",), ("--strict",), ("--strict", "--json"), ("--explain",)):
                    with self.subTest(name=name, words=words):
                        found = self.asked(relay, *words, "--", name)
                        expected = self.by_files(*words, "--", name)
                        if "--explain" in words:
                            found, expected = found[:2], expected[:2]
                        self.assertEqual(found, expected)
            for words in ((), ("--json",), ("--strict",), ("--strict", "--json")):
                with self.subTest(words):
                    expected = self.by_files(*words, "--names", "-", given=names)
                    self.assertEqual(self.asked(relay, *words, "--names", "-", given=names), expected)
                    self.assertIn(b"relayd: name: line 25: BadName\n", expected.err)
            note = self.asked(relay, "--explain", "a b").err
            self.assertIn(b"relayd: note: ", note)

    def test_after_a_reload(self):
        """The relay answers by what it runs by, and not by files that it has not read yet."""
        with self.routing() as relay:
            first, second = relay.dests
            self.assertEqual(self.asked(relay, "a").out, b"a %s\n" % first.encode())
            self.write("rules", rules(second, first))
            self.assertEqual(self.by_files("a").out, b"a %s\n" % second.encode())
            self.assertEqual(self.asked(relay, "a").out, b"a %s\n" % first.encode())
            self.assertEqual(self.reload(relay).status, 0)
            self.assertEqual(self.asked(relay, "a").out, b"a %s\n" % second.encode())

    def test_what_goes_there_arrives(self):
        """The datapoints of a name go where the relay says."""
        with self.routing() as relay:
            there = json.loads(self.asked(relay, "--json", "moved.x").out)
            relay.lines(b"moved.x 1 1700000000\n")
            self.wait_for(lambda: relay.totals()["taken"] == 2, "both stores get it")
            self.assertEqual((there["rewritten"], there["destinations"]), ("both.x", relay.dests))

    def test_requests_that_are_none(self):
        """What is no name, and one that is too long, is no command, also behind a key that fills the room."""
        with self.routing() as relay:
            for text in (b"route", b"route ", b"route  a", b"route a b", b"route \xff", b"route \x00", b"routes a", b"ROUTE a",
                         b"route " + b"x" * (MOST + 1), b"route " + b"x" * 100_000):
                with self.subTest(text[:20]):
                    self.assertEqual(relay.command(text), UNKNOWN)
            long = b"x" * MOST
            for text in (b"route " + long, b"route " + long + b"\r"):
                self.assertEqual(relay.command(text), b"route %s %s\n" % (long, relay.dests[0].encode()))
            self.assertEqual(self.asked(relay, "x" * (MOST + 1)), Ran(1, b"", b"relayd: name: more than 4096 bytes\n"))

    def test_with_a_key(self):
        """It needs the key, as all commands do."""
        key = "k" * LONGEST_KEY
        path = self.write("key", key + "\n")
        os.chmod(path, 0o600)
        with self.routing(options=("--admin-key", path)) as relay:
            wrong = Ran(3, b"", b"relayd: admin: 127.0.0.1:%d: wrong key\n" % relay.admin)
            self.assertEqual(self.asked(relay, "a"), wrong)
            expected = self.by_files("x" * MOST)
            self.assertEqual(self.asked(relay, "--admin-key", path, "x" * MOST), expected)
            for more, answer in ((b"", b"route " + expected.out), (b"\r", b"route " + expected.out), (b"x", UNKNOWN), (b"xxxxxx", UNKNOWN)):
                text = b"key %s\r\nroute %s%s" % (key.encode(), b"x" * MOST, more)
                self.assertEqual(relay.command(text), answer, more)
            self.stops_by_command(relay, "--admin-key", path)

    def test_no_relay(self):
        """An older relay does not know the command; others answer as no relay does, or not."""
        for answer, fault in ((UNKNOWN, b"unknown command"), (b"", b"no answer"), (b"route a", b"answer cut off"),
                              (b"drop", b"answer cut off"), (b"rout", b"answer cut off"), (b"a h:1\n", b"no relay"),
                              (b"dropped\n\n", b"no relay")):
            with self.subTest(answer), answering(lambda stream, answer=answer: stream.sendall(answer)) as port:
                expected = Ran(3, b"", b"relayd: admin: 127.0.0.1:%d: %s\n" % (port, fault))
                self.assertEqual(run(("route", "--admin", str(port), "a")), expected)
                self.assertEqual(run(("route", "--admin", str(port), "--names", "-"), b"a\n"), expected)

    def test_words(self):
        """Either a relay or files."""
        for words in (("a",), ("--admin", "1", "--config", "x", "a"), ("--admin", "1", "--rules", "x", "a"), ("--admin", "0", "a"),
                      ("--admin", "1", "--longest-name", "9", "a"), ("--config", "x", "--admin-key", "k", "a"), ("--admin", "1")):
            with self.subTest(words):
                self.assertEqual(run(("route", *words)).status, 2)
