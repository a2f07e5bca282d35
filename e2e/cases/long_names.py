"""Names that are too long: `--longest-name` keeps them out, the memory small, and what others send unharmed."""

import contextlib
import os
import pickle
import socket
import tempfile
import time

from field.programs import CarbonRelay
from fixtures.configured import REWRITE, SETTINGS, WithFiles
from fixtures.harness import Ran, run
from fixtures.running import WithRelays

LONGEST = 1024        # characters, as the service has it
MANY = 12_000
LENGTH = 16_000       # bytes: together 192 MB
MORE_MEMORY = 110_000_000  # bytes: those of the last 4,096 names, and of what a receiver remembers besides
LIMIT = ("--longest-name", str(LONGEST))


def named(length, number=0):
    """A name of this many bytes."""
    return (b"n%d." % number).ljust(length, b"x")


class LongNames(WithRelays):
    """A relay with the limit."""

    def test_the_limit(self):
        """Names up to its length arrive, longer ones do not, and many of these take little memory."""
        store, = self.stores(1)
        to_store = f"127.0.0.1:{store.port}"
        rules = f"[all]\ndefault = true\ndestinations = {to_store}\n"
        with self.relay([to_store], rules, options=LIMIT) as relay:
            good = [named(LONGEST), named(20), "é".encode() * LONGEST, "\U0001f4c8".encode() * LONGEST]
            bad = [named(LONGEST + 1), "é".encode() * (LONGEST + 1), named(LENGTH)]
            relay.lines(b"".join(name + b" 1 1\n" for name in (*bad, *good)))
            wanted = [name + b" 1 1" for name in good]
            self.wait_for(lambda: len(store.lines()) == len(wanted), "those that are short enough arrive")
            self.assertEqual(store.lines(), wanted)
            before = relay.resident()
            relay.lines(b"".join(named(LENGTH, number) + b" 1 1\n" for number in range(MANY)) + b"last 1 1\n")
            self.wait_for(lambda: store.lines()[-1] == b"last 1 1", "all are read")
            self.assertEqual(store.lines(), [*wanted, b"last 1 1"])
            self.assertLess(relay.resident() - before, MORE_MEMORY)
            self.settles(relay)


class BesideOthers(WithRelays):
    """One producer sends names of which the lines are too long for what is behind the relay, and another sends beside it."""

    @contextlib.contextmanager
    def behind(self, kind, store):
        """The port of what is behind the relay, and sends to a store."""
        to_store = f"127.0.0.1:{store.port}"
        if kind == "relayd":
            with self.relay([to_store], f"[all]\ndefault = true\ndestinations = {to_store}\n") as relay:
                yield relay.line
        elif not os.path.exists("/usr/bin/carbon-relay"):
            self.skipTest("graphite-carbon is missing")
        else:
            with CarbonRelay(tempfile.mkdtemp(dir=self.folder), store.port, "line") as relay:
                yield relay.port

    def test_nothing_of_the_others_is_lost(self):
        """Fifty such names a second, by lines, pickles and datagrams: with the limit all of the other producer arrives."""
        for kind in ("relayd", "carbon-relay"):
            store, = self.stores(1)
            with self.subTest(), self.behind(kind, store) as port:
                to_it = f"127.0.0.1:{port}"
                with self.relay([to_it], f"[all]\ndefault = true\ndestinations = {to_it}\n", options=LIMIT) as relay, \
                        socket.create_connection(("127.0.0.1", relay.line)) as honest:
                    sent = []
                    for turn in range(150):
                        (relay.lines, relay.datagram, lambda text: relay.pickles(pickle.dumps([(text[:16_384].decode(), (-1, 1))], 2))
                         )[turn % 3](b"x" * 16_377 + (b" 1 -1\n" if turn % 3 < 2 else b"x" * 7))
                        lines = [b"honest.%d.%d 1 1" % (turn, place) for place in range(20)]
                        honest.sendall(b"".join(line + b"\n" for line in lines))
                        sent += lines
                        time.sleep(0.02)
                    self.wait_for(lambda: len(store.lines()) >= len(sent), "all has come")
                    self.assertEqual([line.strip() for line in store.lines()], sent)


class OfFiles(WithFiles):
    """The limit without a network."""

    def routes(self, wanted, limit, name, **files):
        """A case: what `route` prints of a name with this limit."""
        ran = run(("route", name, "--longest-name", str(limit), *self.given(files)))
        self.same(name, ran, Ran(0, wanted.encode(), b""), ("route",))

    def test_rewritten_names(self):
        """What counts is the name after all other rules, wherever these are, and without a rewrite file too."""
        to = "127.0.0.1:3002\n"
        self.routes(f"four {to}", 4, "four")
        self.routes("dropped\n", 3, "four")
        self.routes(f"b {to}", 3, "longer", rewrite="[pre]\nlonger = b")
        self.routes(f"b {to}", 3, "longer", rewrite="[post]\nlonger = b\n[pre]\n")
        self.routes("dropped\n", 3, "b", rewrite="[post]\n^b = longer\n")
        self.routes(f"éüö {to}", 3, "éüö")
        self.routes("dropped\n", 3, "éüöä")

    def test_faults_of_the_file(self):
        """They are those of the file alone."""
        for text, fault in (("a = b", b"line 1: NoSection"), ("[pre]\n( = x", b"line 2: BadPattern"), (b"[pre]\n\xc3", b"not text")):
            ran = run(("check", *LIMIT, *self.given({"rewrite": text})))
            self.same(text, ran, Ran(1, b"", b"relayd: rewrite: " + fault + b"\n"), ("check",))
        ran = run(("check", *LIMIT, *self.given({"rewrite": self.folder / "missing"})))
        self.same("missing", ran, Ran(3, b"", b"relayd: rewrite: cannot read\n"), ("check",))

    def test_replay(self):
        """A longer name is a bad name."""
        lines = self.folder / "lines"
        lines.write_bytes(b"a.%b 1 2\nb 1 2\n" % (b"x" * 1023))
        ran = run(("replay", *LIMIT, "--lines", str(lines), *self.given({"rewrite": REWRITE})))
        self.assertRegex(ran.out, rb"reader 0 waiting 0 bad lines 0 bad pickles 0 bad rows 0 bad names 1\n\Z")
        ran = run(("replay", "--lines", str(lines), *self.given({"config": SETTINGS})))
        self.assertRegex(ran.out, rb"bad names 0\n\Z")

    def test_numbers(self):
        for number in ("0", "4001", "x", "-1", "", "1k"):
            ran = run(("check", f"--longest-name={number}", *self.given({})))
            self.assertEqual((ran.status, ran.out), (2, b""))
            self.assertIn(b"not 1 to 4000 in decimal digits", ran.err)
        for number in ("1", "4000", "0099"):
            self.assertEqual(run(("check", "--longest-name", number, *self.given({}))).status, 0)
