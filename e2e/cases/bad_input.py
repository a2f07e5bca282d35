"""Who sends bad input, what is wrong with it, and what is dropped on purpose."""

import pickle
import socket
import time

from fixtures.harness import LIMIT
from fixtures.receiving import Receiving
from fixtures.running import shown
from fixtures.stores import free_ports

LONG_NAME = 16_385    # bytes: no line is as long
DROPPING = 2          # seconds


class Examples(Receiving):
    """Who sends bad input, with --log."""

    def example(self, relay, name):
        """The examples that the log has of a receiver, one a minute at most."""
        self.wait_for(lambda: any(b" from " in line for line in relay.log.lines), f"the log has one: {relay.log.lines}")
        return [line for line in relay.log.lines if line.startswith(f"receiver {name}: bad ".encode()) and b" from " in line]

    def test_each_fault_of_a_line(self):
        for line, wrong in ((b"a 1 1 1", b"4 fields"), (b"a", b"1 field"), (b"a\x7f 1 1", b"not a metric name"),
                            (b"a x 1", b"not a value"), (b"a 1 x", b"not a time")):
            with self.subTest(line=line), self.logged() as relay:
                relay.lines(b"good 1 1\n \n" + line + b"\ngood 2 2\n")
                self.assertEqual(self.example(relay, "line"), [b"receiver line: bad line from 127.0.0.1: " + wrong + b"\n"])
                self.ends(relay)

    def test_a_line_in_two_pieces(self):
        """A line that began in the piece before is no example, since only its end is there; a later one is."""
        with self.logged() as relay, self.connected(relay) as stream:
            stream.sendall(b"good 1 ")
            time.sleep(0.3)
            stream.sendall(b"1\na b c d e\n")
            self.assertEqual(self.example(relay, "line"), [b"receiver line: bad line from 127.0.0.1: 5 fields\n"])
            self.ends(relay)

    def test_pickles_and_datagrams(self):
        """They are named in the same way, at ports of IPv6 too."""
        for name, send, wanted in (
                ("pickle", lambda relay: relay.pickles(b"no pickle"), b"bad pickle from 127.0.0.1: not a pickle"),
                ("pickle", lambda relay: relay.pickles(pickle.dumps([("a", (1, "x"))], 2)),
                 b"bad row from 127.0.0.1: not a datapoint"),
                ("udp", lambda relay: relay.datagram(b"good 1 1\na b"), b"bad line from 127.0.0.1: 2 fields")):
            with self.subTest(name=name, wanted=wanted), self.logged() as relay:
                send(relay)
                self.assertEqual(self.example(relay, name), [f"receiver {name}: ".encode() + wanted + b"\n"])
                self.ends(relay)
        with self.logged(LINE_RECEIVER_INTERFACE="::") as relay:
            for address in ("127.0.0.1", "::1"):
                with socket.create_connection((address, relay.line), LIMIT) as stream:
                    stream.sendall(b"a 1\n")
                    self.assertEqual(self.example(relay, "line"), [b"receiver line: bad line from 127.0.0.1: 2 fields\n"])
            self.ends(relay)

    def test_why_a_pickle_cannot_be_read(self):
        """Also of a long one, which comes in several pieces, if its first bytes show it."""
        row, whole = ("a", (1, 1)), ("a", (1, 2 ** 31))
        for pickled, wanted in ((pickle.dumps([row], 0), b"protocol 0"), (pickle.dumps([row] * 2_000, 0), b"protocol 0"),
                                (pickle.dumps([whole], 1), b"opcode 'L' of protocol 1"),
                                (pickle.dumps([("a", (1, True))], 1), b"opcode 'I' of protocol 1"),
                                (pickle.dumps([("a", (1, 1 + 1j))], 2), b"opcode 'c' of protocol 2"),
                                (pickle.dumps([("a", (1, 1 + 1j))], 4), b"opcode 147 of protocol 4"),
                                (b"\x80\x09]q\0.", b"protocol 9"), (pickle.dumps([row], 2)[:-1], b"ends too early"),
                                (pickle.dumps(row, 2), b"not a list of rows"), (b"h\0.", b"a memo entry that is not there"),
                                (b"]X\1\0\0\0\xff.", b"a text that is not UTF-8")):
            with self.subTest(wanted), self.logged() as relay:
                relay.pickles(pickle.dumps([row], 2), pickled)
                self.assertEqual(self.example(relay, "pickle"), [b"receiver pickle: bad pickle from 127.0.0.1: " + wanted + b"\n"])
                self.ends(relay)

    def test_a_name_that_rewriting_spoils(self):
        """One that a rule makes too long is bad. One that a rule empties is dropped on purpose, and no bad input."""
        with self.logged(rewrite=f"[pre]\n^spoil$ = {'x' * LONG_NAME}\n^dropped$ =\n") as relay:
            relay.lines(b"dropped 1 1\nspoil 1 1\ndropped 2 2\n")
            self.assertEqual(self.example(relay, "line"),
                             [b"receiver line: bad name from 127.0.0.1: not a metric name after rewriting\n"])
            self.ends(relay)
            self.assertEqual(self.last_of(relay, "line"), "receiver line: 1 bad name")

    def test_names_that_are_dropped_on_purpose(self):
        """They are no bad input: the log has nothing of them, and the status is well."""
        status, = free_ports(1)
        options = ("--status", str(status), "--longest-name", "20")
        with self.logged(options, rewrite="[pre]\n^dropped$ =\n") as relay:
            self.wait_for(lambda: shown(status)["destinations"][0]["connected"], "the store is connected")
            end = time.monotonic() + DROPPING
            while time.monotonic() < end:
                relay.lines(b"dropped 1 1\n" + b"n" * 21 + b" 1 1\n")
                relay.datagram(b"dropped 1 1\n")
                time.sleep(0.1)
            relay.lines(b"last 1 1\n")
            self.wait_for(lambda: relay.store.lines() == [b"last 1 1"], "the others come")
            self.wait_for(lambda: shown(status)["receivers"][0]["datapoints"] % 2 == 1, "all are counted")
            counts = shown(status)
            line, _pickle, udp = counts["receivers"]
            self.assertEqual(counts["state"], "well")
            self.assertEqual([it["bad_names"] for it in counts["receivers"]], [0, 0, 0])
            self.assertEqual(line["emptied_names"], line["datapoints"] - 1)
            self.assertEqual(udp["emptied_names"], udp["datapoints"])
            self.ends(relay)
            self.assertEqual([line for line in relay.log.lines if b"bad" in line], [])

    def test_not_more_than_one_a_minute(self):
        with self.logged() as relay:
            for number in range(3):
                relay.lines(b"bad %d\n" % number)
                time.sleep(1.2)
            self.assertEqual(len(self.example(relay, "line")), 1)
            self.ends(relay)
