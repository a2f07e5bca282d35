"""What receivers do beside reading: why connections end and datagrams are lost, and what the log says of it."""

import contextlib
import os
import re
import resource
import shutil
import signal
import socket
import struct
import subprocess
import threading
import time

from fixtures.harness import LIMIT, Settings
from fixtures.receiving import Receiving, is_closed
from fixtures.running import shown
from fixtures.spooling import ALL
from fixtures.stores import free_ports

MOST_DATAGRAM = 65_507
LONG_LINE = 16_385
IDLE = 5              # seconds; no connection that is to stay open rests so long
DATAGRAMS = 4_000     # with their blank lines more than the buffer that a relay asks for
BLANK = 4_000         # lines of a datagram beside its datapoint
NOTING = 2            # seconds
STEP, STEPS, STEP_S = 200, 300, 0.01  # datagrams together, how often, and how many seconds apart
MOST_CONNECTIONS = 1_024
FRAME = 1_048_576     # bytes: the longest
FRAMES = 60
ROOM = 160 << 20      # bytes of memory: a relay leaves most of it to what is no long word


def reset(stream):
    """Resets a connection."""
    stream.setsockopt(socket.SOL_SOCKET, socket.SO_LINGER, struct.pack("ii", 1, 0))
    stream.close()


class Losses(Receiving):
    """Connections that end otherwise than in order, and datagrams that are dropped."""

    def test_connections_of_lines(self):
        """An overlong line, a last line without its end, an idle close and a reset are counted and logged by their reason;
        connections that end in order are not."""
        with self.logged(("--idle", str(IDLE))) as relay:
            relay.lines(b"in.order 1 1\n")
            relay.lines(b"")
            relay.lines(b"before 1 1\n" + b"x" * LONG_LINE)
            relay.lines(b"x" * LONG_LINE + b"\nnot.read 1 1\n")
            relay.lines(b"whole 1 1\ncut.off 1")
            silent = self.connected(relay)
            broken = self.connected(relay)
            broken.sendall(b"broken 1 1\n")
            self.wait_for(lambda: b"broken 1 1" in relay.store.lines(), "its line has come")
            reset(broken)
            self.wait_for(lambda: len(relay.store.lines()) == 4, "all whole lines have come")
            self.wait_for(lambda: is_closed(silent), "the silent one is closed")
            self.ends(relay)
            self.assertEqual(sorted(relay.store.lines()), [b"before 1 1", b"broken 1 1", b"in.order 1 1", b"whole 1 1"])
            self.assertEqual(self.last_of(relay, "line"),
                             "receiver line: 2 overlong lines, 1 unfinished line, 1 idle connection, 1 broken connection")

    def test_connections_of_frames(self):
        """The same of pickles."""
        with self.logged() as relay:
            for text in (struct.pack("!L", 1_048_577), struct.pack("!L", 100) + b"x" * 99, b"\0\0", b"\0\0\0\1."):
                with socket.create_connection(("127.0.0.1", relay.pickle), LIMIT) as stream:
                    stream.sendall(text)
            last = "receiver pickle: 1 overlong frame, 2 unfinished frames"
            self.wait_for(lambda: last.encode() + b"\n" in relay.log.lines, f"the log has it: {relay.log.lines}")
            self.ends(relay)
            self.assertEqual(self.last_of(relay, "pickle"), last)

    def test_connections_for_which_memory_is_short(self):
        """Of frames that do not end the relay holds some, and then has no room for more: each connection that it closes for
        that is counted and logged, on the status page too, and lines go on."""
        with self.logged() as relay:
            with open(f"/proc/{relay.child.pid}/status", encoding="ascii") as file:
                most = next(int(line.split()[1]) for line in file if line.startswith("VmData")) * 1024 + ROOM
            self.ends(relay)
        status, = free_ports(1)
        with self.logged(("--status", str(status)),
                         before=lambda: resource.setrlimit(resource.RLIMIT_DATA, (most, most))) as relay:
            streams = [self.connected(relay, relay.pickle) for _ in range(FRAMES)]
            for stream in streams:
                with contextlib.suppress(ConnectionError):
                    stream.sendall(struct.pack("!L", FRAME) + b"x" * (FRAME - 1))
            relay.lines(b"meanwhile 1 1\n")
            self.wait_for(lambda: relay.store.lines() == [b"meanwhile 1 1"], "a line comes")
            self.wait_for(lambda: any(map(is_closed, streams)), "one is closed")
            for stream in streams:
                stream.close()

            def counted():
                return shown(status)["receivers"][1]

            self.wait_for(lambda: counted()["unfinished"] + counted()["memory_short"] == FRAMES, "each has a reason")
            unfinished, refused = counted()["unfinished"], counted()["memory_short"]
            self.assertTrue(unfinished and refused, (unfinished, refused))
            self.ends(relay)
            self.assertEqual(self.last_of(relay, "pickle"),
                             f"receiver pickle: {unfinished} unfinished frames, {refused} memory shortages")

    def test_a_line_of_the_greatest_length(self):
        """It is read, in pieces too, and so is what follows."""
        with self.logged() as relay:
            long = b"n" * (LONG_LINE - 5) + b" 1 1"
            with socket.create_connection(("127.0.0.1", relay.line), LIMIT) as stream:
                for begin in range(0, len(long), 1_000):
                    stream.sendall(long[begin:begin + 1_000])
                stream.sendall(b"\nafter 1 1\n")
            self.wait_for(lambda: relay.store.lines() == [long, b"after 1 1"], "both have come")
            self.ends(relay)
            self.assertIsNone(self.last_of(relay, "line"))

    def test_a_trickle_is_idle(self):
        """What counts is a datapoint: a connection that sends a byte, a blank line or a bad one now and then is closed, one that
        sends datapoints is not, also of names that a rule drops; in the longer form all places but two are taken so."""
        count = MOST_CONNECTIONS - 2 if Settings.longer else 6
        self.needs_descriptors(2 * MOST_CONNECTIONS)
        with self.logged(("--idle", str(IDLE)), rewrite="[pre]\n^dropped$ =\n") as relay:
            steady, dropped, *trickles = (self.connected(relay) for _ in range(2 + count))
            open_ones, end = dict(zip(trickles, (b"x", b"\n", b"bad\n") * count)), time.monotonic() + LIMIT
            while open_ones and time.monotonic() < end:
                for trickle, text in open_ones.items():
                    with contextlib.suppress(ConnectionError):
                        trickle.sendall(text)
                steady.sendall(b"steady 1 1\n")
                dropped.sendall(b"dropped 1 1\n")
                time.sleep(IDLE / 5)
                open_ones = {it: text for it, text in open_ones.items() if not is_closed(it)}
            self.assertLess(time.monotonic(), end, "the trickles are closed")
            self.assertFalse(is_closed(steady) or is_closed(dropped))
            relay.lines(b"later 1 1\n")
            self.wait_for(lambda: b"later 1 1" in relay.store.lines(), "another producer has a place")
            self.ends(relay)
            self.assertIn(f"receiver line: {count} idle connections\n".encode(), relay.log.lines)

    def test_datagrams_that_are_too_long(self):
        """IPv6 has longer ones than the limit: they are dropped whole."""
        with self.logged(UDP_RECEIVER_INTERFACE="::1") as relay, socket.socket(socket.AF_INET6, socket.SOCK_DGRAM) as sender:
            last = b"\nlast 1 1700000000"
            for size, wanted in ((MOST_DATAGRAM + 1, "1 overlong datagram"), (MOST_DATAGRAM + 9, "2 overlong datagrams")):
                sender.sendto(b"\n" * (size - len(last)) + last, ("::1", relay.udp))
                self.wait_for(lambda: self.last_of(relay, "udp") == f"receiver udp: {wanted}", f"the log has {wanted}")
            sender.sendto(b"\n" * (MOST_DATAGRAM - len(last)) + last, ("::1", relay.udp))
            self.wait_for(lambda: relay.store.lines(), "one has come")
            self.ends(relay)
            self.assertEqual(relay.store.lines(), [b"last 1 1700000000"])
            self.assertEqual(self.last_of(relay, "udp"), "receiver udp: 2 overlong datagrams")

    def lost_beside_a_store_that_goes(self):
        """Which part of datagrams another store lacks that come at a steady pace once a store is away."""
        goes, beside = self.stores(2)
        dests = [f"127.0.0.1:{store.port}" for store in (goes, beside)]
        with self.relay(dests, ALL.format(", ".join(dests)), MAX_QUEUE_SIZE="100000") as relay, \
                socket.socket(socket.AF_INET, socket.SOCK_DGRAM) as sender:
            relay.datagram(b"first 1 1\n")
            self.wait_for(lambda: goes.lines() and beside.lines(), "both stores are connected")
            goes.stop()
            began = time.monotonic()
            for number in range(STEPS):
                for _ in range(STEP):
                    sender.sendto(b"d 1 1\n", ("127.0.0.1", relay.udp))
                time.sleep(max(began + (number + 1) * STEP_S - time.monotonic(), 0))
            relay.lines(b"last 1 1\n")
            self.wait_for(lambda: b"last 1 1" in beside.lines()[-1_000:], "the last line has come")
            return 1 - (len(beside.lines()) - 2) / (STEP * STEPS)

    def test_datagrams_beside_a_store_that_goes(self):
        """A receiver does not wait before each piece for a store that is away."""
        self.gets_below(0.05, self.lost_beside_a_store_that_goes)

    def test_datagrams_that_the_system_drops(self):
        """Each that was sent is either read or counted."""
        for address, family in (("127.0.0.1", socket.AF_INET), ("::1", socket.AF_INET6)):
            with self.subTest(address=address), self.logged(UDP_RECEIVER_INTERFACE=address) as relay:
                os.kill(relay.child.pid, signal.SIGSTOP)
                with socket.socket(family, socket.SOCK_DGRAM) as sender:
                    for number in range(DATAGRAMS):
                        sender.sendto(b"d%d 1 1" % number + b"\n" * BLANK, (address, relay.udp))
                os.kill(relay.child.pid, signal.SIGCONT)
                self.wait_for(lambda: self.dropped(relay) + len(relay.store.lines()) == DATAGRAMS, "all are read or counted")
                self.ends(relay)
                self.assertEqual(self.dropped(relay) + len(relay.store.lines()), DATAGRAMS)
                self.assertGreater(self.dropped(relay), 0)

    def dropped(self, relay):
        """How many datagrams the system has dropped, as the log says."""
        found = re.fullmatch(r"receiver udp: (\d+) system drops?", self.last_of(relay, "udp") or "")
        return int(found[1]) if found else 0


class Taking(Receiving):
    """Errors of taking connections and datagrams."""

    @contextlib.contextmanager
    def refused_with(self, relay, error, calls="accept4,accept"):
        """While it holds, the system refuses each try to take a connection, or what these calls do, with this error."""
        if shutil.which("strace") is None:
            self.skipTest("strace is missing")
        words = ["strace", "-f", "-p", str(relay.child.pid), "-e", f"trace={calls}", "-e", f"inject={calls}:error={error}"]
        with subprocess.Popen(words, stderr=subprocess.PIPE) as tracer:
            try:
                if not re.search(rb"attached", tracer.stderr.readline()):
                    self.skipTest("strace may not attach here")
                threading.Thread(target=tracer.stderr.read, daemon=True).start()
                yield
            finally:
                tracer.terminate()
                tracer.wait(LIMIT)

    def test_an_error_that_passes(self):
        """A receiver whose tries to take a connection are refused goes on, says so, and takes the connection later."""
        for error, number in (("EPERM", 1), ("ENOMEM", 12), ("ENFILE", 23), ("EMFILE", 24), ("ENOBUFS", 105)):
            with self.subTest(error), self.logged() as relay:
                with self.refused_with(relay, error):
                    relay.lines(b"a 1 1\n")
                    self.wait_for(lambda: relay.log.of("line", "receiver"), "it says that it pauses")
                self.wait_for(lambda: relay.store.lines() == [b"a 1 1"], "the connection is taken in the end")
                self.wait_for(lambda: b"accepting again" in relay.log.of("line", "receiver"), "it says that it goes on")
                paused, again = relay.log.of("line", "receiver")
                self.assertRegex(paused, rb"\Apaused: [a-z ]+ \(error %d\)\Z" % number)
                self.assertEqual(again, b"accepting again")
                self.ends(relay)

    def test_an_error_of_datagrams_that_passes(self):
        """A receiver of datagrams goes on after one, says so, and takes what has come meanwhile."""
        for error, number in (("ECONNABORTED", 103), ("ENOMEM", 12), ("ENETDOWN", 100)):
            with self.subTest(error), self.logged() as relay:
                with self.refused_with(relay, error, "recvfrom,recvmsg"):
                    relay.datagram(b"a 1 1\n")
                    self.wait_for(lambda: relay.log.of("udp", "receiver"), "it says that it pauses")
                self.wait_for(lambda: relay.store.lines() == [b"a 1 1"], "the datagram is taken in the end")
                self.wait_for(lambda: b"accepting again" in relay.log.of("udp", "receiver"), "it says that it goes on")
                self.assertRegex(relay.log.of("udp", "receiver")[0], rb"\Apaused: [a-z ]+ \(error %d\)\Z" % number)
                self.ends(relay)

    def test_an_error_of_datagrams_that_ends_it(self):
        """A receiver of datagrams whose socket is none any more receives nothing more."""
        with self.logged() as relay:
            with self.refused_with(relay, "ENOTSOCK", "recvfrom,recvmsg"):
                relay.datagram(b"a 1 1\n")
                self.wait_for(lambda: relay.log.of("udp", "receiver"), "it says that it has failed")
            self.assertRegex(relay.log.of("udp", "receiver")[0], rb"\Afailed: [a-z -]+ \(error 88\)\Z")
            self.assertEqual(relay.command(b"stop"), b"stopping\n")
            self.assertEqual(relay.child.wait(LIMIT), 3)

    def test_an_error_that_ends_it(self):
        """A receiver whose listener is none any more receives nothing more: status and log say so, and the others go on.
        The run ends with its fault."""
        port, = free_ports(1)
        with self.logged(options=("--status", str(port))) as relay:
            with self.refused_with(relay, "ENOTSOCK"):
                with contextlib.suppress(ConnectionError):
                    self.connected(relay)
                self.wait_for(lambda: relay.log.of("line", "receiver"), "it says that it has failed")
            self.assertEqual(len(relay.log.of("line", "receiver")), 1)
            self.assertRegex(relay.log.of("line", "receiver")[0], rb"\Afailed: [a-z -]+ \(error 88\)\Z")
            states = {it["receiver"]: it["state"] for it in shown(port)["receivers"]}
            self.assertEqual(states, {"line": "failed", "pickle": "open", "udp": "open"})
            relay.datagram(b"a 1 1\n")
            self.wait_for(lambda: relay.store.lines() == [b"a 1 1"], "datagrams are still received")
            self.assertEqual(relay.command(b"stop"), b"stopping\n")
            self.assertEqual(relay.child.wait(LIMIT), 3)


class Noting(Receiving):
    """How often receivers say what they have counted."""

    def test_four_times_a_second(self):
        """While the number of datapoints grows, it is another at least four times a second."""
        status, = free_ports(1)
        with self.logged(("--status", str(status))) as relay, self.connected(relay) as stream:
            self.gets_below(1 / 4, lambda: self.time_of_a_number(stream, status))
            self.ends(relay)

    def time_of_a_number(self, stream, status):
        """For how many seconds a number of datapoints is shown, on average, while some are sent."""
        seen, began = set(), time.monotonic()
        while time.monotonic() < began + NOTING:
            stream.sendall(b"a 1 1\n")
            seen.add(self.datapoints(status))
            time.sleep(0.02)
        return (time.monotonic() - began) / len(seen)

    def datapoints(self, port):
        """How many datapoints the receiver of lines has, as the metrics say, 0 where the machine is too slow for an answer."""
        with socket.create_connection(("127.0.0.1", port), LIMIT) as stream:
            stream.sendall(b"GET /metrics HTTP/1.1\r\nHost: localhost\r\nConnection: close\r\n\r\n")
            text = b""
            with contextlib.suppress(ConnectionError):
                while more := stream.recv(65536):
                    text += more
        found = re.search(rb'relayd_receiver_datapoints_total\{receiver="line"\} (\d+)', text)
        return int(found[1]) if found else 0
