"""Hosts that are gone without a word, in networks of their own: their connections are noticed as lost, and made again at once."""

import contextlib
import shutil
import socket
import sys
import threading
import time

from fixtures.harness import LIMIT
from fixtures.log import Log
from fixtures.networks import Neighbour, in_own_network
from fixtures.running import WithRelays

RULES = """[busy]
pattern = ^busy
destinations = {}
[idle]
default = true
destinations = {}
"""
FIRST_PORT, LAST_PORT = 40_000, 40_999
BUSY, IDLE = 2003, 2004       # ports of stores
NOTICED = 25                  # seconds
CONNECTED = 2
LONGEST_WAIT = socket.IPPROTO_TCP, 44, 1_500  # TCP_RTO_MAX_MS
KEEPALIVE = "02"              # the timer of a connection, in the system's table
SILENCE = 60                  # seconds before a producer is probed
# A store, which writes what it gets to its standard output.
STORE = """import socket, sys, threading
def read(stream):
    for line in stream.makefile("rb"):
        sys.stdout.buffer.write(line)
        sys.stdout.buffer.flush()
with socket.create_server(("0.0.0.0", int(sys.argv[1]))) as port:
    while True:
        threading.Thread(target=read, args=(port.accept()[0],), daemon=True).start()
"""


def has_longest_wait():
    """Whether the system can bound how long it waits to send something again."""
    with socket.socket() as stream, contextlib.suppress(OSError):
        stream.setsockopt(*LONGEST_WAIT)
        return True
    return False


class Stores(WithRelays):
    """A relay and two stores on another machine, one of which gets lines all the time, and one none."""

    def setUp(self):
        super().setUp()
        if not all(map(shutil.which, ("ip", "nsenter", "unshare"))):
            self.skipTest("iproute2 or util-linux is missing")
        if not has_longest_wait():
            self.skipTest("this system does not bound how long it waits to send something again")

    def test_a_host_that_is_gone(self):
        """Both connections are noticed as lost, and made again once the host is back."""
        in_own_network(self.loses_a_host, FIRST_PORT, LAST_PORT)

    def loses_a_host(self):
        """The case."""
        dests = [f"{Neighbour.THERE}:{port}" for port in (BUSY, IDLE)]
        with Neighbour() as other, other.runs(sys.executable, "-c", STORE, str(BUSY)) as busy, \
                other.runs(sys.executable, "-c", STORE, str(IDLE)), self.sends_to(dests) as relay:
            got = []
            threading.Thread(target=lambda: got.extend(iter(busy.stdout.readline, b"")), daemon=True).start()
            self.wait_for(lambda: b"busy 1 1\n" in got, "lines come")
            self.wait_for(lambda: relay.log.of(dests[1])[-1:] == [b"connected"], "the other store is connected")
            time.sleep(1)
            other.leave()
            began = time.monotonic()
            for dest in dests:
                self.wait_for(lambda name=dest: relay.log.of(name)[-1] != b"connected", f"{dest} is noticed as lost")
                self.assertLess(time.monotonic() - began, NOTICED)
                self.assertIn(b"lost: connection timed out (error 110)", relay.log.of(dest))
            other.come_back()
            began = time.monotonic()
            for dest in dests:
                self.wait_for(lambda name=dest: relay.log.of(name)[-1] == b"connected", f"{dest} is connected again")
            # The log is written once a second.
            self.assertLess(time.monotonic() - began, CONNECTED + 1)
            count = len(got)
            self.wait_for(lambda: len(got) > count, "lines come again")
            self.settles(relay)

    @contextlib.contextmanager
    def sends_to(self, dests):
        """A relay with a log that is sent a line for the first store ten times a second."""
        with self.relay(dests, RULES.format(*dests), options=("--log",)) as relay:
            relay.log, is_over = Log(relay.child.stderr), threading.Event()

            def send():
                with socket.create_connection(("127.0.0.1", relay.line), LIMIT) as stream:
                    while not is_over.wait(0.1):
                        stream.sendall(b"busy 1 1\n")

            thread = threading.Thread(target=send)
            thread.start()
            try:
                yield relay
            finally:
                is_over.set()
                thread.join()


class Producers(WithRelays):
    """Connections of producers."""

    def test_silent_producers_are_probed(self):
        """The system probes each after a minute of silence."""
        store, = self.stores(1)
        dest = f"127.0.0.1:{store.port}"
        with self.relay([dest], f"[all]\ndefault = true\ndestinations = {dest}\n") as relay:
            for port in (relay.line, relay.pickle):
                with socket.create_connection(("127.0.0.1", port), LIMIT) as stream:
                    self.wait_for(lambda: self.timer_of(relay, port, stream) is not None, "the connection is there")
                    kind, seconds = self.timer_of(relay, port, stream)
                    self.assertEqual(kind, KEEPALIVE)
                    self.assertTrue(SILENCE - 10 < seconds <= SILENCE, seconds)
            self.settles(relay)

    def timer_of(self, relay, port, stream):
        """The kind of the timer of a relay's connection, and in how many seconds it ends, if there is the connection."""
        ends = [f"0100007F:{it:04X}" for it in (port, stream.getsockname()[1])]
        with open(f"/proc/{relay.child.pid}/net/tcp", encoding="ascii") as table:
            for row in table:
                fields = row.split()
                if fields[1:3] == ends:
                    kind, ticks = fields[5].split(":")
                    return kind, int(ticks, 16) / 100
        return None
