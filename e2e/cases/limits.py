"""`relayd run` where the system gives less than it asks for: descriptors, connections, and the addresses of hosts."""

import contextlib
import resource
import select
import socket
import struct
import subprocess
import threading
import time
import unittest

from fixtures.harness import LIMIT
from fixtures.log import Log
from fixtures.mounts import in_place
from fixtures.running import WithRelays
from fixtures.stores import free_ports

ONE_RULE = "[all]\ndefault = true\ndestinations = {}\n"
MOST_CONNECTIONS = 1_024     # of a receiver
DESCRIPTORS = 64             # of a relay that needs more
KEPT = 4                     # of them, which are neither for producers nor for stores
PRODUCERS = 150              # more than that
GIVES_WAY = 61               # seconds; who sent no datapoint for a minute gives way
HONEST = 16
MOST_DESTINATIONS = 64
TRIES = 4                    # to connect to each of them
SLOW = 0.1                   # seconds that the slow one takes once it answers
NAME_SERVER = "127.0.53.53"  # an address of loopback at which no name server is


def answered(asked):
    """The answer of a name server to what it was asked: 127.0.0.1, if that is an address of this kind."""
    end = asked.index(b"\0", 12) + 5
    question, kind = asked[12:end], asked[end - 4:end - 2]
    record = b"\xc0\x0c\0\x01\0\x01" + struct.pack("!LH", 0, 4) + socket.inet_aton("127.0.0.1")
    count, records = (1, record) if kind == b"\0\x01" else (0, b"")
    return asked[:2] + b"\x81\x80" + struct.pack("!4H", 1, count, 0, 0) + question + records


def named(*ports):
    """Destinations at these ports."""
    return [f"127.0.0.1:{port}" for port in ports]


def has_come(sock):
    """Whether a socket received something. It may have any number."""
    looks = select.poll()
    looks.register(sock, select.POLLIN)
    return bool(looks.poll(0))


def is_over(stream):
    """Whether the other side has closed a connection."""
    if not has_come(stream):
        return False
    try:
        return stream.recv(1) == b""
    except ConnectionError:
        return True


class Descriptors(WithRelays):
    """A relay that has few descriptors, and one that loses its connections."""

    def producers(self, relay, count):
        """This many connections, which are closed when the case ends."""
        streams = [socket.create_connection(("127.0.0.1", relay.line), LIMIT) for _ in range(count)]
        for stream in streams:
            self.addCleanup(stream.close)
        return streams

    def test_connections_wait_for_descriptors(self):
        """Those for which there is none wait, and are taken as others go: nobody who connected is dropped."""
        store, = self.stores(1)
        dests = named(store.port)

        def few():
            resource.setrlimit(resource.RLIMIT_NOFILE, (DESCRIPTORS, DESCRIPTORS))

        with self.relay(dests, ONE_RULE.format(*dests), before=few) as relay:
            relay.lines(b"first 1 1\n")
            self.wait_for(lambda: store.lines() == [b"first 1 1"], "the store is connected")
            streams = self.producers(relay, PRODUCERS)
            lines = [b"n%d 1 1" % number for number in range(PRODUCERS)]
            for stream, line in zip(streams, lines):
                stream.sendall(line + b"\n")
            self.wait_for(lambda: relay.descriptors() >= DESCRIPTORS - KEPT, "producers have all that they get")
            self.assertLess(len(store.lines()), DESCRIPTORS)
            self.assertFalse(any(map(is_over, streams)))
            for stream in streams:
                stream.close()
            self.wait_for(lambda: len(store.lines()) > PRODUCERS, "all lines have come")
            self.assertEqual(sorted(store.lines()), sorted([b"first 1 1", *lines]))
            self.settles(relay)

    def test_one_connection_too_many(self):
        """It alone is dropped. The others go on, and once one has gone there is room for another."""
        self.needs_descriptors(3 * MOST_CONNECTIONS)
        store, = self.stores(1)
        dests = named(store.port)
        with self.relay(dests, ONE_RULE.format(*dests)) as relay:
            streams = self.producers(relay, MOST_CONNECTIONS)
            for stream in streams:
                stream.sendall(b"a 1 1\n")
            self.wait_for(lambda: len(store.lines()) == MOST_CONNECTIONS, "all are read")
            one_more, = self.producers(relay, 1)
            self.wait_for(lambda: is_over(one_more), "one connection more is dropped")
            for stream in streams:
                stream.sendall(b"b 2 2\n")
            self.wait_for(lambda: len(store.lines()) == 2 * MOST_CONNECTIONS, "the others are read")
            self.assertFalse(any(map(is_over, streams)))
            streams[7].close()
            self.wait_for(lambda: self.is_taken(relay, store), "another has its place")
            self.settles(relay)

    def test_a_silent_one_gives_way(self):
        """While all places are taken, the connection that has been without a datapoint longest gives way to a new one after a
        minute, also if it sends blank and bad lines; those that send datapoints go on."""
        self.needs_descriptors(3 * MOST_CONNECTIONS)
        store, = self.stores(1)
        dests = named(store.port)
        with self.relay(dests, ONE_RULE.format(*dests)) as relay:
            steady, *silent = self.producers(relay, MOST_CONNECTIONS)
            silent[0].sendall(b"first 1 1\n")
            self.wait_for(lambda: store.lines() == [b"first 1 1"], "all are taken")
            early, = self.producers(relay, 1)
            self.wait_for(lambda: is_over(early), "nobody gives way yet")
            end = time.monotonic() + GIVES_WAY
            while time.monotonic() < end:
                steady.sendall(b"steady 1 1\n")
                for stream in silent[1:3]:
                    stream.sendall(b"\nbad\n")
                time.sleep(1)
            honest = self.producers(relay, HONEST)
            for number, stream in enumerate(honest):
                stream.sendall(b"honest%d 1 1\n" % number)
            lines = {b"honest%d 1 1" % number for number in range(HONEST)}
            self.wait_for(lambda: lines <= set(store.lines()), "all of them are read")
            self.assertEqual(sum(map(is_over, silent)), HONEST)
            self.assertFalse(is_over(steady) or any(map(is_over, honest)))
            self.settles(relay)

    def is_taken(self, relay, store):
        """Whether a connection is read, and not dropped."""
        before = store.lines().count(b"c 3 3")
        with socket.create_connection(("127.0.0.1", relay.line), LIMIT) as stream:
            with contextlib.suppress(ConnectionError):
                stream.sendall(b"c 3 3\n")
            self.wait_for(lambda: is_over(stream) or store.lines().count(b"c 3 3") > before, "it is read or dropped")
        return store.lines().count(b"c 3 3") > before

    def test_failed_tries_leave_nothing(self):
        """Where nobody listens, and where each connection is lost at once, no try leaves a descriptor behind."""
        store, *_ = self.stores(1)
        dests = named(store.port, *free_ports(MOST_DESTINATIONS - 1))
        with self.relay(dests, ONE_RULE.format(", ".join(dests))) as relay:
            before = relay.descriptors()

            def is_lost():
                store.hang_up()
                return store.connections() >= TRIES
            self.wait_for(is_lost, "each destination was tried some times")
            # A try of each destination may be under way.
            self.assertLess(relay.descriptors(), before + MOST_DESTINATIONS + TRIES)
            self.settles(relay)


class HostNames(WithRelays):
    """Hosts whose names are looked up."""

    def test_a_lookup_that_hangs(self):
        """It changes nothing for another destination, nor for the end of the run."""
        server = self.name_server()
        store, = self.stores(1)
        hanging = "never-answered.example:2003"
        dests = [hanging, *named(store.port)]
        lines = [b"a %d 1" % number for number in range(50)]
        with self.relay_with_names(dests) as relay:
            self.wait_for(lambda: has_come(server), "the name server is asked")
            relay.lines(b"".join(line + b"\n" for line in lines))
            self.wait_for(lambda: store.lines() == lines, "the other store has all")
            wanted = [(hanging, len(lines)), (dests[1], 0)]
            self.wait_for(lambda: [(name, counts["queued"]) for name, counts in relay.report()] == wanted, "the others wait")
            self.settles(relay)

    def test_a_slow_lookup_is_logged(self):
        """Once after a second, and again when it has ended."""
        server = self.name_server()
        store, = self.stores(1)
        dest = f"slow.example:{store.port}"

        def answer():
            with contextlib.suppress(OSError):
                while True:
                    asked, peer = server.recvfrom(512)
                    time.sleep(SLOW)
                    server.sendto(answered(asked), peer)

        with self.relay_with_names([dest], "--log") as relay:
            log = Log(relay.child.stderr)
            self.wait_for(lambda: has_come(server), "the name server is asked")
            self.wait_for(lambda: b"still looking up its host after a second" in log.of(dest), "the log reports it")
            threading.Thread(target=answer, daemon=True).start()
            self.wait_for(lambda: b"looked up its host" in log.of(dest), "the log reports the end")
            relay.lines(b"a 1 1\n")
            self.wait_for(lambda: store.lines() == [b"a 1 1"], "the store is found")
            self.settles(relay)

    def name_server(self):
        """A name server that is asked and never answers."""
        server = socket.socket(socket.AF_INET, socket.SOCK_DGRAM)
        self.addCleanup(server.close)
        try:
            server.bind((NAME_SERVER, 53))
        except OSError as fault:
            raise unittest.SkipTest(f"no name server can listen at {NAME_SERVER}: {fault}") from fault
        return server

    @contextlib.contextmanager
    def relay_with_names(self, dests, *options):
        """A relay with one sender, which asks that server alone for the addresses of hosts."""
        path = self.folder / "resolv.conf"
        path.write_text(f"nameserver {NAME_SERVER}\noptions timeout:30 attempts:5\n")
        ask_there = in_place(path, "/etc/resolv.conf")
        with contextlib.ExitStack() as held:
            try:
                rules = ONE_RULE.format(", ".join(dests))
                relay = held.enter_context(self.relay(dests, rules, senders=1, before=ask_there, options=options))
            except subprocess.SubprocessError as fault:
                raise unittest.SkipTest("this system lets no process have a resolv.conf of its own") from fault
            yield relay
