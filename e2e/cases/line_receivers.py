"""`relayd run --line-receivers N`: threads that share the port of lines."""

import contextlib
import functools
import os
import re
import socket
import threading
import time

from fixtures.harness import LIMIT
from fixtures.log import Log
from fixtures.running import WithRelays

ALL = "[all]\ndefault = true\ndestinations = {}\n"
PRODUCERS = 8
ESTABLISHED = "01"
EACH = 2_000
TRIES = 40
FULL = 1_024
CLOSING = 0.5  # seconds that it takes at most to close the receivers
RECONNECTS = 60


def peers(pid, port):
    """The ports of the peers of a process's connections to a port, by the sockets of the connections."""
    with open(f"/proc/{pid}/net/tcp", encoding="ascii") as file:
        rows = [line.split() for line in file.read().splitlines()[1:]]
    return {f"socket:[{row[9]}]": int(row[2].split(":")[1], 16)
            for row in rows if int(row[1].split(":")[1], 16) == port and row[3] == ESTABLISHED}


def watchers(pid, port):
    """For each waiting thread of a process the ports of the peers whose connections to a port it watches."""
    peer_of = peers(pid, port)
    held, found = {}, []
    folder = f"/proc/{pid}/fd"
    for number in os.listdir(folder):
        with contextlib.suppress(OSError):
            held[number] = os.readlink(f"{folder}/{number}")
    for number, what in held.items():
        if what == "anon_inode:[eventpoll]":
            with open(f"/proc/{pid}/fdinfo/{number}", encoding="ascii") as file:
                targets = re.findall(r"tfd: +(\d+)", file.read())
            found.append({peer_of[held[target]] for target in targets if held.get(target) in peer_of})
    return found


def watched(pid, port):
    """How many connections to a port each waiting thread of a process watches, if it watches any."""
    return sorted(len(ports) for ports in watchers(pid, port) if ports)


def peers_of_one(pid, port):
    """The ports of the peers of one of the threads that watch connections to a port: of the one that has most."""
    return max(watchers(pid, port), key=len)


def is_spread(receivers, taken):
    """Whether each of the receivers has some of the connections, and none has most."""
    return len(taken) == receivers and max(taken) <= PRODUCERS - receivers


class LineReceivers(WithRelays):
    """Several receivers of lines."""

    def test_threads(self):
        """One keeps the name that it always had; several are numbered from 0."""
        store, = self.stores(1)
        for options, names in (((), {"line"}), (("--line-receivers", "1"), {"line"}),
                               (("--line-receivers", "3"), {"line 0", "line 1", "line 2"}),
                               (("--line-receivers", "6"), {f"line {number}" for number in range(6)})):
            dests = [f"127.0.0.1:{store.port}"]
            with self.relay(dests, ALL.format(*dests), options=options) as relay:
                found = {name for name in relay.thread_names() if name.startswith("line")}
                self.assertEqual(found, names)
                self.settles(relay)

    def test_producers_that_come_at_once_are_spread(self):
        """Each receiver has some of eight connections, and none has most; on an idle machine each has the same number.

        A receiver waits for the others for two milliseconds, in which a busy machine may not run them all. So one try
        of some must be spread; receivers that do not wait take all connections at once.
        """
        store, = self.stores(1)
        dests = [f"127.0.0.1:{store.port}"]
        for receivers in (2, 4):
            tries = []
            while not any(map(functools.partial(is_spread, receivers), tries)):
                self.assertLess(len(tries), TRIES, tries)
                tries.append(self.shares(dests, receivers))

    def shares(self, dests, receivers):
        """How many of eight connections that come at once each of these receivers takes, if it takes any."""
        with self.relay(dests, ALL.format(*dests), options=("--line-receivers", str(receivers))) as relay:
            with contextlib.ExitStack() as stack:
                for _ in range(PRODUCERS):
                    stack.enter_context(socket.create_connection(("127.0.0.1", relay.line), LIMIT))
                self.wait_for(lambda: sum(watched(relay.child.pid, relay.line)) == PRODUCERS, "all are taken")
                taken = watched(relay.child.pid, relay.line)
            self.settles(relay)
            return taken

    @contextlib.contextmanager
    def both_full(self):
        """A relay with a store and two receivers, both full, and the producers' ends of all connections."""
        self.needs_descriptors(3 * 2 * FULL)
        store, = self.stores(1)
        dests = [f"127.0.0.1:{store.port}"]
        with self.relay(dests, ALL.format(*dests), options=("--line-receivers", "2")) as relay, \
                contextlib.ExitStack() as stack:
            streams = []
            for _ in range(2 * FULL):
                streams.append(stack.enter_context(socket.create_connection(("127.0.0.1", relay.line), LIMIT)))
                time.sleep(0.002)
            self.wait_for(lambda: watched(relay.child.pid, relay.line) == [FULL, FULL], "all are taken")
            yield relay, store, streams

    def test_a_full_receiver_leaves_connections_to_another(self):
        """Connections that come one by one are refused only when all receivers are full."""
        with self.both_full() as (relay, store, streams), contextlib.ExitStack() as stack:
            more = stack.enter_context(socket.create_connection(("127.0.0.1", relay.line), LIMIT))
            self.assertEqual(more.recv(1), b"", "one more is refused")
            for stream in streams:
                stream.sendall(b"a 1 1\n")
            self.wait_for(lambda: len(store.lines()) == len(streams), "all are read")
            # The log's line says when one has room again; until then one that is full takes none.
            for stream in streams[::4]:
                stream.close()
            left = len(streams) - len(streams[::4])
            self.wait_for(lambda: sum(watched(relay.child.pid, relay.line)) == left, "there are places again")
            again = [stack.enter_context(socket.create_connection(("127.0.0.1", relay.line), LIMIT)) for _ in streams[::4]]
            for stream in again:
                stream.sendall(b"b 2 2\n")
            self.wait_for(lambda: store.lines().count(b"b 2 2") == len(again), "others have their places")

    def test_a_stop_while_one_of_two_is_full(self):
        """It shuts its port too, although it leaves connections to the other one: the stop takes no longer for that."""
        self.gets_below(CLOSING, self.stops_while_one_is_full)

    def stops_while_one_is_full(self):
        """How long a stop takes while one of two receivers is full, and the other one holds nothing."""
        with self.both_full() as (relay, _, streams):
            leaving = peers_of_one(relay.child.pid, relay.line)
            for stream in streams:
                if stream.getsockname()[1] in leaving:
                    stream.close()
            self.wait_for(lambda: watched(relay.child.pid, relay.line) == [FULL], "those of one have left")
            began = time.monotonic()
            self.settles(relay)
            return time.monotonic() - began

    def test_producers_that_reconnect_stay_spread(self):
        """Receivers share by the connections that they hold, and not by those that they ever took: where all of one receiver
        leave, it takes most of those that come then, unless a busy machine does not run it in time. So one try must be so."""
        tries = []
        while not any(len(held) == 2 and held[1] - held[0] <= RECONNECTS // 5 for held in tries):
            self.assertLess(len(tries), TRIES, tries)
            tries.append(self.shares_of_reconnected())

    def shares_of_reconnected(self):
        """How many connections each of two receivers holds after all of one have left and as many have come."""
        store, = self.stores(1)
        dests = [f"127.0.0.1:{store.port}"]
        with self.relay(dests, ALL.format(*dests), options=("--line-receivers", "2")) as relay, \
                contextlib.ExitStack() as stack:
            def more(count):
                streams = []
                for _ in range(count):
                    streams.append(stack.enter_context(socket.create_connection(("127.0.0.1", relay.line), LIMIT)))
                    time.sleep(0.005)
                return streams

            streams = more(RECONNECTS)
            self.wait_for(lambda: sum(watched(relay.child.pid, relay.line)) == len(streams), "all are held")
            leaving = peers_of_one(relay.child.pid, relay.line)
            for stream in streams:
                if stream.getsockname()[1] in leaving:
                    stream.close()
            left = len(streams) - len(leaving)
            self.wait_for(lambda: sum(watched(relay.child.pid, relay.line)) == left, "those of one have left")
            more(len(leaving))
            self.wait_for(lambda: sum(watched(relay.child.pid, relay.line)) == len(streams), "the others are held")
            held = watched(relay.child.pid, relay.line)
            self.settles(relay)
            return held

    def test_each_datapoint_once_and_in_order(self):
        """Eight producers over three receivers, beside pickles and datagrams: nothing is lost or twice, and each
        producer's lines keep their order."""
        store, = self.stores(1)
        dests = [f"127.0.0.1:{store.port}"]
        sent = {b"p%d" % number: [b"p%d %d %d" % (number, value, 1_700_000_000 + value) for value in range(EACH)]
                for number in range(PRODUCERS)}
        options = ("--line-receivers", "3")
        with self.relay(dests, ALL.format(*dests), senders=2, options=options, MAX_QUEUE_SIZE="100000") as relay:
            threads = [threading.Thread(target=relay.lines, args=(b"".join(line + b"\n" for line in lines),))
                       for lines in sent.values()]
            for thread in threads:
                thread.start()
            relay.datagram(b"u 1 1700000000")
            for thread in threads:
                thread.join()
            self.wait_for(lambda: len(store.lines()) == PRODUCERS * EACH + 1, "all lines have come")
            lines = store.lines()
            for name, wanted in sent.items():
                self.assertEqual([line for line in lines if line.startswith(name + b" ")], wanted)
            self.assertIn(b"u 1 1700000000", lines)
            self.settles(relay)

    def test_a_thousand_short_connections(self):
        """None is left behind, however the receivers leave them to each other."""
        store, = self.stores(1)
        dests = [f"127.0.0.1:{store.port}"]
        options = ("--line-receivers", "4")
        with self.relay(dests, ALL.format(*dests), options=options) as relay:
            for number in range(1_000):
                relay.lines(b"n%d 1 1\n" % number)
            self.wait_for(lambda: len(store.lines()) == 1_000, "all lines have come")
            self.settles(relay)

    def test_the_log_has_their_names(self):
        """What was bad is said of the receiver that read it, by its number, and once more at the end."""
        store, = self.stores(1)
        dests = [f"127.0.0.1:{store.port}"]
        options = ("--line-receivers", "2", "--log")
        with self.relay(dests, ALL.format(*dests), options=options) as relay:
            log = Log(relay.child.stderr)
            with socket.create_connection(("127.0.0.1", relay.line), LIMIT) as stream:
                stream.sendall(b"bad\nworse\na 1 1\n")
                bad = re.compile(rb"receiver line [01]: 2 bad lines\n")
                self.wait_for(lambda: any(map(bad.fullmatch, log.lines)), f"it is said: {log.lines}")
            self.assertEqual(relay.command(b"stop"), b"stopping\n")
            self.assertEqual(relay.child.wait(LIMIT), 0)
            log.thread.join(LIMIT)
            self.assertEqual(len(list(filter(bad.fullmatch, log.lines))), 2, log.lines)
