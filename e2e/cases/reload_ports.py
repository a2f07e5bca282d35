"""`relayd reload` with other ports: the new ones are bound first, and those that go half-close as at a stop."""

import contextlib
import os
import pickle
import resource
import socket
import threading
import time

from fixtures import sockets
from fixtures.harness import LIMIT, Ran
from fixtures.reloading import RELOADED, Reloads, numbered, text_of
from fixtures.running import frame, shown
from fixtures.stores import free_ports

UNSHARED, SHARED = 1_100, 200  # descriptors: enough for all connections of one receiver, and not
PRODUCERS = 600
TURNS = 12
EACH = 2_000  # lines of a producer in a turn


def refuses(port, kind=socket.SOCK_STREAM):
    """Whether nobody listens at a port."""
    with socket.socket(socket.AF_INET, kind) as asking:
        asking.settimeout(LIMIT)
        try:
            asking.connect(("127.0.0.1", port))
            if kind == socket.SOCK_DGRAM:
                asking.send(b"x.1 1 1700000000\n")
                asking.send(b"x.1 1 1700000000\n")
        except ConnectionRefusedError:
            return True
        return False


class Ports(Reloads):
    """A relay whose ports of receivers change while it runs."""

    def moves(self, relay, dests, place=None, said=None, **changed):
        """A reload gives the receivers of a place (0 lines, 1 pickles, 2 datagrams) another port, or changes these settings. Returns
        the port before."""
        before = relay.listening
        if place is not None:
            ports = list(before)
            ports[place] = free_ports(1)[0]
            relay.listening = tuple(ports)
            relay.line, relay.pickle, relay.udp = ports
        ran = self.reload(relay, *self.files(relay, dests, **changed))
        self.assertEqual(ran, RELOADED)
        if said is not None:
            self.assertEqual(ran.out, b"reloaded: %s same rules and rewriting\n" % said)
        return before[place] if place is not None else None

    def has(self, store, lines):
        """The store has these lines, in any order."""
        self.wait_for(lambda: len(store.lines()) >= len(lines), "all lines have come")
        self.assertEqual(sorted(store.lines()), sorted(lines))

    def test_the_port_of_lines(self):
        """It moves. The relay half-closes the connections at the old port, reads what they have sent, and refuses there."""
        for options in ((), ("--line-receivers", "3", "--senders", "2")):
            store, = self.stores(1)
            dests = [f"127.0.0.1:{store.port}"]
            with self.subTest(options), self.running(dests, options=options) as relay, contextlib.ExitStack() as at_end:
                old = [at_end.enter_context(socket.create_connection(("127.0.0.1", relay.line), LIMIT)) for _ in range(5)]
                lines = numbered(5_000)
                for number, producer in enumerate(old):
                    producer.sendall(text_of(lines[number::5]))
                port = self.moves(relay, dests, 0, b"line port changed,")
                self.assertTrue(refuses(port))
                for producer in old:
                    producer.settimeout(LIMIT)
                    self.assertEqual(producer.recv(1), b"", "it is half-closed")
                more = numbered(5, b"new")
                relay.lines(text_of(more))
                self.has(store, lines + more)
                self.assertEqual(store.connections(), 1)
                self.stops(relay)

    def test_other_receivers_keep_their_connections(self):
        """A port that comes or goes beside them changes no other receiver: a line and a frame that are cut go on."""
        whole = frame(pickle.dumps([("p.%d" % number, (1700000000, number)) for number in range(200)], 2))
        for options in ((), ("--line-receivers", "2")):
            store, = self.stores(1)
            dests = [f"127.0.0.1:{store.port}"]
            with self.subTest(options), self.running(dests, options=options) as relay, \
                    socket.create_connection(("127.0.0.1", relay.line), LIMIT) as line, \
                    socket.create_connection(("127.0.0.1", relay.pickle), LIMIT) as pickles:
                line.sendall(b"a.1 1 17")
                pickles.sendall(whole[:100])
                self.wait_for(lambda: sockets.under_way(relay.line) + sockets.under_way(relay.pickle) == 0, "it is read")
                self.moves(relay, dests, 2, b"udp port changed,")
                line.sendall(b"00000000\na.2 2 17")
                pickles.sendall(whole[100:])
                self.wait_for(lambda: len(store.lines()) == 201, "what was cut has come")
                self.moves(relay, dests, said=b"udp port changed,", ENABLE_UDP_LISTENER="False")
                pickled = relay.pickle
                self.moves(relay, dests, said=b"pickle port changed,", ENABLE_UDP_LISTENER="False", PICKLE_RECEIVER_PORT="0")
                self.assertTrue(refuses(pickled))
                self.assertEqual(pickles.recv(1), b"", "it is half-closed")
                line.sendall(b"00000000\na.3 3 17")
                self.wait_for(lambda: len(store.lines()) == 202, "what was cut has come")
                self.moves(relay, dests, said=b"pickle port changed, udp port changed,")
                line.sendall(b"00000000\n")
                relay.pickles(pickle.dumps([("q.1", (1700000000, 1))], 2))
                relay.datagram(b"u.1 1 1700000000\n")
                self.wait_for(lambda: len(store.lines()) == 205, "all have come")
                self.assertEqual(sorted(line for line in store.lines() if not line.startswith(b"p.")),
                                 [b"a.1 1 1700000000", b"a.2 2 1700000000", b"a.3 3 1700000000", b"q.1 1 1700000000",
                                  b"u.1 1 1700000000"])
                self.assertEqual(store.connections(), 1)
                self.stops(relay)

    def test_no_port_of_lines(self):
        """The least receiver of all may go, and come back; the others keep what they hold."""
        store, = self.stores(1)
        dests = [f"127.0.0.1:{store.port}"]
        with self.running(dests) as relay, socket.create_connection(("127.0.0.1", relay.pickle), LIMIT) as pickles:
            whole = frame(pickle.dumps([("p.1", (1700000000, 1))], 2))
            pickles.sendall(whole[:9])
            self.wait_for(lambda: sockets.under_way(relay.pickle) == 0, "it is read")
            self.moves(relay, dests, said=b"line port changed,", LINE_RECEIVER_PORT="0")
            self.assertTrue(refuses(relay.line))
            pickles.sendall(whole[9:])
            relay.datagram(b"u.1 1 1700000000\n")
            self.has(store, [b"p.1 1 1700000000", b"u.1 1 1700000000"])
            self.moves(relay, dests, said=b"line port changed, pickle port changed, udp port changed,",
                       PICKLE_RECEIVER_PORT="0", ENABLE_UDP_LISTENER="False")
            self.assertEqual(pickles.recv(1), b"", "it is half-closed")
            relay.lines(b"a.1 1 1700000000\n")
            self.moves(relay, dests, said=b"line port changed,", LINE_RECEIVER_PORT="0", PICKLE_RECEIVER_PORT="0",
                       ENABLE_UDP_LISTENER="False")
            self.assertTrue(refuses(relay.line))
            self.moves(relay, dests)
            relay.lines(b"a.2 1 1700000000\n")
            self.has(store, [b"p.1 1 1700000000", b"u.1 1 1700000000", b"a.1 1 1700000000", b"a.2 1 1700000000"])
            self.stops(relay)

    def test_datagrams_that_wait(self):
        """What came to a port that goes is read; then nobody listens there."""
        store, = self.stores(1)
        dests = [f"127.0.0.1:{store.port}"]
        with self.running(dests) as relay:
            lines = numbered(200, b"u")
            for line in lines:
                relay.datagram(line + b"\n")
            port = self.moves(relay, dests, 2, b"udp port changed,")
            self.assertTrue(refuses(port, socket.SOCK_DGRAM))
            relay.datagram(b"v.1 1 1700000000\n")
            self.has(store, lines + [b"v.1 1 1700000000"])
            self.stops(relay)

    def test_another_interface(self):
        """The same port at another interface is another port; an interface without a port is none."""
        store, = self.stores(1)
        dests = [f"127.0.0.1:{store.port}"]
        with self.running(dests) as relay:
            self.moves(relay, dests, said=b"line port changed,", LINE_RECEIVER_INTERFACE="127.0.0.2")
            self.assertTrue(refuses(relay.line))
            with socket.create_connection(("127.0.0.2", relay.line), LIMIT) as producer:
                producer.sendall(b"a.1 1 1700000000\n")
            self.has(store, [b"a.1 1 1700000000"])
            self.moves(relay, dests, said=b"udp port changed,", LINE_RECEIVER_INTERFACE="127.0.0.2", ENABLE_UDP_LISTENER="False")
            ran = self.reload(relay, *self.files(relay, dests, LINE_RECEIVER_INTERFACE="127.0.0.2",
                                                 ENABLE_UDP_LISTENER="False", UDP_RECEIVER_INTERFACE="127.0.0.3"))
            self.assertEqual(ran, Ran(0, b"reloaded: same rules and rewriting\n", b""))
            self.stops(relay)

    def test_refusals(self):
        """A port that cannot be bound is named as at a start. Nothing changes: no port, no connection, no destination."""
        store, = self.stores(1)
        dests = [f"127.0.0.1:{store.port}"]
        with self.running(dests) as relay, socket.create_connection(("127.0.0.1", relay.line), LIMIT) as producer, \
                socket.create_server(("127.0.0.1", free_ports(1)[0])) as other, \
                socket.socket(socket.AF_INET, socket.SOCK_DGRAM) as datagrams:
            datagrams.bind(("127.0.0.1", free_ports(1)[0]))
            taken, wanted = other.getsockname()[1], free_ports(1)[0]
            producer.sendall(b"a 1 1700000000\n")
            self.wait_for(lambda: len(store.lines()) == 1, "both connections are there")
            descriptors = relay.descriptors()
            cases = (
                ("line", {"LINE_RECEIVER_PORT": taken}),
                ("pickle", {"LINE_RECEIVER_PORT": wanted, "PICKLE_RECEIVER_PORT": taken}),
                ("udp", {"LINE_RECEIVER_PORT": wanted, "UDP_RECEIVER_PORT": datagrams.getsockname()[1]}),
                ("line", {"LINE_RECEIVER_INTERFACE": "no.address"}),
                ("line", {"LINE_RECEIVER_INTERFACE": "0.0.0.0"}),  # the port is taken by the relay itself
                ("line", {"LINE_RECEIVER_PORT": relay.pickle, "PICKLE_RECEIVER_PORT": relay.line}),
            )
            for number, (role, changed) in enumerate(cases):
                with self.subTest(changed):
                    gone = [f"127.0.0.1:{port}" for port in free_ports(1)]
                    ran = self.reload(relay, *self.files(relay, gone, **changed))
                    self.assertEqual(ran, Ran(3, b"", f"relayd: listen: {role}\n".encode()))
                    self.assertTrue(refuses(wanted))
                    producer.sendall(b"a.%d 1 1700000000\n" % number)
                    relay.lines(b"b.%d 1 1700000000\n" % number)
                    self.wait_for(lambda: len(store.lines()) == 2 * number + 3, "the relay sends as before")
                    self.wait_for(lambda: relay.descriptors() == descriptors, "nothing is left open")
            self.assertEqual(store.connections(), 1)
            self.moves(relay, dests, 0)
            self.stops(relay)

    def test_counts(self):
        """Those of a receiver go on at its new port, and those of the others; one that is gone is in no status."""
        store, = self.stores(1)
        dests = [f"127.0.0.1:{store.port}"]
        status, = free_ports(1)

        def seen():
            return {receiver["receiver"]: receiver["datapoints"] for receiver in shown(status)["receivers"]}

        with self.running(dests, options=("--status", str(status))) as relay:
            relay.lines(text_of(numbered(10)))
            relay.datagram(b"u.1 1 1700000000\n")
            relay.pickles(pickle.dumps([("p.1", (1700000000, 1))], 2))
            self.wait_for(lambda: seen() == {"line": 10, "pickle": 1, "udp": 1}, "all are counted")
            self.moves(relay, dests, 0)
            relay.lines(text_of(numbered(5, b"b")))
            self.wait_for(lambda: seen() == {"line": 15, "pickle": 1, "udp": 1}, "they go on")
            self.moves(relay, dests, PICKLE_RECEIVER_PORT="0")
            relay.datagram(b"u.2 1 1700000000\n")
            self.wait_for(lambda: seen() == {"line": 15, "udp": 2}, "the others go on")
            self.moves(relay, dests)
            relay.pickles(pickle.dumps([("p.2", (1700000000, 1))], 2))
            self.wait_for(lambda: seen() == {"line": 15, "pickle": 1, "udp": 2}, "a new receiver counts from nothing")
            self.stops(relay)

    def test_under_load(self):
        """While the port of lines moves again and again, those whose connections it half-closes lose nothing, and those of pickles
        notice nothing: each line arrives once."""
        store, = self.stores(1)
        dests = [f"127.0.0.1:{store.port}"]
        sent, cut = [], []
        with self.running(dests, options=("--line-receivers", "2"), MAX_QUEUE_SIZE="1000000") as relay:
            is_over = threading.Event()

            def pickling():
                number = 0
                with socket.create_connection(("127.0.0.1", relay.pickle), LIMIT) as stream:
                    while not is_over.is_set():
                        rows = [("p.%d" % (number + row), (1700000000, number + row)) for row in range(100)]
                        try:
                            stream.sendall(frame(pickle.dumps(rows, 2)))
                        except OSError as error:
                            cut.append(error)
                            return
                        sent.extend(b"p.%d %d 1700000000" % (number + row, number + row) for row in range(100))
                        number += 100

            beside = threading.Thread(target=pickling)
            beside.start()
            for turn in range(TURNS):
                lines = numbered(EACH, b"t%d" % turn)
                with socket.create_connection(("127.0.0.1", relay.line), LIMIT) as stream:
                    stream.sendall(text_of(lines))
                    self.moves(relay, dests, 0, MAX_QUEUE_SIZE="1000000")
                    stream.settimeout(LIMIT)
                    self.assertEqual(stream.recv(1), b"")
                sent.extend(lines)
            is_over.set()
            beside.join(LIMIT)
            self.assertEqual(cut, [])
            self.has(store, sent)
            self.stops(relay, rb"settled\n|sealed \d\n")

    def test_commands_while_it_moves(self):
        """While a producer that does not stop holds up the port that goes, for half a second, commands are answered: another reload
        and a stop by the run that follows. All that was read has arrived."""
        for command in (b"report", b"reload", b"stop"):
            store, = self.stores(1)
            dests = [f"127.0.0.1:{store.port}"]
            with self.subTest(command), self.running(dests) as relay, \
                    socket.create_connection(("127.0.0.1", relay.line), LIMIT) as producer:
                is_over, moved = threading.Event(), []

                def producing():
                    number = 0
                    with contextlib.suppress(OSError):
                        while not is_over.wait(0.002):
                            producer.sendall(b"a.%d 1 1700000000\n" % number)
                            number += 1

                beside = (threading.Thread(target=producing),
                          threading.Thread(target=lambda: moved.append(self.moves(relay, dests, 0))))
                for thread in beside:
                    thread.start()
                time.sleep(0.2)
                if command == b"reload":
                    self.assertEqual(self.reload(relay), RELOADED)
                else:
                    self.assertRegex(relay.command(command), {b"report": b"\\Adestination ", b"stop": b"\\Astopping\n\\Z"}[command])
                beside[1].join(LIMIT)
                is_over.set()
                beside[0].join(LIMIT)
                self.assertEqual(len(moved), 1, "it has moved")
                if command == b"stop":
                    self.assertEqual(relay.child.wait(LIMIT), 0)
                else:
                    self.stops(relay)
                numbers = [int(line.split()[0].removeprefix(b"a.")) for line in store.lines()]
                self.assertEqual(numbers, list(range(len(numbers))))
                self.assertGreater(len(numbers), 0)

    def test_few_descriptors(self):
        """One more receiver of connections is refused where it could take the descriptors of stores. Where producers share those that
        are left, it shares them too, and a store that comes back gets its own."""
        self.needs_descriptors(2 * PRODUCERS)
        for limit, expected in ((UNSHARED, Ran(3, b"", b"relayd: no descriptors\n")), (SHARED, RELOADED)):
            store, = self.stores(1)
            dests = [f"127.0.0.1:{store.port}"]

            def limited():
                resource.setrlimit(resource.RLIMIT_NOFILE, (limit, limit))

            with self.subTest(limit), contextlib.ExitStack() as at_end, \
                    self.running(dests, before=limited, PICKLE_RECEIVER_PORT="0") as relay:
                relay.lines(b"a.1 1 1700000000\n")
                self.has(store, [b"a.1 1 1700000000"])
                self.assertEqual(self.reload(relay, *self.files(relay, dests)), expected)
                self.assertEqual(refuses(relay.pickle), expected is not RELOADED)
                for port in (relay.line, relay.pickle) if expected is RELOADED else (relay.line,):
                    for _ in range(PRODUCERS // 2):
                        at_end.enter_context(socket.create_connection(("127.0.0.1", port), LIMIT))
                store.stop()
                store.start()
                for number in range(20):
                    relay.datagram(b"u.%d 1 1700000000\n" % number)
                self.wait_for(lambda: b"u.19 1 1700000000" in store.lines(), "the store has a descriptor")
                at_end.close()
                self.stops(relay)

    def test_descriptors(self):
        """Twenty moves leave no descriptor open."""
        store, = self.stores(1)
        dests = [f"127.0.0.1:{store.port}"]
        with self.running(dests) as relay:
            relay.lines(b"a.1 1 1700000000\n")
            self.has(store, [b"a.1 1 1700000000"])
            self.moves(relay, dests, 0)
            descriptors = relay.descriptors()
            for turn in range(20):
                self.moves(relay, dests, turn % 3)
            self.wait_for(lambda: relay.descriptors() == descriptors, "as many are open as before")
            self.assertEqual(len(os.listdir(f"/proc/{relay.child.pid}/task")), len(relay.thread_names()))
            self.stops(relay)

