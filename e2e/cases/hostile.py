"""Hostile use of a running relay. Each attack has an honest producer beside it, whose datapoints all arrive.

`make hostile` runs the longer form: floods bring more, and the honest producer has to bring more through.
"""

import contextlib
import os
import pickle
import random
import resource
import secrets
import socket
import struct
import threading
import time

from cases.limits import is_over
from fixtures import attacks, sockets
from fixtures.attacks import AT_ONCE, RESET, Honest, Ill, as_datagrams, as_lines, as_pickle, is_read, peak_of, spent_on
from fixtures.harness import LIMIT, Settings
from fixtures.log import LINE, Log
from fixtures.running import WithRelays, frame
from fixtures.stores import free_ports

AMONG = 100                  # datapoints that it has to bring through while an attack is on
LONGEST_FRAME = 1_048_576    # bytes
FRAMES = 1_020               # connections; a receiver holds 1,024
BEGUN = 262_144              # bytes of each frame that never ends
ROUNDS = 10                  # of such frames: the memory that is freed is not at once where others need it
MORE_MEMORY = 64 * 1_048_576 # bytes that a relay may hold more after an attack
SHORT = 20_000               # connections, of which each brings a line
LONGER = 5                   # times as much in the longer form
NAMES = 200_000              # a receiver remembers 131,072 at most
DESCRIPTORS = 32
CROWD = 100                  # connections, more than there are descriptors
KEPT = 4                     # descriptors that are neither for producers nor for stores
LOST = 4                     # stores that are lost together
FLOOD = 300                  # connections of each that floods the admin port
QUEUE = 20_000               # places, where a queue is to be full
SMALL_ROOM = 4_096           # bytes that the system keeps for a store that does not read
BULK = [b"honest.bulk.%s %d 1" % (b"x" * 1_000, number) for number in range(8_000)]  # more than the system buffers
COSTLY = 40                  # connections, of which each has a frame that takes some time
ROWS = 24_000                # datapoints of such a frame
FEW = 3                      # frames, in whose time a relay stops
STOPPING = 1.0               # seconds that the end of a run may take besides: half of them its receivers close
SILENT = 1_020               # connections that send nothing
IDLE = 4                     # seconds that a connection may send nothing; the honest producer never rests so long
SLOW_LINES = 6
ROOM = 260_000_000           # bytes of memory that a relay may take more than at its start
LONG = 16_000                # bytes of a name
LONGEST_NAME = 16_384        # bytes
DEARER = 50                  # times; 400 where each datapoint has a copy of its name, or is routed anew
TICK = 0.01                  # seconds: the least time of the processor that the system counts
MANY = 24_000                # long names: more than there is room for
TOGETHER = 40                # of them, in one write
LATER = 10_000               # datapoints that come after the attack
ADMIN = (b"report\n", b"rep", b"", b"\n", b"sto", b"x" * 5_000, b"report" + b" " * 64 + b"\n", b"\x00\xff\r\n", b"Stop\n")


def times(count):
    """This count, or that of the longer form."""
    return count * LONGER if Settings.longer else count


def name_of(port):
    """The destination at a port."""
    return f"127.0.0.1:{port}"


class Hostile(WithRelays):
    """Attacks by producers, by stores and through the admin port."""

    @contextlib.contextmanager
    def attacked(self, others=(), rest=(), **how):
        """A relay with an honest producer, whose store has all of it at the end; then the relay stops, and all is well.

        The honest datapoints go to these others too, and all that has another name goes to a store for the rest and to
        these others of the rest.
        """
        honest, store = self.stores(2)
        to_honest, to_rest = [name_of(honest.port), *others], [name_of(store.port), *rest]
        rules = (f"[honest]\npattern = ^honest\\.\ndestinations = {', '.join(to_honest)}\n"
                 f"[rest]\ndefault = true\ndestinations = {', '.join(to_rest)}\n")
        with self.relay([*to_honest, *to_rest], rules, **{"MAX_QUEUE_SIZE": "100000"} | how) as relay:
            producer = Honest(relay)

            def goes_on():
                """Some of its datapoints that are sent from now on arrive."""
                before, among = producer.sent, times(AMONG)
                self.wait_for(lambda: producer.sent > before + among, f"it sends ({producer.fault})")
                self.wait_for(lambda: b"honest.pickle %d 1" % (before + among) in honest.lines(),
                              "the honest datapoints arrive")
            relay.goes_on, relay.rest, relay.honest = goes_on, store, honest
            try:
                goes_on()
                yield relay
                goes_on()
            finally:
                sent = producer.end()
            self.assertIsNone(producer.fault)
            self.wait_for(lambda: list(map(len, attacks.by_kinds(honest.lines()))) == list(map(len, sent)),
                          "all honest datapoints arrive")
            self.assertTrue(attacks.by_kinds(honest.lines()) == sent, "they arrive in order")
            self.assertEqual(relay.command(b"stop"), b"stopping\n")
            self.assertEqual(relay.child.wait(LIMIT), 0)
            self.assertRegex(relay.child.stdout.read(), rb"\A(settled|sealed \d+)\n\Z")

    def test_frames_that_never_end(self):
        """The relay keeps what has arrived of them, and frees it when their connections end: what is freed serves others, so
        that the same attack again takes hardly more memory."""
        self.needs_descriptors(3 * FRAMES)
        with self.attacked() as relay:
            most = [relay.resident()]
            while len(most) < 3 or most[-1] > most[-2] + MORE_MEMORY:
                self.assertLess(len(most), ROUNDS, most)
                with contextlib.ExitStack() as connections:
                    self.begin_frames(relay, connections)
                    most.append(max(most[-1], relay.resident()))
                    relay.goes_on()
                self.wait_for(lambda: relay.descriptors() < FRAMES, "their connections have ended")
            self.assertGreater(most[1], most[0] + FRAMES * BEGUN * 9 // 10, "all is held")

    def begin_frames(self, relay, connections):
        """Begins frames on many connections; what was sent of them is read then."""
        begun = struct.pack("!L", LONGEST_FRAME) + b"\x80\x02]" + b"(" * BEGUN
        for _ in range(FRAMES):
            stream = connections.enter_context(socket.create_connection(("127.0.0.1", relay.pickle), LIMIT))
            stream.sendall(begun)
        self.wait_for(lambda: not sockets.unsent(relay.pickle) and not sockets.waiting(relay.pickle), "all is read")

    def test_stores_of_all_kinds_of_illness(self):
        """None of them takes anything from the others, which get all, in order."""
        well, = self.stores(1)
        ill = [Ill(attacks.reads_nothing, SMALL_ROOM), Ill(attacks.reads_a_byte_now_and_then, SMALL_ROOM),
               Ill(attacks.resets), Ill(attacks.closes), Ill(attacks.talks)]
        for store in ill:
            self.addCleanup(store.stop)
        absent, walled = free_ports(2)
        with socket.socket() as wall:
            wall.bind(("127.0.0.1", walled))
            wall.listen(0)
            others = map(name_of, (well.port, *(store.port for store in ill), absent, walled))
            with socket.create_connection(("127.0.0.1", walled), LIMIT), self.attacked(others) as relay:
                relay.lines(b"".join(line + b"\n" for line in BULK))
                for store in (relay.honest, well):
                    self.wait_for(lambda: bulk_of(store) == BULK, "the stores that are well have all")
                self.wait_for(lambda: min(store.connections for store in ill[2:4]) > 2 and all(
                    store.connections for store in ill), "the others were met, and tried again")

    def test_many_short_connections(self):
        """The line of each arrives, and no descriptor is left behind."""
        with self.attacked() as relay:
            self.wait_for(relay.rest.is_connected, "the other store is connected")
            before, short = relay.descriptors(), times(SHORT)

            def produce(place):
                # Each has an address of its own, so that the system has ports for all.
                for number in range(place, short, AT_ONCE):
                    with socket.create_connection(("127.0.0.1", relay.line), LIMIT, (f"127.0.9.{place + 1}", 0)) as stream:
                        stream.sendall(b"short.%d 1 1\n" % number)

            threads = [threading.Thread(target=produce, args=(place,)) for place in range(AT_ONCE)]
            for thread in threads:
                thread.start()
            relay.goes_on()
            for thread in threads:
                thread.join()
            self.wait_for(lambda: relay.rest.text().count(b"\n") >= short, "all their lines arrive")
            self.assertTrue(sorted(relay.rest.lines()) == sorted(b"short.%d 1 1" % number for number in range(short)),
                            "each arrives once")
            self.wait_for(lambda: relay.descriptors() <= before, "no descriptor is left")

    def test_more_names_than_are_remembered(self):
        """Names share places in the table of names, however it is made. Each datapoint has its own name all the same."""
        with self.attacked(rewrite="[pre]\n^name\\. = other.\n", MAX_QUEUE_SIZE=2 * NAMES) as relay:
            relay.lines(b"".join(b"name.%d %d 1\n" % (number, turn) for turn in range(2) for number in range(NAMES)))
            relay.goes_on()
            wanted = b"".join(b"other.%d %d 1\n" % (number, turn) for turn in range(2) for number in range(NAMES))
            self.wait_for(lambda: relay.rest.size() >= len(wanted), "all their datapoints arrive")
            self.assertTrue(relay.rest.text() == wanted, "they are as they were sent, in order")

    def test_an_admin_flood(self):
        """Commands, half commands and bytes by chance, and peers that say nothing: a report is answered all the same."""
        with self.attacked() as relay, socket.create_connection(("127.0.0.1", relay.admin), LIMIT), \
                socket.create_connection(("127.0.0.1", relay.admin), LIMIT) as half:
            half.sendall(b"re")

            def flood(seed):
                source = random.Random(seed)
                for _ in range(times(FLOOD)):
                    with contextlib.suppress(ConnectionError), \
                            socket.create_connection(("127.0.0.1", relay.admin), LIMIT) as stream:
                        stream.sendall(source.choice((*ADMIN, source.randbytes(source.randrange(200)) + b"\n")))
                        if source.randrange(2):
                            stream.setsockopt(socket.SOL_SOCKET, socket.SO_LINGER, RESET)

            threads = [threading.Thread(target=flood, args=(seed,)) for seed in range(AT_ONCE)]
            for thread in threads:
                thread.start()
            relay.goes_on()
            self.assertEqual(len(relay.report()), 2)
            for thread in threads:
                thread.join()
            self.assertEqual(len(relay.report()), 2)

    def test_few_descriptors(self):
        """Producers take all that there are. Those that are connected go on, and the others have a turn once some have gone."""
        def few():
            resource.setrlimit(resource.RLIMIT_NOFILE, (DESCRIPTORS, DESCRIPTORS))

        with self.attacked(before=few) as relay, contextlib.ExitStack() as connections:
            relay.lines(b"first 1 1\n")
            self.wait_for(lambda: relay.rest.lines() == [b"first 1 1"], "the other store is connected")
            for number in range(CROWD):
                stream = socket.create_connection(("127.0.0.1", relay.line), LIMIT)
                connections.enter_context(stream).sendall(b"crowd.%d 1 1\n" % number)
            self.wait_for(lambda: relay.descriptors() >= DESCRIPTORS - KEPT, "producers have all that they get")
            relay.goes_on()
            self.assertLess(len(relay.rest.lines()), DESCRIPTORS)
            connections.close()
            self.wait_for(lambda: len(relay.rest.lines()) > CROWD, "those that waited have a turn")
            self.assertEqual(sorted(relay.rest.lines()),
                             sorted([b"first 1 1", *(b"crowd.%d 1 1" % number for number in range(CROWD))]))

    def test_stores_find_a_descriptor(self):
        """Producers take all that they can. Stores that were lost come back and get what waits, all the same."""
        def few():
            resource.setrlimit(resource.RLIMIT_NOFILE, (2 * DESCRIPTORS, 2 * DESCRIPTORS))

        others = self.stores(LOST)
        with self.attacked(rest=[name_of(store.port) for store in others], before=few, options=("--log",)) as relay, \
                contextlib.ExitStack() as connections:
            log = Log(relay.child.stderr)
            lost = [relay.rest, *others]
            self.wait_for(lambda: all(store.connections() for store in lost), "all are connected")
            for store in lost:
                store.stop()
            connections.enter_context(socket.create_connection(("127.0.0.1", relay.line), LIMIT)).sendall(b"crowd 1 1\n")
            self.wait_for(lambda: all(counts["offered"] for _, counts in relay.report()[1:]), "there is something to get")
            for _ in range(CROWD // 2):
                for port, text in ((relay.line, b"crowd 1 1\n"), (relay.pickle, b"\0")):
                    connections.enter_context(socket.create_connection(("127.0.0.1", port), LIMIT)).sendall(text)
            self.wait_for(lambda: all(any(line.startswith(b"paused") for line in log.of(kind, "receiver"))
                                      for kind in ("line", "pickle")), "no producer is taken any more")
            relay.goes_on()
            for store in lost:
                store.start()
            self.wait_for(lambda: all(b"crowd 1 1" in store.lines() for store in lost), "the stores get what waited")

    def test_a_long_name_that_is_repeated(self):
        """A pickle repeats its longest name, which a rule rewrites. It costs some ordinary pickles, and little memory."""
        ordinary = frame(pickle.dumps([("ordinary.%05d" % number, (1, number)) for number in range(ROWS)], 2))
        name = b"X" + struct.pack("<L", LONGEST_NAME) + b"long.".ljust(LONGEST_NAME, b"x")
        head, row, tail = b"\x80\x02](" + name + b"K\x01K\x01\x86\x86q\x00", b"h\x00", b"e."
        repeated = frame(head + row * ((LONGEST_FRAME - len(head + tail)) // len(row)) + tail)
        with self.attacked(rewrite="[pre]\n^long\\. = other.\n") as relay:
            relay.rest.stop()
            for _ in range(2):  # the first makes what the relay remembers of names
                self.assertTrue(is_read(relay.pickle, ordinary))
            before = relay.resident()
            usual, costly = (spent_on(relay, text) for text in (ordinary, repeated))
            self.assertLess(costly, DEARER * len(repeated) / len(ordinary) * max(usual, TICK))
            self.assertLess(relay.resident() - before, MORE_MEMORY)

    def test_out_of_memory_is_left_again(self):
        """Long names come up to a limit of memory. Others arrive meanwhile and afterwards, on old and new connections."""
        store, = self.stores(1)
        with self.relay([name_of(store.port)], f"[all]\ndefault = true\ndestinations = {name_of(store.port)}\n") as relay:
            relay.lines(b"first 1 1\n")
            self.wait_for(lambda: store.lines() == [b"first 1 1"], "its threads have what they need")
            needed = peak_of(relay)

        def limited():
            resource.setrlimit(resource.RLIMIT_AS, (needed + ROOM, needed + ROOM))

        for way in (as_lines, as_pickle, as_datagrams):
            with self.subTest(way=way.__name__), self.attacked(before=limited) as relay:
                relay.rest.stop()
                read = [way(relay, [(b"long.%d." % number).ljust(LONG, b"x") for number in range(begun, begun + TOGETHER)])
                        for begun in range(0, MANY, TOGETHER)]
                if way is not as_datagrams:
                    self.assertEqual({read[0], read[-1]}, {True, False}, "the first are read, and at last there is no room")
                later = [b"honest.later.%d %d 1" % (number % FLOOD, number) for number in range(LATER)]
                relay.lines(b"".join(line + b"\n" for line in later))
                self.wait_for(lambda: relay.honest.text().count(b"honest.later") >= LATER, "what comes later arrives")
                self.assertEqual([line for line in relay.honest.lines() if line.startswith(b"honest.later")], later)
                self.assertEqual(len(relay.report()), 2)

    def test_a_stop_among_costly_frames(self):
        """It takes no longer than a few of them, though many connections have one."""
        frames = [frame(pickle.dumps([("costly.%02d.%05d" % (place, number), (1, number)) for number in range(ROWS)], 2))
                  for place in range(COSTLY)]
        self.assertLess(max(map(len, frames)), LONGEST_FRAME)
        self.gets_below(STOPPING, lambda: self.stops_among(frames))

    def stops_among(self, frames):
        """For how many seconds a stop takes longer than a few of these frames."""
        store, = self.stores(1)
        to_store = name_of(store.port)
        with self.relay([to_store], f"[all]\ndefault = true\ndestinations = {to_store}\n") as relay, \
                contextlib.ExitStack() as connections:
            before, streams = relay.resident(), []
            for text in frames:
                streams.append(connections.enter_context(socket.create_connection(("127.0.0.1", relay.pickle), LIMIT)))
                streams[-1].sendall(text[:-1])
            self.wait_for(lambda: relay.resident() > before + sum(map(len, frames)) * 9 // 10, "all but the ends are held")
            for stream, text in zip(streams, frames):
                stream.sendall(text[-1:])
            times = []
            for count in (4, 4 + FEW):
                self.wait_for(lambda: relay.totals()["offered"] >= count * ROWS, "some frames are taken in")
                times.append(time.monotonic())
            self.assertEqual(relay.command(b"stop"), b"stopping\n")
            self.assertEqual(relay.child.wait(LIMIT), 0)
            return time.monotonic() - times[1] - max(times[1] - times[0], 0)

    def test_idle_connections(self):
        """With --idle those that send nothing are closed, so that others have their places; those that send lines stay."""
        self.needs_descriptors(3 * SILENT)
        with self.attacked(options=("--idle", str(IDLE))) as relay, contextlib.ExitStack() as connections:
            silent = [connections.enter_context(socket.create_connection(("127.0.0.1", relay.line), LIMIT))
                      for _ in range(SILENT)]
            with socket.create_connection(("127.0.0.1", relay.line), LIMIT) as slow:
                for _ in range(SLOW_LINES):
                    slow.sendall(b"slow 1 1\n")
                    time.sleep(IDLE / 3)
                self.wait_for(lambda: relay.rest.lines() == [b"slow 1 1"] * SLOW_LINES, "the slow one's lines arrive")
            for stream in silent:
                stream.settimeout(LIMIT)
                with contextlib.suppress(ConnectionError):
                    self.assertEqual(stream.recv(1), b"", "the relay closes it")

    def test_idle_connections_for_pickles(self):
        """With --idle these are closed too."""
        with self.attacked(options=("--idle", str(IDLE))) as relay:
            with socket.create_connection(("127.0.0.1", relay.pickle), LIMIT) as stream:
                stream.settimeout(LIMIT)
                self.assertEqual(stream.recv(1), b"", "the relay closes it")

    def test_more_connections_than_are_held(self):
        """The log reports that the receiver refuses some, and how many, once there is room."""
        self.needs_descriptors(3 * FRAMES)
        with self.attacked(options=("--log",)) as relay, contextlib.ExitStack() as connections:
            log = Log(relay.child.stderr)
            streams = [connections.enter_context(socket.create_connection(("127.0.0.1", relay.line), LIMIT))
                       for _ in range(FRAMES + 14)]
            self.wait_for(lambda: b"has 1,024 connections, refusing more" in log.of("line", "receiver"),
                          "the log reports that some are refused")
            # The honest producer has one of the 1,024.
            self.wait_for(lambda: sum(map(is_over, streams)) == 11, "those are refused for which there is no place")
            connections.close()
            self.wait_for(lambda: b"stopped refusing, refused 11" in log.of("line", "receiver"), "the log reports how many")

    def test_nothing_of_a_producer_in_the_log(self):
        """Names, bad lines, bad pickles, datagrams, commands, and bytes by chance: no line of the log has any of it."""
        absent, = free_ports(1)
        word = secrets.token_hex(8).encode()
        with self.attacked(rest=[name_of(absent)], MAX_QUEUE_SIZE=QUEUE, options=("--log",)) as relay:
            log = Log(relay.child.stderr)
            relay.lines(b"%s 1 1\n%s\n%s.destination 2 x\n" % (word, word, word) * 500)
            relay.lines(b"destination %s lost: \x1b[31m\nreceiver %s failed: \n\x1b]0;%s\x07 1 1\n" % (word, word, word))
            relay.lines(word * 2_000)
            relay.pickles(word, b"\x80\x02" + word, pickle.dumps([(word.decode(), (1, 1)), (word.decode(), (1, "x"))], 2))
            self.ends_early(relay.pickle, word)
            for text in (b"%s.u 1 1\n%s" % (word, word), word, os.urandom(2_000)):
                relay.datagram(text)
            for text in (word, b"report " + word, word * 10):
                self.assertEqual(relay.command(text), b"unknown command\n")
            for port in (relay.line, relay.pickle, relay.admin):
                self.ends_early(port, os.urandom(2_000))
            relay.lines(b"%s 1 1\n" % word * (QUEUE + 1_000))
            self.wait_for(lambda: b"queue full, dropping" in log.of(name_of(absent)), "the log reports the drops")
            self.wait_for(lambda: self.has_read_all(relay), "the other store has read all")  # else its connection is reset
            relay.rest.hang_up()
            self.wait_for(lambda: b"closed by the store" in b"".join(log.of(name_of(relay.rest.port))),
                          "the log reports the loss")
        log.thread.join(LIMIT)
        for line in log.lines:
            self.assertTrue(LINE.fullmatch(line), line)
        self.assertNotIn(word, b"".join(log.lines))

    def has_read_all(self, relay):
        """Whether the store of the rest has read all that is offered to it, where the absent one has been offered as much."""
        (_, rest), (_, absent) = relay.report()[-2:]
        is_written = rest["offered"] == absent["offered"] == rest["taken"] + rest["dropped"]
        return is_written and len(relay.rest.lines()) == rest["taken"]

    def ends_early(self, port, text):
        """Sends bytes to a port, and lets the relay end the connection where it wants to."""
        with contextlib.suppress(ConnectionError), socket.create_connection(("127.0.0.1", port), LIMIT) as stream:
            stream.sendall(text)


def bulk_of(store):
    """The lines of a store that are of the bulk."""
    return [line for line in store.lines() if line.startswith(b"honest.bulk.")]
