"""The greatest sizes and numbers that the pages name: destinations, a read, a datagram, a frame, a batch, a replay."""

import os
import pickle
import signal
import socket
import struct
import unittest

from fixtures import sockets
from fixtures.configured import WithFiles, settings
from fixtures.harness import LIMIT, Ran, run
from fixtures.running import COUNTS, WithRelays
from fixtures.stores import Store, free_ports

ALL = "[all]\ndefault = true\ndestinations = {}\n"
TIME = 1_700_000_000
DESTINATIONS = 64
SENDERS = 3
THERE = range(31, 64)         # the destinations whose stores are there: eleven for each sender
LONGEST_READ = 4_096          # bytes of a connection
READS = 8                     # so few that the system holds all their bytes for a relay that is stopped
LONGEST_DATAGRAM = 65_507     # bytes; the system sends none that is longer, by IPv4's length of two bytes
LONGEST_FRAME = 1_048_576     # bytes
GREATEST_BATCH = 10_000       # datapoints
OTHER_BATCH = 700             # datapoints; neither the least, nor the greatest, nor what is taken without the setting
LONGEST_LINE = 16_384         # bytes
LONG_LINES = 2_000            # more than the system takes for a store that does not read
OFFERS = 140_000              # more than 100,000, and more than two histories of 65,536 steps
QUEUE = 100_000
SMALL_ROOM = 4_096            # bytes that the system keeps for a store that does not read


def named(ports):
    """Destinations at these ports."""
    return [f"127.0.0.1:{port}" for port in ports]


def text_of(lines):
    """Lines as they are sent."""
    return b"".join(line + b"\n" for line in lines)


def buffered():
    """How many bytes the system takes at most for a connection that nobody reads."""
    with open("/proc/sys/net/ipv4/tcp_wmem", encoding="ascii") as file:
        return int(file.read().split()[2])


def lines_beyond(count):
    """A few lines more than a number, each so long that this number of them fits no connection's buffers."""
    length = max(100, 2 * buffered() // count)
    if length > LONGEST_LINE - 100:
        raise unittest.SkipTest(f"the system buffers {buffered()} bytes of a connection, too many for this case")
    name = b"long." + b"x" * length
    return [b"%s %d %d" % (name, number, TIME + number) for number in range(count + count // 5)]


def is_stopped(process):
    """Whether a process is stopped by a signal, in each of its threads."""
    states = []
    for thread in os.listdir(f"/proc/{process}/task"):
        with open(f"/proc/{process}/task/{thread}/stat", encoding="ascii") as file:
            states.append(file.read().rpartition(")")[2].split()[0])
    return set(states) == {"T"}


class Destinations(WithRelays):
    """As many destinations as there may be."""

    def test_64_stores_of_which_33_are_there(self):
        """Each store that is there gets all, in order, also where eleven of one sender are full and ready at once."""
        ports = free_ports(DESTINATIONS)
        dests = named(ports)
        stores = {place: Store(ports[place]) for place in THERE}
        deaf = [store for place, store in stores.items() if place % SENDERS == 0]
        for store in deaf:
            store.reads, store.room = False, SMALL_ROOM
        for store in stores.values():
            self.addCleanup(store.stop)
            store.start()
        rules = (f"[long]\npattern = ^long\\.\ndestinations = {', '.join(named(store.port for store in deaf))}\n"
                 + ALL.format(", ".join(dests)))
        lines = [b"a %d %d" % (number, TIME) for number in range(50)]
        long = lines_beyond(LONG_LINES)
        with self.relay(dests, rules, senders=SENDERS, MAX_DATAPOINTS_PER_MESSAGE="10") as relay:
            relay.lines(text_of(lines))
            hearing = [store for store in stores.values() if store.reads]
            self.wait_for(lambda: all(store.lines() == lines for store in hearing), "those that read have all")
            relay.lines(text_of(long))
            self.fills(relay, deaf, lines + long)
            self.assertEqual([counts["queued"] for place, (_, counts) in enumerate(relay.report())
                              if place not in stores], [len(lines)] * (DESTINATIONS - len(stores)))
            self.settles(relay)
        self.assertEqual([store.lines() == lines for store in hearing], [True] * len(hearing))

    def fills(self, relay, deaf, lines):
        """Stores that do not read are full; then they read while the relay is stopped, so that all are ready at once."""
        names = {name for store in deaf for name in named([store.port])}

        def are_full():
            counts = [row for name, row in relay.report() if name in names]
            return all(row["offered"] == len(lines) and row["queued"] > 0 for row in counts)
        self.wait_for(are_full, "the stores that do not read are full")
        relay.child.send_signal(signal.SIGSTOP)
        self.wait_for(lambda: is_stopped(relay.child.pid), "the relay is stopped")
        for store in deaf:
            store.read_on()
        self.wait_for(lambda: not any(sockets.unsent(store.port) for store in deaf), "all that was sent is read")
        relay.child.send_signal(signal.SIGCONT)
        self.wait_for(lambda: all(store.lines() == lines for store in deaf), "those that read late have all")

    def test_a_report_of_64(self):
        """A line for each destination, in their order, each with counts of its own."""
        dests = named(free_ports(DESTINATIONS))
        rules = "".join(f"[{n}]\npattern = ^d{n}\\.\ndestinations = {dest}\n" for n, dest in enumerate(dests))
        with self.relay(dests, rules + ALL.format(dests[0]), MAX_QUEUE_SIZE="40") as relay:
            relay.lines(text_of(b"d%d.a 1 1" % n for n in range(DESTINATIONS) for _ in range(n + 1)))
            total = sum(range(1, DESTINATIONS + 1))
            self.wait_for(lambda: relay.totals()["offered"] == total, "all are offered")
            kept = [min(n + 1, 40) for n in range(DESTINATIONS)]
            self.assertEqual(relay.report(), [(dest, dict(zip(COUNTS, (kept[n], n + 1, kept[n], n + 1 - kept[n], 0))))
                                              for n, dest in enumerate(dests)])
            self.settles(relay)


class Inputs(WithRelays):
    """The longest that comes in at once."""

    def test_a_read_takes_as_much_as_it_may(self):
        """What waits for a relay that was stopped is read by few reads, whose pieces its record has."""
        record = self.folder / "record"
        dests = named(free_ports(1))
        text = b"".join(b"%059d 1 1\n" % number for number in range(READS * LONGEST_READ // 64))
        with self.relay(dests, ALL.format(*dests), options=("--record", os.fspath(record))) as relay:
            relay.child.send_signal(signal.SIGSTOP)
            self.wait_for(lambda: is_stopped(relay.child.pid), "the relay is stopped")
            with socket.create_connection(("127.0.0.1", relay.line), LIMIT) as stream:
                stream.sendall(text)
                self.wait_for(lambda: sockets.unsent(relay.line) == 0, "all bytes wait for the relay")
                relay.child.send_signal(signal.SIGCONT)
                self.wait_for(lambda: relay.totals()["offered"] == len(text) // 64, "all are offered")
            self.settles(relay)
        events = [line.split(" ") for line in record.read_text().splitlines()]
        pieces = [bytes.fromhex(words[3]) for words in events if words[0] == "piece"]
        self.assertEqual(b"".join(pieces), text)
        self.assertLessEqual(len(pieces), READS)

    def test_the_longest_datagram(self):
        """Each of its lines is read, up to the last byte."""
        lines, size = [], 0
        while size < LONGEST_DATAGRAM - 200:
            lines.append(b"udp.%d %d %d" % (len(lines), len(lines), TIME + len(lines)))
            size += len(lines[-1]) + 1
        lines.append(b"u" * (LONGEST_DATAGRAM - size - len(b" 7 %d" % TIME)) + b" 7 %d" % TIME)
        datagram = b"\n".join(lines)
        self.assertEqual(len(datagram), LONGEST_DATAGRAM)
        store, = self.stores(1)
        dests = named([store.port])
        with self.relay(dests, ALL.format(*dests)) as relay:
            with self.assertRaises(OSError):
                relay.datagram(datagram + b"0")
            relay.datagram(datagram)
            self.wait_for(lambda: len(store.lines()) >= len(lines), "all lines have come")
            self.assertEqual(store.lines(), lines)
            self.settles(relay)

    def test_a_frame_of_the_greatest_length_that_is_full_of_rows(self):
        """Python packs as many short rows into it as it takes; the store gets each, and the connection goes on."""
        rows = rows_of(LONGEST_FRAME)
        self.takes(pickle.dumps(rows, 2), rows)

    def test_a_frame_whose_rows_are_appended_one_by_one(self):
        """Each has an instruction of its own, as in a pickle of protocol 0."""
        rows = [("a", (TIME + number % 600, number % 256)) for number in range((LONGEST_FRAME - 4) // 16)]
        pickled = b"\x80\x02]%s." % b"".join(b"U\x01%sJ%sK%c\x86\x86a" % (name.encode(), struct.pack("<i", time), value)
                                             for name, (time, value) in rows)
        self.assertEqual(pickle.loads(pickled), rows)
        self.takes(pickled, rows)

    def takes(self, pickled, rows):
        """A case: a store gets each row of a pickle, and one that comes after it."""
        store, = self.stores(1)
        dests = named([store.port])
        lines = [b"%s %d %d" % (name.encode(), value, time) for name, (time, value) in rows]
        with self.relay(dests, ALL.format(*dests), MAX_QUEUE_SIZE=QUEUE) as relay:
            relay.pickles(pickled, pickle.dumps([("last", (TIME, 1))], 2))
            lines.append(b"last 1 %d" % TIME)
            self.wait_for(lambda: len(store.lines()) >= len(lines), "all rows have come")
            self.assertTrue(store.lines() == lines, "they are the rows, in order")
            self.assertIn(relay.stop()[1], (Ran(0, b"settled\n", b""), Ran(0, b"sealed 0\n", b"")))


def rows_of(size):
    """Short rows whose pickle has exactly this size."""
    rows = [("a", (TIME + number % 600, number % 256)) for number in range(size // 15)]

    def pickled(count, length=1):
        return rows[:count] + [("b" * length, (TIME, 1))]
    low, high = 0, len(rows)
    while high - low > 1:
        middle = (low + high) // 2
        if len(pickle.dumps(pickled(middle), 2)) <= size:
            low = middle
        else:
            high = middle
    found = pickled(low, 1 + size - len(pickle.dumps(pickled(low), 2)))
    if len(pickle.dumps(found, 2)) != size:
        raise AssertionError(f"these rows do not take {size} bytes")
    return found


class Batches(WithRelays):
    """How many datapoints a sender takes at once: as many as MAX_DATAPOINTS_PER_MESSAGE says."""

    def takes(self, limit):
        """A case: a store that comes late and does not read is handed a batch and no more; then it gets all."""
        port, = free_ports(1)
        dests = named([port])
        lines = lines_beyond(limit)
        with self.relay(dests, ALL.format(*dests), MAX_DATAPOINTS_PER_MESSAGE=limit, MAX_QUEUE_SIZE=QUEUE) as relay:
            relay.lines(text_of(lines))
            self.wait_for(lambda: relay.totals()["offered"] == len(lines), "all are offered")
            store = Store(port, reads=False, room=SMALL_ROOM)
            self.addCleanup(store.stop)
            store.start()
            self.wait_for(lambda: relay.totals()["taken"] >= limit, "a batch is taken")
            self.wait_for(lambda: sockets.unsent(port) > 0, "some of it is written")
            self.assertEqual(relay.totals()["taken"], limit)
            store.read_on()
            self.wait_for(lambda: len(store.lines()) >= len(lines), "all lines have come")
            self.assertTrue(store.lines() == lines, "they have come in order")
            self.settles(relay)

    def test_the_greatest_batch(self):
        self.takes(GREATEST_BATCH)

    def test_a_batch_is_as_great_as_its_setting(self):
        self.takes(OTHER_BATCH)


class Replays(WithFiles):
    """A replay of more offers than 100,000: there is no limit, but for the queue that is full."""

    def test_many_offers(self):
        lines = [b"a.%d %d %d" % (number % 100, number, TIME) for number in range(OFFERS)]
        kept = lines[:QUEUE]
        script = ["reader line", f"piece 0 {TIME} {text_of(lines).hex()}", *["offer 0"] * OFFERS, "offer 0", "up 0"]
        for first in range(0, QUEUE, GREATEST_BATCH):
            script += ["take 0", f"wrote 0 {len(text_of(kept[first:first + GREATEST_BATCH]))}"]
        path = self.folder / "script"
        path.write_text("\n".join(script) + "\n")
        config = settings(DESTINATIONS="127.0.0.1:3001", RELAY_METHOD="consistent-hashing", MAX_QUEUE_SIZE=QUEUE,
                          MAX_DATAPOINTS_PER_MESSAGE=GREATEST_BATCH)
        ran = run(("replay", *self.given({"config": config, "rules": None}), os.fspath(path)))
        handed = b"handed 0 0 %s\n" % text_of(kept).hex().encode()
        counts = (b"destination 127.0.0.1:3001 queued 0 offered %d kept %d dropped %d taken %d\n"
                  % (OFFERS, QUEUE, OFFERS - QUEUE, QUEUE))
        reader = b"reader 0 waiting 0 bad lines 0 bad pickles 0 bad rows 0 bad names 0\n"
        self.same(f"{OFFERS} offers", ran, Ran(0, b"not now %d\n" % (OFFERS + 3) + handed + counts + reader, b""),
                  ("replay",))
