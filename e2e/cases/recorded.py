"""`relayd run --record FILE`: the script of the run, which `relayd replay` runs with the same files to the same bytes and counts."""

import contextlib
import os
import pickle
import random
import resource
import socket
import stat
import threading
import time

from fixtures import sockets
from fixtures.harness import LIMIT, Ran, run
from fixtures.running import WithRelays, frame
from fixtures.stores import free_ports

SEEDS = (1, 2, 3)
PRODUCERS = 4
LINES_EACH = 300
HANG_UPS = 4
STILL = 1  # seconds for which nothing changes, once all is read
CUTS = 5   # tries to have a line cut off
RULES = """[most]
pattern = ^web
continue = true
destinations = {0}
[some]
pattern = 7$
continue = true
destinations = {1}
[all]
default = true
destinations = {2}
"""
ALL = "[all]\ndefault = true\ndestinations = {}\n"

# Lines that are short when they come and long when they are sent, so that the log has room for them and the system has not.
SHORT = 30_000
LENGTHENED = "[post]\n^s\\. = %s.\n" % ("s" * 220)
WHOLE_HISTORY = 65_536  # the steps that a history holds
WHOLE_LOG = 1_048_576  # the bytes that a log holds


class Replayed:
    """What a replay printed: what each connection of each destination got, the counts, and the lines `not now`."""

    def __init__(self, text, destinations):
        self.connections = [[] for _ in range(destinations)]
        self.counts = []
        self.refused = []
        for line in text.decode().splitlines():
            word, *rest = line.split(" ")
            if word == "handed":
                self.connections[int(rest[0])].append(bytes.fromhex(rest[2]))
            elif word == "destination":
                self.counts.append(dict(zip(rest[1::2], map(int, rest[2::2]))))
            elif word == "not":
                self.refused.append(line)


class Producer:
    """A producer: lines, pickles and datagrams, some of them bad, in pieces, now and then over a new connection."""

    def __init__(self, relay, seed, number):
        self.random = random.Random(f"{seed} {number}")
        self.relay = relay
        self.number = number
        self.thread = threading.Thread(target=self.send, daemon=True)
        self.thread.start()

    def name(self):
        return f"{self.random.choice(('web', 'db', 'x'))}{self.number}.{self.random.randrange(40)}"

    def line(self):
        if self.random.random() < 0.1:
            return self.random.choice((b"no datapoint\n", b"a b c\n", b"\n", b"\xff 1 1\n"))
        time_ = self.random.choice(("-1", "1700000000", "5.5"))
        return f"{self.name()} {self.random.randrange(1000)} {time_}\n".encode()

    def pickled(self):
        rows = [(self.name(), (self.random.randrange(10**9), self.random.random())) for _ in range(self.random.randrange(5))]
        return frame(pickle.dumps(rows, protocol=2))

    def stream(self, port, texts):
        """Sends texts over a connection, in pieces that end anywhere."""
        with socket.create_connection(("127.0.0.1", port), LIMIT) as stream:
            text = b"".join(texts)
            while text:
                size = self.random.randrange(1, 400)
                stream.sendall(text[:size])
                text = text[size:]
                if self.random.random() < 0.1:
                    time.sleep(self.random.random() / 200)

    def send(self):
        left = LINES_EACH
        while left > 0:
            count = self.random.randrange(1, 60)
            left -= count
            kind = self.random.randrange(3)
            if kind == 0:
                self.stream(self.relay.line, [*(self.line() for _ in range(count)), b"cut off"[:self.random.randrange(8)]])
            elif kind == 1:
                self.stream(self.relay.pickle, [self.pickled() for _ in range(count // 4)])
            else:
                self.relay.datagram(b"".join(self.line() for _ in range(count)) or b"x")


class Recorded(WithRelays):
    """Runs that are recorded, and what their records do."""

    def setUp(self):
        super().setUp()
        self.record = self.folder / "record"

    def recorded(self, destinations, rules, options=(), **how):
        """A relay that records its run."""
        return self.relay(destinations, rules, options=("--record", os.fspath(self.record), *options), **how)

    def replayed(self, relay, destinations):
        """What the record of a relay does with the files of the relay."""
        files = relay.child.args[2:relay.child.args.index("--admin")]
        ran = run(["replay", *files, os.fspath(self.record)])
        self.assertEqual((ran.status, ran.err), (0, b""))
        replayed = Replayed(ran.out, destinations)
        self.assertEqual(replayed.refused, [])
        return replayed

    def is_that_of(self, store, connections, are_whole):
        """The store got these bytes on its connections; of those that it closed itself, a first part."""
        taken = [bytes(bytes_) for bytes_ in store.taken]
        self.assertEqual(len(taken), len(connections))
        for place, (got, sent) in enumerate(zip(taken, connections)):
            if are_whole or place == len(taken) - 1:
                self.assertEqual(got, sent, place)
            else:
                self.assertEqual(got, sent[:len(got)], place)

    def stable_report(self, relay):
        """The report, once nothing waits to be read and nothing changes any more."""
        reports = [None, relay.report()]

        def is_same():
            self.wait_for(lambda: not any(sockets.waiting(port) for port in (relay.line, relay.pickle))
                          and not sockets.waiting_datagrams(relay.udp), "all is read")
            time.sleep(STILL)
            reports.append(relay.report())
            return reports[-1] == reports[-2]
        self.wait_for(is_same, "the counts stay")
        return [counts for _, counts in reports[-1]]

    def test_random_producers(self):
        """Lines, pickles and datagrams for a store that takes all, one that hangs up, and one that is not there."""
        for seed in SEEDS:
            with self.subTest(seed=seed):
                self.traffic(seed)

    def traffic(self, seed):
        taking, leaving = self.stores(2)
        dests = [f"127.0.0.1:{port}" for port in (taking.port, leaving.port, *free_ports(1))]
        chance = random.Random(seed)
        how = {"MAX_QUEUE_SIZE": str(chance.choice((3, 40, 500))), "MAX_DATAPOINTS_PER_MESSAGE": str(chance.choice((1, 7, 500)))}
        with self.recorded(dests, RULES.format(*dests), senders=chance.randrange(1, 4), options=("--idle", "5"), **how) as relay:
            producers = [Producer(relay, seed, number) for number in range(PRODUCERS)]
            for _ in range(HANG_UPS):
                time.sleep(chance.random() / 20)
                leaving.hang_up()
            for producer in producers:
                producer.thread.join(LIMIT)
            self.wait_for(lambda: leaving.is_connected() and taking.is_connected(), "the stores are connected again")
            self.wait_for(lambda: not any(counts["queued"] for _, counts in relay.report()[:2]), "they have what was queued")
            counts = self.stable_report(relay)
            self.settles(relay)
        replayed = self.replayed(relay, len(dests))
        self.assertEqual(replayed.counts, counts)
        self.assertGreater(counts[2]["dropped"] if how["MAX_QUEUE_SIZE"] != "500" else 1, 0)
        taking.finish()
        leaving.finish()
        self.is_that_of(taking, replayed.connections[0], True)
        self.is_that_of(leaving, replayed.connections[1], False)
        self.assertEqual(replayed.connections[2], [])
        self.record.unlink()

    def test_a_line_that_is_cut_off(self):
        """A store that hangs up in the middle of a line gets the whole line on its next connection."""
        for _ in range(CUTS):
            cut, whole, again = self.hangs_up_early()
            self.assertEqual(cut.count(b"\n") + whole.count(b"\n"), SHORT)
            self.assertEqual(again, whole)
            if not cut.endswith(b"\n"):  # what the system keeps for a store may end with a line
                return
        self.fail("no line was cut off")

    def hangs_up_early(self):
        """What the replay sends on both connections of a store that hangs up once, and what the store got on the second."""
        store, = self.stores(1, reads=False, room=4096)
        dest = f"127.0.0.1:{store.port}"
        with self.recorded([dest], ALL.format(dest), rewrite=LENGTHENED, MAX_QUEUE_SIZE="1000000") as relay:
            relay.lines(b"".join(b"s.%d 1 1\n" % number for number in range(SHORT)))
            self.wait_for(lambda: relay.report()[0][1]["kept"] == SHORT, "all lines are queued")
            self.wait_for(store.is_connected, "the store is connected")
            self.stable_report(relay)
            store.hang_up()
            store.read_on()
            self.wait_for(lambda: relay.report()[0][1]["queued"] == 0 and store.text().endswith(b".%d 1 1\n" % (SHORT - 1)),
                          "the store has the last line")
            counts = self.stable_report(relay)
            self.settles(relay)
        replayed = self.replayed(relay, 1)
        self.assertEqual(replayed.counts, counts)
        self.record.unlink()
        cut, whole = replayed.connections[0]
        return cut, whole, bytes(store.taken[1])

    def test_without_receivers(self):
        """A run that receives nothing."""
        store, = self.stores(1)
        dest = f"127.0.0.1:{store.port}"
        how = {"LINE_RECEIVER_PORT": "0", "PICKLE_RECEIVER_PORT": "0", "ENABLE_UDP_LISTENER": "False"}
        with self.recorded([dest], ALL.format(dest), **how) as relay:
            self.wait_for(store.is_connected, "the store is connected")
            self.settles(relay)
        self.assertEqual(self.replayed(relay, 1).connections, [[b""]])

    # ---- runs without a record

    def has_no_record(self, relay, reason, last=b"settled\n", status=3):
        """The relay stops with the last line that it has anyway, and says why there is no record; there is no file."""
        answer, ran = relay.stop()
        self.assertEqual(answer, b"stopping\n")
        self.same("stop", ran, Ran(status, last, b"relayd: record: " + reason + b"\n"), ("run",))
        self.assertFalse(self.record.exists())

    def idle_relay(self):
        """A relay that records, and whose store is not there."""
        dest = f"127.0.0.1:{free_ports(1)[0]}"
        return self.recorded([dest], ALL.format(dest))

    def test_a_history_is_sealed(self):
        with self.idle_relay() as relay:
            relay.lines(b"a 1 1\n" * (WHOLE_HISTORY + 1))
            self.wait_for(lambda: relay.report()[0][1]["offered"] == WHOLE_HISTORY + 1, "all are offered")
            self.has_no_record(relay, b"the history of destination 0 is not whole", b"sealed 0\n")

    def test_a_log_is_sealed(self):
        with self.idle_relay() as relay:
            relay.lines(b"\n" * WHOLE_LOG + b"a 1 1\n")
            self.wait_for(lambda: relay.report()[0][1]["offered"] == 1, "the last line is offered")
            self.has_no_record(relay, b"the log of receiver 0 is not whole")

    def test_an_empty_datagram(self):
        with self.idle_relay() as relay:
            relay.datagram(b"")
            relay.datagram(b"a 1 1\n")
            self.wait_for(lambda: relay.report()[0][1]["offered"] == 1, "the line is offered")
            self.has_no_record(relay, b"an empty datagram was received")

    # ---- the file

    def does_not_begin(self, reason):
        """A relay that is to record does not start, and says where and why."""
        dest = f"127.0.0.1:{free_ports(1)[0]}"
        words = self.given({"config": self.configuration([dest], list(map(str, free_ports(3)))), "rules": ALL.format(dest)})
        self.expect(b"", status=3, notes=f"relayd: record: {self.record}: {reason}\n".encode(),
                    words=("run", *words, "--admin", str(free_ports(1)[0]), "--record", os.fspath(self.record)))

    def test_a_file_that_cannot_be_written(self):
        """The relay finds that out at its start: there is no such folder, or what is there is no regular file."""
        self.record = self.folder / "none" / "record"
        self.does_not_begin("cannot write: No such file or directory (os error 2)")
        self.record = self.folder / "fifo"
        os.mkfifo(self.record)
        self.does_not_begin("no regular file")
        self.record = self.folder / "folder"
        self.record.mkdir()
        self.does_not_begin("no regular file")
        self.assertEqual(list(self.record.iterdir()), [])

    def test_an_older_record_stays(self):
        """Where the record has no room, or its folder has gone, when the relay has settled."""
        self.record.write_bytes(b"older")
        with self.idle_relay() as relay:
            relay.lines(b"a 1 1\n" * 1_000)
            self.wait_for(lambda: relay.report()[0][1]["offered"] == 1_000, "all are offered")
            resource.prlimit(relay.child.pid, resource.RLIMIT_FSIZE, (4_096, 4_096))
            answer, ran = relay.stop()
            self.assertEqual(answer, b"stopping\n")
            fault = f"relayd: record: {self.record}: cannot write: file too large\n"
            self.same("stop", ran, Ran(3, b"settled\n", fault.encode()), ("run",))
        self.assertEqual(self.record.read_bytes(), b"older")
        self.assertEqual([path.name for path in self.folder.iterdir() if path.name.startswith("record")], ["record"])

    def test_the_file_is_new(self):
        """Only its owner may read it, and it takes the place of an older file or a link, which is not followed."""
        aside = self.folder / "aside"
        aside.write_bytes(b"another's")
        self.record.symlink_to(aside)
        (self.folder / "record.part").write_bytes(b"what a run left that was killed")
        with self.idle_relay() as relay:
            relay.lines(b"a 1 1\n")
            self.wait_for(lambda: relay.report()[0][1]["offered"] == 1, "it is offered")
            self.settles(relay)
        self.assertEqual(aside.read_bytes(), b"another's")
        self.assertFalse(self.record.is_symlink())
        self.assertEqual(stat.S_IMODE(self.record.stat().st_mode), 0o600)
        self.assertFalse((self.folder / "record.part").exists())

    def test_a_run_that_does_not_begin(self):
        """A fault at the start leaves no file."""
        with contextlib.closing(socket.create_server(("127.0.0.1", 0))) as taken:
            port = str(taken.getsockname()[1])
            config = self.configuration(["127.0.0.1:9"], (port, "0", "0"), ENABLE_UDP_LISTENER="False")
            words = self.given({"config": config, "rules": ALL.format("127.0.0.1:9")})
            admin = str(free_ports(1)[0])
            self.expect(b"", status=3, notes=b"relayd: listen: line\n",
                        words=("run", *words, "--admin", admin, "--record", os.fspath(self.record)))
        self.assertFalse(self.record.exists())
