"""`relayd run --spool DIR --spool-size BYTES`: what a queue cannot hold while its store is away, or slow, goes over files."""

import os
import shutil
import signal
import threading

from fixtures.harness import LIMIT, run
from fixtures.log import Log
from fixtures.spooling import LONG, WithSpool, numbered, text_of
from fixtures.stores import Store, free_ports

SIZE = str(64 * 1_048_576)
SMALL_QUEUE = "10000"
MANY = 100_000
STEP = 2_000  # lines that are sent at once
PIECE = 65_536  # bytes of a file that are sent at once
INTAKE = 262_144  # bytes that a sender writes ahead of the files


class Diversion(WithSpool):
    """A relay whose queues are small."""

    def diverting(self, dests, *options, size=SIZE, **how):
        """A relay that diverts."""
        return self.spooling(dests, "--spool-size", size, *options, **({"MAX_QUEUE_SIZE": SMALL_QUEUE} | how))

    def away(self):
        """A port at which no store is, and its destination."""
        port, = free_ports(1)
        return port, f"127.0.0.1:{port}"

    def store_at(self, port, **how):
        """A store that begins now."""
        store = Store(port, **how).start()
        self.addCleanup(store.stop)
        return store

    def send_many(self, relay, lines):
        """Sends lines, no faster than they are kept."""
        for first in range(0, len(lines), STEP):
            self.queued(relay, lines[first:first + STEP])

    def dropped(self, relay):
        """How many datapoints all queues dropped."""
        return relay.totals()["dropped"]

    def has_all(self, store, lines):
        """Waits until a store has these lines, each once, in order."""
        size = len(text_of(lines))
        self.wait_for(lambda: store.size() >= size, "the store has all")
        if store.lines() != lines:
            came = store.lines()
            place = next((at for at, (one, other) in enumerate(zip(came, lines)) if one != other), len(lines))
            self.fail(f"line {place} of {len(lines)}: came {came[place:place + 3]}, of {len(came)} lines")

    def over(self, relay, status=0):
        """Stops it: its last line is that of a run that settled, as far as its records have room."""
        self.assertEqual(relay.command(b"stop"), b"stopping\n")
        self.assertEqual(relay.child.wait(LIMIT), status)
        self.assertIn(relay.child.stdout.read(), (b"settled\n", b"sealed 0\n"))

    def are_sent(self):
        """Waits until all files are gone."""
        self.wait_for(lambda: self.files() == [], "the files are gone")


class Outages(Diversion):
    """A store is away, or takes less than comes."""

    def test_a_store_that_is_away(self):
        """It gets all in order, once, and three others notice nothing."""
        port, dest = self.away()
        others = self.stores(3)
        lines = numbered(MANY)
        with self.diverting([dest, *(f"127.0.0.1:{it.port}" for it in others)]) as relay:
            self.send_many(relay, lines)
            for it in others:
                self.has_all(it, lines)
                self.assertEqual(it.connections(), 1)
            self.assertEqual(self.dropped(relay), 0)
            self.assertGreater(len(self.files()), 0)
            store = self.store_at(port)
            self.has_all(store, lines)
            self.are_sent()
            relay.lines(b"last 1 1\n")
            self.has_all(store, [*lines, b"last 1 1"])
            self.over(relay)

    def test_what_comes_while_the_files_are_sent(self):
        """It comes behind them."""
        port, dest = self.away()
        lines = numbered(MANY)
        with self.diverting([dest]) as relay:
            self.send_many(relay, lines[:MANY // 2])
            store = self.store_at(port)
            self.send_many(relay, lines[MANY // 2:])
            self.has_all(store, lines)
            self.are_sent()
            self.assertEqual(self.dropped(relay), 0)
            self.over(relay)

    def test_a_store_that_reads_nothing(self):
        """It is as one that is away."""
        store, dest = self.store_that_reads_nothing()
        with self.diverting([dest]) as relay:
            self.send_many(relay, LONG)
            self.assertEqual(self.dropped(relay), 0)
            self.assertGreater(len(self.files()), 0)
            store.read_on()
            self.wait_for(lambda: store.size() >= len(text_of(LONG)), "the store has all")
            self.are_sent()
            whole = [line for taken in store.taken for line in bytes(taken).split(b"\n")[:-1]]
            self.assertEqual(whole, LONG)
            self.over(relay)

    def test_a_store_that_takes_slowly(self):
        """What it does not take in time goes over files."""
        store, dest = self.store_that_reads_nothing()
        done = threading.Event()
        with self.diverting([dest]) as relay:
            self.queued(relay, [b"first 1 1"])
            self.wait_for(store.is_connected, "it is connected")
            slow = store.begin(store.read_slowly, 0.01, done)
            self.send_many(relay, LONG)
            self.assertEqual(self.dropped(relay), 0)
            done.set()
            slow.join(LIMIT)
            store.read_on()
            self.are_sent()
            relay.lines(b"last 1 1\n")
            self.wait_for(lambda: b"last 1 1" in store.text(), "the last line has come")
            self.assertEqual(store.lines(), [b"first 1 1", *LONG, b"last 1 1"])
            self.over(relay)

    def test_many_outages(self):
        """Each is over in its turn."""
        port, dest = self.away()
        lines = numbered(5 * 12_000)
        came = []
        with self.diverting([dest]) as relay:
            for turn in range(5):
                part = lines[turn * 12_000:][:12_000]
                self.send_many(relay, part)
                store = Store(port).start()
                try:
                    self.has_all(store, part)
                    self.are_sent()
                finally:
                    store.stop()
                came += store.lines()
            self.assertEqual(self.dropped(relay), 0)
            self.assertEqual(came, lines)
            self.over(relay)

    def test_memory_does_not_grow_with_the_files(self):
        """More in files takes no more of it. Before that the histories are full."""
        _, dest = self.away()
        lines = numbered(MANY // 5)
        with self.diverting([dest]) as relay:
            for _ in range(4):
                self.send_many(relay, lines)
            before = relay.resident()
            for _ in range(5):
                self.send_many(relay, lines)
            self.assertLess(relay.resident() - before, 4 * 1_048_576)
            self.over(relay)


class Bounds(Diversion):
    """What has no room is dropped, and counted."""

    def test_the_size(self):
        """Files have no more; another destination has its share all the same."""
        (first, one), (second, other) = self.away(), self.away()
        rules = f"[a]\npattern = ^a\ndestinations = {one}\n[all]\ndefault = true\ndestinations = {other}\n"
        mine, others = [b"a" + line for line in LONG], numbered(3_000, b"z")
        with self.relay([one, other], rules, MAX_QUEUE_SIZE="2000",
                        options=("--spool", self.dir, "--spool-size", "1048576", "--log")) as relay:
            log = Log(relay.child.stderr)
            for begun in range(0, len(mine), 1_000):
                relay.lines(text_of(mine[begun:begun + 1_000]))
                self.wait_for(lambda count=begun + 1_000: relay.report()[0][1]["offered"] == count, "they were offered")
            self.assertGreater(self.dropped(relay), 0)
            for begun in range(0, len(others), 500):
                relay.lines(text_of(others[begun:begun + 500]))
                self.wait_for(lambda count=begun + 500: relay.report()[1][1]["offered"] == count, "they were offered")
            self.wait_for(lambda: any(b"spool full" in line for line in list(log.lines)), "the log says so")
            self.wait_for(lambda: any(b"relay spool " in line for line in list(log.lines)), "the log says how full they are")
            self.assertEqual(relay.report()[1][1]["dropped"], 0)
            self.assertLessEqual(sum(os.path.getsize(self.path(name)) for name in self.files()), 1_048_576)
            kept = [relay.report()[place][1]["kept"] for place in range(2)]
            stores = [self.store_at(port) for port in (first, second)]
            for store, lines, count in zip(stores, (mine, others), kept):
                self.wait_for(lambda it=store, count=count: len(it.lines()) >= count, "what was kept comes")
                came = store.lines()
                self.assertEqual(came, [line for line in lines if line in set(came)], "in order, once")
            self.are_sent()
            self.wait_for(lambda: any(b"spool sent" in line for line in list(log.lines)), "the log says so")
            relay.command(b"stop")
            relay.child.wait(LIMIT)
            log.thread.join(LIMIT)
        self.assertIn(b"spool begins", log.of(one))

    def test_the_folder_is_gone(self):
        """Nothing waits for it: drops are counted, and the others notice nothing."""
        _, dest = self.away()
        beside, = self.stores(1)
        lines = numbered(MANY)
        with self.diverting([dest, f"127.0.0.1:{beside.port}"]) as relay:
            shutil.rmtree(self.dir)
            for first in range(0, MANY, STEP):
                relay.lines(text_of(lines[first:first + STEP]))
                self.wait_for(lambda count=first + STEP: relay.report()[1][1]["kept"] == count, "all are queued")
            self.has_all(beside, lines)
            self.assertGreater(self.dropped(relay), 0)
            self.over(relay, status=3)
        os.mkdir(self.dir)

    def test_words(self):
        """A size needs a folder, and a megabyte."""
        port, dest = self.away()
        for words in (("--spool", self.dir, "--spool-size", "1048575"), ("--spool", self.dir, "--spool-size", "much"),
                      ("--spool-size", "1048576")):
            with self.subTest(words=words):
                ran = run(["run", "--config", "/dev/null", "--admin", str(port), *words])
                self.assertEqual(ran.status, 2)


class Ends(Diversion):
    """Kills, stops and reloads."""

    def test_a_kill(self):
        """What was in files comes after the next start; at most one piece twice."""
        port, dest = self.away()
        lines = numbered(MANY)
        with self.diverting([dest]) as relay:
            self.send_many(relay, lines)
            store = self.store_at(port)
            self.wait_for(lambda: store.size() > 1_000_000, "some has come")
            relay.child.send_signal(signal.SIGKILL)
            relay.child.wait(LIMIT)
        with self.diverting([dest]) as relay:
            self.are_sent()
            self.over(relay)
        came = store.lines()
        once = list(dict.fromkeys(came))
        self.assertEqual(once, lines[:len(once)], "in order, with no gap: only what was in memory is lost")
        self.assertGreaterEqual(len(text_of(once)) + 10_000 * len(lines[-1]) + INTAKE, len(text_of(lines)))
        self.assertLess(len(text_of(came)) - len(text_of(once)), PIECE + 256)

    def test_a_reload_in_each_state(self):
        """Diverting, returning and live: all come in order, once."""
        port, dest = self.away()
        lines = numbered(4 * 20_000)
        with self.diverting([dest]) as relay:
            self.send_many(relay, lines[:20_000])
            self.reloads(relay)
            self.send_many(relay, lines[20_000:40_000])
            store = self.store_at(port)
            self.reloads(relay)
            self.send_many(relay, lines[40_000:60_000])
            self.has_all(store, lines[:60_000])
            self.are_sent()
            self.reloads(relay)
            self.send_many(relay, lines[60_000:])
            self.has_all(store, lines)
            self.assertEqual(self.dropped(relay), 0)
            self.over(relay)

    def reloads(self, relay):
        """It takes its files anew."""
        self.assertEqual(self.run_words(["reload", "--admin", str(relay.admin)]).status, 0)

    def test_reloads_while_the_files_are_sent(self):
        """The connection of the files goes on."""
        port, dest = self.away()
        lines = numbered(MANY)
        with self.diverting([dest]) as relay:
            self.send_many(relay, lines)
            store = self.store_at(port)
            for _ in range(5):
                self.reloads(relay)
            self.has_all(store, lines)
            self.are_sent()
            self.over(relay)

    def test_a_stop_and_a_restart_in_each_state(self):
        """The same."""
        port, dest = self.away()
        lines = numbered(3 * 20_000)
        for turn in range(2):
            with self.diverting([dest], "--log") as relay:
                log = Log(relay.child.stderr)
                self.send_many(relay, lines[turn * 20_000:][:20_000])
                self.over(relay)
                log.thread.join(LIMIT)
            self.assertIn(b"relay stopped, 0 datapoints not sent\n", log.lines)
        store = self.store_at(port)
        with self.diverting([dest]) as relay:
            self.send_many(relay, lines[40_000:])
            self.has_all(store, lines)
            self.are_sent()
            self.over(relay)

    def test_a_restart_without_the_size(self):
        """The files are sent all the same."""
        port, dest = self.away()
        lines = numbered(MANY)
        with self.diverting([dest]) as relay:
            self.send_many(relay, lines)
            self.over(relay)
        store = self.store_at(port)
        with self.spooling([dest]) as relay:
            self.has_all(store, lines)
            self.are_sent()
            self.over(relay)

    def test_a_drain(self):
        """What goes out before a stop is over is not kept."""
        store, = self.stores(1)
        lines = numbered(MANY)
        with self.diverting([f"127.0.0.1:{store.port}"], "--drain", "20") as relay:
            self.send_many(relay, lines)
            self.over(relay)
        self.has_all(store, lines)
        self.assertEqual(self.files(), [])
