"""Destinations that a reload adds, removes and brings back."""

import contextlib
import os
import socket
import threading
import time

from fixtures.harness import LIMIT
from fixtures.reloading import ALL, FOREVER, LONG, Reloads, numbered, text_of
from fixtures.stores import Store, free_ports


class Gone(Reloads):
    """Destinations that one configuration has and the next one has not."""

    def test_a_destination_more_and_less(self):
        """A rule sends to a new store, and no more once it is gone; the log says what changed."""
        one, two = self.stores(2)
        names = [f"127.0.0.1:{store.port}" for store in (one, two)]
        rules = f"[two]\npattern = ^b\ndestinations = {names[1]}\n" + ALL.format(names[0])
        with self.running(names[:1]) as relay, socket.create_connection(("127.0.0.1", relay.line), LIMIT) as producer:
            producer.sendall(b"a.1 1 1700000000\nb.1 1 1700000000\n")
            self.wait_for(lambda: len(one.lines()) == 2, "both lines have come")
            self.reloads(relay, names, rules)
            producer.sendall(b"a.2 1 1700000000\nb.2 1 1700000000\n")
            self.wait_for(lambda: two.lines() == [b"b.2 1 1700000000"], "one line has come to the new store")
            self.reloads(relay, names[:1])
            producer.sendall(b"a.3 1 1700000000\nb.3 1 1700000000\n")
            self.wait_for(lambda: len(one.lines()) == 5, "the others have come to the old one")
            self.assertEqual(two.lines(), [b"b.2 1 1700000000"])
            self.stops(relay)
        said = [line for line in relay.log.lines if line.startswith((b"relay reloaded", b"run "))]
        self.assertEqual(said, [
            b"relay reloaded: destination %s added, rules changed\n" % names[1].encode(), b"run 1: settled\n",
            b"relay reloaded: destination %s gone, rules changed\n" % names[1].encode(), b"run 2: settled\n"])

    @contextlib.contextmanager
    def without_one(self):
        """A relay behind a reload that removed the first of its two stores. Neither reads, and most lines wait for each."""
        stores = self.stores(2, reads=False, room=4096)
        names = [f"127.0.0.1:{store.port}" for store in stores]
        with self.running(names, options=("--drain", FOREVER), MAX_QUEUE_SIZE="100000") as relay:
            relay.lines(text_of(LONG))
            self.wait_for(lambda: all(counts["kept"] == len(LONG) for _, counts in relay.report()), "all is queued")
            self.wait_for(stores[0].is_connected, "it is connected")
            self.reloads(relay, names[1:], MAX_QUEUE_SIZE="100000")
            yield relay, *stores, names

    def test_a_gone_destination_gets_all(self):
        """What was held for it is sent as far as --drain allows."""
        with self.without_one() as (relay, slow, other, names):
            self.assertEqual([name for name, _ in relay.report()], names[1:])
            slow.read_on()
            self.wait_for(lambda: len(slow.lines()) == len(LONG), "all lines have come")
            self.assertEqual(slow.lines(), LONG)
            self.wait_for(lambda: b"gone, 0 datapoints not sent" in relay.log.of(names[0]), "the log says so")
            other.read_on()
            self.stops(relay)
            self.wait_for(lambda: len(other.lines()) == len(LONG), "the other one has all")

    def test_a_gone_destination_is_spooled_or_counted(self):
        """Without --drain nothing more is sent: files keep what was held, or it is counted."""
        port, = free_ports(1)
        there, = self.stores(1)
        names = [f"127.0.0.1:{port}", f"127.0.0.1:{there.port}"]
        lines = numbered(100)
        folder = self.path("spool")
        os.mkdir(folder)
        for options, said in (((), b"gone, 100 datapoints not sent"), (("--spool", folder), b"gone, 100 datapoints spooled")):
            with self.subTest(options), self.running(names, options=options) as relay:
                relay.lines(text_of(lines))
                self.wait_for(lambda: relay.report()[0][1]["kept"] == 100, "all lines are queued")
                self.reloads(relay, names[1:])
                self.wait_for(lambda: said in relay.log.of(names[0]), "the log says so")
                self.stops(relay)
        with open(os.path.join(folder, names[0]), "rb") as file:
            self.assertEqual(file.read(), text_of(lines))

    def test_a_stop_does_not_wait_for_a_gone_destination(self):
        """Neither for one that is down, nor for one that takes nothing: as for those that are not gone."""
        for is_down in (True, False):
            with self.subTest(is_down):
                self.gets_below(4.0, lambda: self.stopped_without(is_down))

    def stopped_without(self, is_down):
        """How long a stop takes while a gone destination that is down, or takes nothing, has something left."""
        there, stuck = self.stores(2, reads=False, room=4096)
        port = free_ports(1)[0] if is_down else stuck.port
        names = [f"127.0.0.1:{port}", f"127.0.0.1:{there.port}"]
        there.read_on()
        with self.running(names, options=("--drain", "20"), MAX_QUEUE_SIZE="100000") as relay:
            relay.lines(text_of(LONG))
            self.wait_for(lambda: relay.report()[0][1]["kept"] == len(LONG), "all is queued")
            self.reloads(relay, names[1:], MAX_QUEUE_SIZE="100000")
            self.wait_for(lambda: len(there.lines()) == len(LONG), "the other store has all")
            began = time.monotonic()
            self.stops(relay)
            took = time.monotonic() - began
            self.assertTrue(any(line.startswith(b"gone, ") for line in relay.log.of(names[0])))
        return took

    def test_a_stop_waits_for_a_gone_destination_that_takes_slowly(self):
        """It gets all before the relay ends."""
        with self.without_one() as (relay, slow, other, names):
            other.read_on()
            slowly = threading.Event()
            reader = threading.Thread(target=slow.read_slowly, args=(0.05, slowly))
            reader.start()
            self.assertEqual(relay.command(b"stop"), b"stopping\n")
            self.assertEqual(relay.child.wait(LIMIT), 0)
            slowly.set()
            reader.join(LIMIT)
            slow.read_on()
            self.wait_for(lambda: len(slow.lines()) == len(LONG), "it has all")
            self.assertEqual(slow.lines(), LONG)
            relay.log.thread.join(LIMIT)
            self.assertEqual(relay.log.of(names[0])[-1], b"gone, 0 datapoints not sent")

    def test_a_gone_destination_returns(self):
        """With the next reload it has what was still held for it, and its connection."""
        with self.without_one() as (relay, slow, other, names):
            other.read_on()
            self.reloads(relay, names, MAX_QUEUE_SIZE="100000")
            relay.lines(text_of(numbered(10, b"later")))
            self.wait_for(lambda: relay.report()[0][1]["offered"] >= 10, "more is queued")
            counts = relay.report()[0][1]
            self.assertEqual(counts["kept"], counts["queued"] + counts["taken"])
            self.assertEqual(counts["offered"], counts["kept"] + counts["dropped"])
            slow.read_on()
            self.wait_for(lambda: len(slow.lines()) == len(LONG) + 10, "all lines have come")
            self.assertEqual(slow.lines(), LONG + numbered(10, b"later"))
            self.assertEqual(slow.connections(), 1)
            self.stops(relay)


class Returns(Reloads):
    """Destinations that one reload removes and a later one brings back, with --spool: files keep what was not sent."""

    def setUp(self):
        super().setUp()
        self.spool = self.path("spool")
        os.mkdir(self.spool)
        self.there, = self.stores(1)
        self.port, = free_ports(1)
        self.names = [f"127.0.0.1:{self.there.port}", f"127.0.0.1:{self.port}"]

    def keeping(self, *options):
        """A relay that keeps in the folder what it does not send."""
        return self.running(self.names, options=("--spool", self.spool, *options))

    def sends(self, relay, lines):
        """These lines are queued for both."""
        before = relay.report()[1][1]["kept"]
        relay.lines(text_of(lines))
        self.wait_for(lambda: relay.report()[1][1]["kept"] == before + len(lines), "all lines are queued")

    def goes(self, relay, waits=True):
        """The second destination is removed, and all of it is over, if somebody is to wait for that."""
        before = len(relay.log.of(self.names[1]))
        self.reloads(relay, self.names[:1])
        if waits:
            self.wait_for(lambda: any(line.startswith(b"gone, ") for line in relay.log.of(self.names[1])[before:]),
                          "it is gone")

    def kept(self):
        """The lines of its file."""
        with open(os.path.join(self.spool, self.names[1]), "rb") as file:
            return file.read().splitlines()

    def store(self):
        """Its store, from now on."""
        store = Store(self.port)
        self.addCleanup(store.stop)
        return store.start()

    def test_a_store_that_is_away(self):
        """Each time that it is removed and comes back its file keeps all, in order, and so does the next stop."""
        lines = numbered(400)
        for drain, senders in (("0", "1"), ("0", "2"), (FOREVER, "1"), (FOREVER, "2")):
            with self.subTest(drain=drain, senders=senders):
                with self.keeping("--drain", drain, "--senders", senders) as relay:
                    self.sends(relay, lines[:100])
                    for turn in range(1, 4):
                        self.goes(relay, waits=drain == "0")
                        self.reloads(relay, self.names)
                        self.sends(relay, lines[turn * 100:][:100])
                    self.stops(relay)
                self.assertEqual(self.kept(), lines)
                os.remove(os.path.join(self.spool, self.names[1]))

    def test_a_store_that_was_connected(self):
        """It was removed with nothing left. Once it is back, and then away, the stop keeps what is queued."""
        for senders in ("1", "2"):
            with self.subTest(senders), self.keeping("--senders", senders) as relay:
                store = self.store()
                relay.lines(b"a 1 1700000000\n")
                self.wait_for(lambda: store.lines() == [b"a 1 1700000000"], "the line has come")
                self.goes(relay)
                self.reloads(relay, self.names)
                self.wait_for(lambda: store.connections() == 2, "it is connected again")
                store.stop()
                self.wait_for(lambda: relay.log.of(self.names[1])[-1].startswith((b"lost", b"cannot connect")), "it is lost")
                self.sends(relay, numbered(100))
                self.stops(relay)
            self.assertEqual(self.kept(), numbered(100))
            os.remove(os.path.join(self.spool, self.names[1]))

    def test_the_file_comes_first(self):
        """What the file got when the destination went is sent on its return, before newer lines, and the file goes."""
        lines = numbered(300)
        with self.keeping() as relay:
            self.sends(relay, lines[:100])
            self.goes(relay)
            self.assertEqual(self.kept(), lines[:100])
            self.reloads(relay, self.names)
            self.sends(relay, lines[100:200])
            self.goes(relay)
            self.assertEqual(self.kept(), lines[:200])
            store = self.store()
            self.reloads(relay, self.names)
            relay.lines(text_of(lines[200:]))
            self.wait_for(lambda: len(store.lines()) == 300, "all lines have come")
            self.assertEqual(store.lines(), lines)
            self.wait_for(lambda: os.listdir(self.spool) == ["~lock"], "the file is gone")
            self.stops(relay)
        self.assertEqual(os.listdir(self.spool), ["~lock"])

    def test_a_stop_with_nothing_left(self):
        """It takes no longer than without a return."""
        def waited():
            with self.keeping() as relay:
                store = self.store()
                self.wait_for(store.is_connected, "it is connected")
                self.goes(relay)
                self.reloads(relay, self.names)
                self.wait_for(lambda: store.connections() == 2, "it is connected again")
                began = time.monotonic()
                self.stops(relay)
                store.stop()
                return time.monotonic() - began

        self.gets_below(2.0, waited)
