"""`relayd watch`: the datapoints that pass through a running relay."""

import contextlib
import json
import os
import pickle
import signal
import socket
import threading
import time

from cases.status import Serving
from fixtures.answering import answering
from fixtures.harness import LIMIT, Ran, held, run
from fixtures.reloading import Reloads
from fixtures.running import frame
from fixtures.stores import free_ports

REWRITE = "[pre]\n^gone =\n^moved = both\n"
SECOND = 1_000      # datapoints that are shown of one second
SILENCE = 3         # seconds for which a watch goes on that nobody asks
AWAY = "127.0.0.1:1"
BURST = 20_000      # datapoints
CONNECTIONS = 200
LOAD = 300_000      # datapoints
NAMES = 1_000       # of these
OVER = b"over\n"
ANOTHER = b"refused another watch is open\n"


def rules(first, second):
    """Rules by which some names go to two destinations, some to one and some to none."""
    return (f"[both]\npattern = ^both\ndestinations = {first}, {second}\n[none]\npattern = ^none\ndestinations = h:9\n"
            f"[rest]\ndefault = true\ndestinations = {first}\n")


class Watches(Reloads):
    """A relay with two stores, and its files."""

    @contextlib.contextmanager
    def watched(self, options=(), dests=None, **changed):
        """The relay, with two destinations."""
        dests = dests or [f"127.0.0.1:{store.port}" for store in self.stores(2)]
        self.write("rewriting", REWRITE)
        with self.running(dests, rules(*dests), options=("--rewrite", self.path("rewriting"), *options), **changed) as relay:
            relay.dests = dests
            yield relay
            if relay.child.poll() is None:
                self.stops(relay, rb"(settled|sealed \d+)\n")

    def opened(self, relay, text=b"lines"):
        """The number of a watch that the relay opens."""
        answer = relay.command(b"watch " + text)
        self.assertRegex(answer, rb"\Awatching \d+\n\Z")
        return answer.split()[1]

    def gathered(self, relay, number, word=b"next"):
        """What a watch has gathered: its counts, and its lines."""
        first, *lines = relay.command(b"watch %s %s" % (word, number)).splitlines()
        word, *counts = first.split(b" ")
        self.assertEqual((word, int(counts[0])), (b"watched", len(lines)))
        return list(map(int, counts[1:])), lines

    def seen(self, relay, number, count):
        """So many lines of a watch, and its counts then."""
        lines, counts, end = [], [], time.monotonic() + LIMIT
        while len(lines) < count and time.monotonic() < end:
            counts, more = self.gathered(relay, number)
            lines += more
            time.sleep(0.02)
        self.assertEqual(len(lines), count, lines[:5])
        return lines, counts

    def ends(self, relay, number):
        """The last counts of a watch, which is over then."""
        counts, lines = self.gathered(relay, number, b"end")
        self.assertEqual(lines, [])
        self.assertEqual(relay.command(b"watch next " + number), OVER)
        return counts

    def client(self, relay, *words):
        """The command, which runs."""
        return held(("watch", "--admin", str(relay.admin), *words))

    def sends_until(self, relay, child, text):
        """Sends lines again and again until the client has shown one, and gives that."""
        os.set_blocking(child.stdout.fileno(), False)
        got, end = b"", time.monotonic() + LIMIT
        while b"\n" not in got and time.monotonic() < end and child.poll() is None:
            relay.lines(text)
            time.sleep(0.1)
            with contextlib.suppress(BlockingIOError):
                got += child.stdout.read(1 << 16) or b""
        os.set_blocking(child.stdout.fileno(), True)
        return got.partition(b"\n")[0]


class Watch(Watches):
    """What is seen."""

    def test_each_receiver(self):
        """The receiver, the address, the line as it was read, the new name, and what became of it at each destination."""
        with self.watched() as relay:
            first, second = (dest.encode() for dest in relay.dests)
            number = self.opened(relay)
            sent = b"both.a\t1.50  1700000000 \nmoved.b 2 1700000001\r\ngone 3 1\nnone.d 4 2\nbad\n\ne;x=y 5e0 3\n"
            relay.lines(sent)
            where = b"line\t127.0.0.1\t"
            expected = [where + b"both.a\\x091.50  1700000000\tboth.a\t%s kept\t%s kept" % (first, second),
                        where + b"moved.b 2 1700000001\tboth.b\t%s kept\t%s kept" % (first, second),
                        where + b"gone 3 1\tdropped", where + b"none.d 4 2\tnone.d",
                        where + b"e;x=y 5e0 3\te;x=y\t%s kept" % first]
            self.assertEqual(self.seen(relay, number, 5)[0], expected)
            relay.pickles(pickle.dumps([("moved.p", (1700000000, 1.5)), ("bad name", (1, 1)), ("q", (2, 7))], 2))
            where = b"pickle\t127.0.0.1\t"
            self.assertEqual(self.seen(relay, number, 2)[0],
                             [where + b"moved.p 1.5 1700000000\tboth.p\t%s kept\t%s kept" % (first, second),
                              where + b"q 7 2\tq\t%s kept" % first])
            relay.datagram(b"a 1 2\x0bb 3 4")
            where = b"udp\t127.0.0.1\t"
            lines, counts = self.seen(relay, number, 2)
            self.assertEqual(lines, [where + b"a 1 2\ta\t%s kept" % first, where + b"b 3 4\tb\t%s kept" % first])
            self.assertEqual(counts, [9, 0, 0, 0, 0])
            self.assertEqual(self.ends(relay, number), [9, 0, 0, 0, 0])

    def test_as_json(self):
        """The same as objects."""
        with self.watched() as relay:
            number = self.opened(relay, b"json")
            relay.lines("both.\u00e4\" 1 2\ngone 3 4\n".encode())
            lines, _ = self.seen(relay, number, 2)
            kept = [{"destination": dest, "kept": True} for dest in relay.dests]
            where = {"receiver": "line", "producer": "127.0.0.1"}
            self.assertEqual([json.loads(line) for line in lines],
                             [where | {"line": "both.\u00e4\" 1 2", "rewritten": "both.\u00e4\"", "destinations": kept},
                              where | {"line": "gone 3 4", "rewritten": None, "destinations": []}])

    def test_several_receivers_of_lines(self):
        """Each has its own name, and whole connections."""
        with self.watched(options=("--line-receivers", "2")) as relay:
            number = self.opened(relay)
            for place in range(8):
                relay.lines(b"a.%d 1 2\n" % place)
            lines, _ = self.seen(relay, number, 8)
            self.assertLessEqual({line.partition(b"\t")[0] for line in lines}, {b"line 0", b"line 1"})

    def test_kept_and_dropped(self):
        """What finds the queue full is dropped."""
        with self.watched(dests=[AWAY, "127.0.0.1:2"], MAX_QUEUE_SIZE="10") as relay:
            number = self.opened(relay)
            relay.lines(b"a 1 2\n" * 30)
            lines, _ = self.seen(relay, number, 30)
            ends = [line.rpartition(b" ")[2] for line in lines]
            self.assertEqual(ends, [b"kept"] * 10 + [b"dropped"] * 20)

    def test_pattern(self):
        """It is found in the name before rewriting or after, anywhere in it; case counts."""
        with self.watched() as relay:
            sent = b"both.y 1 2\nmoved.x 1 2\nother 1 2\n"
            for pattern, found in ((b"^moved", [b"moved.x"]), (b"^both", [b"both.y", b"moved.x"]), (b"\\.x$", [b"moved.x"]),
                                   (b"ONE", []), (b"(?i)OTH|zz z", [b"both.y", b"moved.x", b"other"])):
                with self.subTest(pattern):
                    before = relay.totals()["offered"]
                    number = self.opened(relay, b"lines find " + pattern)
                    relay.lines(sent)
                    self.wait_for(lambda count=before + 5: relay.totals()["offered"] == count, "the relay has read that")
                    lines, _ = self.seen(relay, number, len(found))
                    self.assertEqual([line.split(b"\t")[2] for line in lines], [name + b" 1 2" for name in found])
                    self.ends(relay, number)
            self.assertEqual(relay.command(b"watch lines find ("), b"refused not a pattern\n")

    def test_destination(self):
        """Only what goes there."""
        with self.watched() as relay:
            second = relay.dests[1].encode()
            number = self.opened(relay, b"lines to %s find b" % second)
            relay.lines(b"b.1 1 2\nboth.2 1 2\nmoved.3 1 2\nboth.c 1 2\n")
            lines, _ = self.seen(relay, number, 3)
            self.assertEqual([line.split(b"\t")[2] for line in lines], [b"both.2 1 2", b"moved.3 1 2", b"both.c 1 2"])
            self.ends(relay, number)
            self.assertEqual(relay.command(b"watch lines to h:9"), b"refused no such destination\n")

    def test_cut_anywhere(self):
        """Lines and frames that come in pieces; of those that had begun before, nothing is seen but what follows."""
        with self.watched() as relay, contextlib.ExitStack() as stack:
            line, pickles = (stack.enter_context(socket.create_connection(("127.0.0.1", port), LIMIT))
                             for port in (relay.line, relay.pickle))
            rows = frame(pickle.dumps([("both.row", (2, 1)), ("row", (3, 1))], 2))
            line.sendall(b"old 1 2\nboth.begun 1")
            pickles.sendall(rows + rows[:20])
            self.wait_for(lambda: relay.totals()["offered"] == 4, "the relay has read that")
            number = self.opened(relay)
            line.sendall(b" 2\nmoved.next 1 2\nboth.la")
            pickles.sendall(rows[20:] + rows[:9])
            lines, _ = self.seen(relay, number, 1)
            self.assertIn(b"moved.next 1 2\tboth.next", lines[0])
            line.sendall(b"st 1 ")
            pickles.sendall(rows[9:])
            lines, _ = self.seen(relay, number, 2)
            self.assertEqual([it.split(b"\t")[2] for it in lines], [b"both.row 1 2", b"row 1 3"])
            line.sendall(b"2\n")
            lines, counts = self.seen(relay, number, 1)
            self.assertEqual(lines[0].split(b"\t")[2:4], [b"both.last 1 2", b"both.last"])
            self.assertEqual(counts[1:], [0, 0, 0, 0])

    def test_many_connections(self):
        """Each line is shown once, from whichever connection it comes, and in several pieces too."""
        with self.watched() as relay, contextlib.ExitStack() as streams:
            producers = [streams.enter_context(socket.create_connection(("127.0.0.1", relay.line), LIMIT)) for _ in range(CONNECTIONS)]
            number = self.opened(relay)
            for producer in producers:
                producer.sendall(b"connection.")
            for place, producer in enumerate(producers):
                producer.sendall(b"%d 1 1700000000\n" % place)
            lines, counts = self.seen(relay, number, CONNECTIONS)
            self.assertEqual(sorted(line.split(b"\t")[2] for line in lines),
                             sorted(b"connection.%d 1 1700000000" % place for place in range(CONNECTIONS)))
            self.assertEqual(counts, [CONNECTIONS, 0, 0, 0, 0])
            self.ends(relay, number)

    def test_more_than_a_thousand(self):
        """What is more than a thousand in a second is counted."""
        with self.watched() as relay:
            number = self.opened(relay)
            relay.lines(b"a 1 2\n" * BURST)
            lines, counts, end = [], [0], time.monotonic() + LIMIT
            while counts[0] < BURST and time.monotonic() < end:
                counts, more = self.gathered(relay, number)
                lines += more
            self.assertEqual(counts, [BURST, BURST - len(lines), 0, 0, 0])
            self.assertGreaterEqual(len(lines), SECOND)
            self.assertLess(len(lines), BURST)


class Asked(Watches):
    """Who watches, and for how long."""

    def test_one_at_a_time(self):
        """A second one is refused, by name."""
        with self.watched() as relay:
            number = self.opened(relay)
            self.assertEqual(relay.command(b"watch names 2"), ANOTHER)
            ran = run(("watch", "--admin", str(relay.admin)))
            self.assertEqual(ran, Ran(3, b"", b"relayd: watch: another watch is open\n"))
            self.ends(relay, number)
            self.ends(relay, self.opened(relay, b"names 2"))

    def test_a_client_that_is_gone(self):
        """Its watch ends once it has asked nothing for three seconds."""
        with self.watched() as relay:
            with self.client(relay) as child:
                self.assertIn(b"a 1 2", self.sends_until(relay, child, b"a 1 2\n"))
                child.send_signal(signal.SIGKILL)
            began = time.monotonic()
            self.assertEqual(relay.command(b"watch lines"), ANOTHER)
            self.wait_for(lambda: relay.command(b"watch lines").startswith(b"watching"), "the watch is over")
            self.assertGreater(time.monotonic() - began, SILENCE / 2)

    def test_what_is_not_asked(self):
        """What is no question is no command; a number that is of no watch is over."""
        with self.watched() as relay:
            for text in (b"watch", b"watch ", b"watch lines ", b"watch line", b"watch lines x", b"watch names", b"watch names x",
                         b"watch next", b"watch next x", b"watch end -1", b"watch lines find \xff", b"watches lines"):
                with self.subTest(text):
                    answer = relay.command(text)
                    self.assertEqual(answer, b"unknown command\n" if text != b"watch lines " else answer)
                    if answer.startswith(b"watching"):
                        self.ends(relay, answer.split()[1])
            for text in (b"next 0", b"next 77", b"end 77"):
                self.assertEqual(relay.command(b"watch " + text), OVER)
            for text in (b"names 0", b"names 65"):
                self.assertEqual(relay.command(b"watch " + text), b"refused 1 to 64 parts\n")

    def test_with_a_key(self):
        """It needs the key, as all commands do."""
        path = self.write("key", "k" * 20 + "\n")
        os.chmod(path, 0o600)
        with self.watched(options=("--admin-key", path)) as relay:
            wrong = Ran(3, b"", b"relayd: admin: 127.0.0.1:%d: wrong key\n" % relay.admin)
            self.assertEqual(run(("watch", "--admin", str(relay.admin))), wrong)
            self.assertEqual(relay.command(b"watch lines"), b"wrong key\n")
            with self.client(relay, "--admin-key", path, "--lines", "1") as child:
                self.assertIn(b"a 1 2", self.sends_until(relay, child, b"a 1 2\n"))
                self.assertEqual(child.wait(LIMIT), 0)
            self.stops_by_command(relay, "--admin-key", path)

    def test_the_client(self):
        """It ends after so many lines, or seconds, and says what it has seen."""
        with self.watched() as relay:
            with self.client(relay, "--lines", "1", "--json", "^a") as child:
                found = json.loads(self.sends_until(relay, child, b"b 1 2\na 1 2\n"))
                self.assertEqual(found["line"], "a 1 2")
                self.assertEqual(child.wait(LIMIT), 0)
                self.assertRegex(child.stderr.read(), rb"\Arelayd: watch: \d+ datapoints\n\Z")
            ran = run(("watch", "--admin", str(relay.admin), "--seconds", "1"))
            self.assertEqual(ran, Ran(0, b"", b"relayd: watch: 0 datapoints\n"))
            for words, why in ((("(",), b"not a pattern"), (("--dest", "h:9"), b"no such destination")):
                ran = run(("watch", "--admin", str(relay.admin), *words))
                self.assertEqual(ran, Ran(1, b"", b"relayd: watch: %s\n" % why))

    def test_no_relay(self):
        """An older relay does not know the command; others answer as no relay does, or not."""
        for answer, fault in ((b"unknown command\n", b"unknown command"), (b"", b"no answer"), (b"watching 1", b"answer cut off"),
                              (b"watchi", b"answer cut off"), (b"a h:1\n", b"no relay"), (b"over\n", b"no relay"),
                              (b"watched 0 0 0 0 0 0\n", b"no relay")):
            with self.subTest(answer), answering(lambda stream, answer=answer: stream.sendall(answer)) as port:
                expected = Ran(3, b"", b"relayd: admin: 127.0.0.1:%d: %s\n" % (port, fault))
                self.assertEqual(run(("watch", "--admin", str(port))), expected)

    def test_words(self):
        """What it takes."""
        for words in ((), ("--admin", "0")):
            self.assertEqual(run(("watch", *words)).status, 2)
        for words in (("--names", "0"), ("--names", "65"), ("--lines", "0"), ("--seconds", "3601"), ("--names", "2", "a"),
                      ("a", "b"), ("--names", "2", "--dest", "h:1")):
            with self.subTest(words):
                self.assertEqual(run(("watch", "--admin", "1", *words)).status, 2)

    def test_a_reload_and_a_stop(self):
        """It goes on by the new configuration; with the relay it ends."""
        with self.watched() as relay:
            first, second = relay.dests
            with self.client(relay) as child:
                self.assertIn(first.encode(), self.sends_until(relay, child, b"a 1 2\n"))
                self.write("rules", rules(second, first))
                self.assertEqual(self.reload(relay).status, 0)
                end = time.monotonic() + LIMIT
                while second.encode() not in self.sends_until(relay, child, b"a 1 2\n") and time.monotonic() < end:
                    pass
                self.stops(relay, rb"(settled|sealed \d+)\n")
                self.assertEqual(child.wait(LIMIT), 3)
                err = child.stderr.read()
                self.assertIn(b"; the relay began another run\n", err)
                self.assertIn(b"relayd: admin: 127.0.0.1:%d: " % relay.admin, err)

    def test_full_load(self):
        """All datapoints arrive while one watches, and each is shown, counted or missed."""
        stores = self.stores(2)
        text = b"".join(b"n.%d %d 1700000000\n" % (place % NAMES, place) for place in range(LOAD))
        with self.watched(dests=[f"127.0.0.1:{store.port}" for store in stores], MAX_QUEUE_SIZE="1000000") as relay:
            number = self.opened(relay, b"lines find \\.7$")
            done = threading.Event()
            lines, counts = [], []

            def ask():
                while not done.wait(0.1):
                    counts[:], more = self.gathered(relay, number)
                    lines.extend(more)

            asking = threading.Thread(target=ask)
            asking.start()
            try:
                relay.lines(text)
                self.wait_for(lambda: relay.totals()["taken"] == LOAD, "all were taken")
                time.sleep(0.5)
            finally:
                done.set()
                asking.join(LIMIT)
            self.wait_for(lambda: len(stores[0].lines()) == LOAD, "all arrived")
            self.assertEqual(sorted(stores[0].lines()), sorted(text.splitlines()))
            self.assertEqual(counts[0] - counts[1], len(lines))
            if counts[2:] == [0, 0, 0]:
                self.assertEqual(counts[0], LOAD // NAMES)


class Names(Watches):
    """The first parts of names."""

    def test_the_greatest(self):
        """How often each comes; those with fewer parts, and tags."""
        with self.watched() as relay:
            number = self.opened(relay, b"names 2")
            relay.lines(b"a.b.c 1 2\na.b.d 1 2\na.b 1 2\nmoved 1 2\nx;t=a.b.c 1 2\nbad\n")
            relay.datagram(b"a.c 1 2\n")
            self.wait_for(lambda: self.gathered(relay, number)[0][0] == 6, "all were counted")
            counts, lines = self.gathered(relay, number, b"end")
            self.assertEqual(counts, [6, 4, 0, 0, 0])
            self.assertEqual((lines[0], sorted(lines[1:])), (b"3 0 a.b", [b"1 0 a.c", b"1 0 moved", b"1 0 x"]))

    def test_more_than_are_counted(self):
        """A name that comes often is there, whatever else comes; its error says how much of its count may be of others."""
        with self.watched() as relay:
            number = self.opened(relay, b"names 2")
            text = b"".join(b"n.%d 1 2\n" % place + (b"great.one 1 2\n" if place % 3 == 0 else b"") for place in range(6_000))
            relay.lines(text)
            self.wait_for(lambda: self.gathered(relay, number)[0][0] == 8_000, "all were counted")
            counts, lines = self.gathered(relay, number, b"end")
            self.assertEqual((counts[1] >= 6_001, len(lines)), (True, 1_000))
            found = {name: (int(count), int(error)) for count, error, name in (line.split() for line in lines)}
            count, error = found[b"great.one"]
            self.assertLessEqual(count - error, 2_000)
            self.assertGreaterEqual(count, 2_000)
            self.assertEqual(lines[0].split()[2], b"great.one")

    def test_the_client(self):
        """It shows the greatest, as lines or objects."""
        with self.watched() as relay:
            for words, first in (((), b"%12d a" % 3), (("--json",), b'{"name":"a","datapoints":3,"too_many_at_most":0}')):
                with self.subTest(words), self.client(relay, "--names", "1", "--lines", "1", "--seconds", "2", *words) as child:
                    self.wait_for(lambda: relay.command(b"watch names 0") == ANOTHER or child.poll() is not None, "it watches")
                    relay.lines(b"a.b 1 2\na.c 1 2\nb 1 2\na 1 2\n")
                    out, err = child.communicate(timeout=LIMIT)
                    self.assertEqual((out, err), (first + b"\n", b"relayd: watch: 4 datapoints, 2 names new\n"))


class Card(Serving):
    """The card of a destination that loses datapoints."""

    def offered(self, relay):
        """How many datapoints were kept or dropped."""
        return sum(dest["kept"] + dest["dropped"] for dest in json.loads(self.ask(relay, "/status.json")[2])["destinations"])

    def test_the_command(self):
        """It has the command that shows what goes there, which runs as it is."""
        dests = [f"127.0.0.1:{port}:a" for port in free_ports(2)]
        key = os.path.join(os.fspath(self.folder), "key")
        with open(key, "w", encoding="ascii") as file:
            file.write("k" * 20 + "\n")
        os.chmod(key, 0o600)
        for options, words in (((), ""), (("--admin-key", key), " --admin-key FILE")):
            lost = "[all]\ndefault = true\ndestinations = {}\n".format(dests[1])
            with self.subTest(words), self.serving(dests, options=options, rules=lost, MAX_QUEUE_SIZE="10") as relay:
                command = f"relayd watch --admin {relay.admin}{words} --dest {dests[1]}"
                sent = []

                def page():
                    sent.append(relay.lines(b"a 1 2\n" * 50))
                    return self.ask(relay, "/")[2]

                self.wait_for(lambda: f">{command}</code>" in page(), f"it says {command}")
                self.assertNotIn(f"--dest {dests[0]}", page())
                self.wait_for(lambda: self.offered(relay) == 50 * len(sent), "all are offered")
                words = command.replace("FILE", key).split()[1:]
                self.assertEqual(run((*words, "--seconds", "1"))[::2], (0, b"relayd: watch: 0 datapoints\n"))
                self.assertEqual(run(("stop", "--wait", "--admin", str(relay.admin), *options)).status, 0)
