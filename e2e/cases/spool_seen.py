"""What waits in the files of `relayd run --spool DIR` is shown: on the page, in JSON, metrics, report and log."""

import http.client
import json
import os
import re
import threading
import time

from fixtures.log import Log
from fixtures.running import COMMAND_TRIES, shown
from fixtures.spooling import ALL, LONG, WithSpool, numbered, text_of
from fixtures.stores import Store, free_ports

COUNT = 1_500
LINES = numbered(COUNT)
MANY = LONG * 3                        # one part, and more than a store that reads nothing takes
PARTS = numbered(160_000, b"p" * 200)  # two parts and some
AGE = 185                              # seconds
WAITS = re.compile(r"relayd_destination_spool_(\w+)\{destination=\"([^\"]*)\"\} (\d+)")
MEMBERS = ("datapoints", "bytes", "age_seconds")
OTHERS = ("datapoints_per_second", "room_bytes", "full")
NOTHING = (0, 0, 0)
WELL = "all well: 0 a second in, 0 out, nothing queued"


class WithSight(WithSpool):
    """A subject that looks at what a relay shows of its files."""

    def status_of(self, port, path):
        """What the status server has at a path."""
        for _ in range(COMMAND_TRIES):
            client = http.client.HTTPConnection("127.0.0.1", port)
            try:
                client.request("GET", path)
                return client.getresponse().read().decode()
            except ConnectionError:
                continue
            finally:
                client.close()
        return self.fail(f"{path} is not answered")

    def waiting(self, port, place=0):
        """The datapoints, the bytes and the age that JSON has of a destination."""
        dest = shown(port)["destinations"][place]
        return tuple(dest[f"spool_{member}"] for member in MEMBERS)

    def rate(self, port):
        """How many datapoints of its file go out in a second, by JSON."""
        return shown(port)["destinations"][0]["spool_datapoints_per_second"]

    def waits(self, port, lines):
        """Waits until JSON has these lines as what waits."""
        self.wait_for(lambda: self.waiting(port)[:2] == (len(lines), len(text_of(lines))), "these lines wait")

    def counted(self, port):
        """What the metrics have, by kind and destination."""
        return {(kind, dest): int(value) for kind, dest, value in WAITS.findall(self.status_of(port, "/metrics"))}

    def said(self, port):
        """The first sentence of the page."""
        return re.search(r"<h1[^>]*>(.*)</h1>", self.status_of(port, "/"))[1]

    def logged(self, relay, log, dest):
        """Stops a relay, and gives the first line that its log has of a destination: the datapoints, the bytes and the age."""
        self.ends(relay)
        log.thread.join()
        found = re.fullmatch(rb"spool waits, (\d+) datapoints, (\d+) bytes, (\d+) seconds old", log.of(dest)[0])
        self.assertTrue(found, log.of(dest))
        return tuple(map(int, found.groups()))

    def age(self, name, seconds):
        """Lets a file in the folder have been written before that many seconds."""
        then = time.time() - seconds
        os.utime(self.path(name), (then, then))


class Seen(WithSight):
    """What a relay shows of its files."""

    def test_a_store_that_is_away_over_a_restart(self):
        """Its file is shown everywhere with what it holds, that of the other store with nothing; once it took it, nothing waits."""
        status, away = free_ports(2)
        other, = self.stores(1)
        dests = [f"127.0.0.1:{away}", f"127.0.0.1:{other.port}:b"]
        size = len(text_of(LINES))
        with self.spooling(dests, "--status", str(status)) as relay:
            self.assertEqual(self.waiting(status), NOTHING)
            self.queued(relay, LINES)
            self.settles(relay)
        with self.spooling(dests, "--status", str(status), "--log") as relay:
            log = Log(relay.child.stderr)
            self.assertEqual(self.waiting(status)[:2], (COUNT, size))
            self.assertLess(self.waiting(status)[2], AGE)
            self.assertEqual(self.waiting(status, 1), NOTHING)
            counted = self.counted(status)
            self.assertLess(counted.pop(("age_seconds", dests[0])), AGE)
            self.assertEqual(counted, {("datapoints", dests[0]): COUNT, ("bytes", dests[0]): size,
                                       **{(kind, dests[0]): 0 for kind in OTHERS}}
                             | {(kind, dests[1]): 0 for kind in (*MEMBERS, *OTHERS)})
            self.wait_for(lambda: self.said(status).startswith("1 of 2 away"), "the store is away")
            page = self.status_of(status, "/")
            card = page[page.index(f"<h3>{dests[0]}</h3>"):].split("</section>")[0]
            self.assertRegex(card, r"spool: 1,500 datapoints, \d+\.\d kB, [\d a-z]+ old")
            self.assertEqual(page.count("spool: "), 1)
            self.reported(relay, dests, size)
            store = Store(away).start()
            self.addCleanup(store.stop)
            self.wait_for(lambda: store.lines() == LINES, "the store has all")
            self.wait_for(lambda: self.waiting(status) == NOTHING, "nothing waits")
            self.wait_for(lambda: set(self.counted(status).values()) == {0}, "the metrics say so")
            self.wait_for(lambda: self.said(status) == WELL, "all is well")
            self.assertNotIn("spool: ", self.status_of(status, "/"))
            self.assertNotIn(b"spool", relay.command(b"report"))
            self.wait_for(lambda: b"spool sent" in log.of(dests[0]), "the log says so")
            self.assertEqual(self.logged(relay, log, dests[0])[:2], (COUNT, size))
        self.assertFalse(any(b"spool" in line for line in log.of(dests[1])))

    def reported(self, relay, dests, size):
        """The report has what waits beside what is queued, and JSON of it too."""
        first, second = relay.command(b"report").decode().splitlines()
        counts = "queued 0 offered 0 kept 0 dropped 0 taken 0"
        self.assertRegex(first, rf"^destination {dests[0]} {counts} spool_datapoints {COUNT} spool_bytes {size} spool_age_seconds \d+$")
        self.assertEqual(second, f"destination {dests[1]} {counts}")
        ran = self.run_words(["report", "--admin", str(relay.admin), "--json"])
        first, second = map(json.loads, ran.out.splitlines())
        self.assertEqual((first["spool_datapoints"], first["spool_bytes"]), (COUNT, size))
        self.assertNotIn("spool_datapoints", second)

    def test_what_a_stop_adds(self):
        """What the file held and what a stop wrote behind it wait at the next start; the age is that of the last write."""
        status, away = free_ports(2)
        dest = f"127.0.0.1:{away}"
        more = numbered(COUNT, b"b")
        self.write(dest, text_of(LINES))
        self.age(dest, AGE)
        with self.spooling([dest], "--status", str(status), "--log") as relay:
            log = Log(relay.child.stderr)
            self.assertIn(self.waiting(status)[2], range(AGE, AGE + 60))
            self.assertIn("3 min ", self.status_of(status, "/"))
            self.queued(relay, more)
            self.waits(status, LINES)
            datapoints, size, age = self.logged(relay, log, dest)
            self.assertEqual((datapoints, size), (COUNT, len(text_of(LINES))))
            self.assertIn(age, range(AGE, AGE + 60))
        with self.spooling([dest], "--status", str(status)) as relay:
            self.assertLess(self.waiting(status)[2], AGE)
            self.waits(status, LINES + more)
            self.settles(relay)

    def test_a_line_without_its_end(self):
        """It is put aside, and does not count."""
        status, away = free_ports(2)
        dest = f"127.0.0.1:{away}"
        self.write(dest, text_of(LINES) + b"cut.off 1 17")
        with self.spooling([dest], "--status", str(status)) as relay:
            self.waits(status, LINES)
            self.settles(relay)

    def test_a_reload(self):
        """The next run shows what waits from its first moment on."""
        status, away = free_ports(2)
        dest = f"127.0.0.1:{away}"
        self.write(dest, text_of(LINES))
        with self.spooling([dest], "--status", str(status)) as relay:
            for _ in range(3):
                config = self.configuration([dest], (relay.line, relay.pickle, relay.udp), MAX_QUEUE_SIZE="100000")
                self.given({"config": config, "rules": ALL.format(dest), "rewrite": None})
                ran = self.run_words(["reload", "--admin", str(relay.admin)])
                self.assertEqual(ran.status, 0, ran)
                self.assertEqual(self.waiting(status)[:2], (COUNT, len(text_of(LINES))))
            self.settles(relay)


class Sent(WithSight):
    """A file that goes out."""

    def test_a_store_that_reads_nothing(self):
        """All waits as long as the store is not known to have it, and the page says so; a stop keeps what the system did not take."""
        status, = free_ports(1)
        store, dest = self.store_that_reads_nothing()
        self.write(dest, text_of(MANY))
        with self.spooling([dest], "--status", str(status)) as relay:
            self.begins_to_send(store)
            self.wait_for(lambda: self.rate(status) > 0, "it goes out")
            self.wait_for(lambda: self.rate(status) == 0, "it goes out no more")
            self.waits(status, MANY)
            self.assertIn(f"{len(MANY):,} wait in files", self.said(status))
            self.assertRegex(self.status_of(status, "/"), rf"<td>{dest}<br><small>spool: {len(MANY):,} datapoints, \d+\.\d MB, ")
            self.settles(relay)
        sent = self.sent_bytes(dest)
        self.assertGreater(sent, 0)
        rest = text_of(MANY)[sent:].split(b"\n")[:-1]
        with self.spooling([dest], "--status", str(status), "--log") as relay:
            log = Log(relay.child.stderr)
            self.waits(status, rest)
            store.read_on()
            self.wait_for(lambda: store.lines()[-1:] == MANY[-1:], "the store has the rest")
            self.wait_for(lambda: self.waiting(status) == NOTHING, "nothing waits")
            self.assertEqual(self.logged(relay, log, dest)[:2], (len(rest), len(text_of(rest))))

    def test_the_parts_of_a_file(self):
        """What waits falls by a part as the store has taken it; one that goes again waits until then. Nothing is never said before."""
        status, = free_ports(1)
        store = TakesOne(free_ports(1)[0]).start()
        self.addCleanup(store.stop)
        dest = f"127.0.0.1:{store.port}"
        self.write(dest, text_of(PARTS))
        with self.spooling([dest], "--status", str(status)) as relay:
            self.wait_for(lambda: store.connections() == 2, "the second part goes out")
            rest = PARTS[store.taken[0].count(b"\n"):]
            self.waits(status, rest)
            self.wait_for(lambda: f"{len(rest):,} wait in files" in self.said(status), "the page says so")
            self.wait_for(lambda: store.size() > len(store.taken[0]), "some of it has come")
            store.hang_up()
            self.wait_for(lambda: store.connections() == 3, "it goes out again")
            self.waits(status, rest)
            store.goes_on.set()
            while self.waiting(status) != NOTHING:
                said = self.said(status)
                self.assertTrue("nothing queued" not in said or self.waiting(status) == NOTHING, said)
            self.assertEqual(store.lines()[-1], PARTS[-1])
            self.wait_for(lambda: self.said(status) == WELL, "all is well")
            self.settles(relay)

    def test_a_store_that_never_closes(self):
        """What the system has taken waits until the relay waits for the end no longer."""
        status, = free_ports(1)
        store, = self.stores(1, closes=False)
        dest = f"127.0.0.1:{store.port}"
        self.write(dest, text_of(LINES))
        with self.spooling([dest], "--status", str(status)) as relay:
            self.wait_for(lambda: store.lines() == LINES, "the store has all")
            self.assertEqual(self.waiting(status)[:2], (COUNT, len(text_of(LINES))))
            self.wait_for(lambda: self.waiting(status) == NOTHING, "nothing waits")
            self.assertEqual(self.files(), [])
            self.settles(relay)


class TakesOne(Store):
    """A store that reads its first connection, and of the next ones a piece, before it may go on."""

    def __init__(self, port):
        super().__init__(port)
        self.goes_on = threading.Event()

    def read(self, stream, place):
        if place > 0:
            self.keep(place, stream.recv(65_536))
            self.goes_on.wait()
        super().read(stream, place)


class Diverted(WithSight):
    """A destination whose store is away while the relay runs, with a size for its files."""

    def test_what_waits(self):
        """Page, JSON, metrics and log say how much waits, and how much room there is."""
        (port, away), lines = free_ports(2), numbered(12_000)
        dest = f"127.0.0.1:{away}"
        options = ("--spool-size", "1048576", "--status", str(port), "--log")
        with self.spooling([dest], *options, MAX_QUEUE_SIZE="4000") as relay:
            log = Log(relay.child.stderr)
            for first in range(0, len(lines), 1_000):
                self.queued(relay, lines[first:first + 1_000])
            self.wait_for(lambda: self.waiting(port)[0] > 6_000, "most of it waits in files")
            shows = shown(port)["destinations"][0]
            self.assertGreater(shows["spool_room_bytes"], 0)
            self.assertLessEqual(shows["spool_room_bytes"] + shows["spool_bytes"], 1_048_576 + 65_536)
            self.assertIs(shows["spool_full"], False)
            self.assertEqual(self.counted(port)["full", dest], 0)
            self.assertRegex(self.status_of(port, "/"), r"spool: [\d,]+ datapoints, [\d.]+ .B, ")
            store = Store(away).start()
            self.addCleanup(store.stop)
            self.wait_for(lambda: store.lines() == lines, "all has come")
            self.wait_for(lambda: self.waiting(port) == NOTHING, "nothing waits")
            self.wait_for(lambda: b"spool sent" in log.of(dest), "the log says so")
            self.ends(relay)
            log.thread.join()
        said = log.of(dest)
        self.assertLess(said.index(b"spool begins"), said.index(b"spool sent"))
