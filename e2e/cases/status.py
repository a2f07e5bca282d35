"""`relayd run --status`: the page, the JSON and the metrics say what the report says, and hostile requests hold up nothing."""

import contextlib
import hashlib
import http.client
import json
import re
import shutil
import socket
import subprocess
import tempfile
import threading
import time
import unittest

from fixtures.harness import LIMIT, Ran
from fixtures.running import COMMAND_TRIES, COUNTS, WithRelays
from fixtures.stores import Store, free_ports

ALL = "[all]\ndefault = true\ndestinations = {}\n"
REFUSED = "connection refused (error 111)"
SECRET = "evil.<script>alert(1)</script>.name"
SAMPLE = re.compile(r'(\w+)\{(?:destination|receiver)="([^"]*)"\} (\d+)')
REASON = re.compile(r'(\w+)\{receiver="([^"]*)",reason="([^"]*)"\} (\d+)')
SILENT = 400  # connections that say nothing
MIB = 1 << 20
HOSTILE = 500  # connections at once


class Serving(WithRelays):
    """A relay with a status server."""

    @contextlib.contextmanager
    def serving(self, dests, options=(), **changed):
        """A relay with these further options, and the port of its status server."""
        port, = free_ports(1)
        options = ("--status", str(port), *options)
        changed.setdefault("rules", ALL.format(", ".join(dests)))
        with self.relay(dests, options=options, **changed) as relay:
            relay.status = port
            yield relay

    def ask(self, relay, path, method="GET", body=None):
        """The status, the headers and the body of an answer.

        The relay waits a second for a request. Where that is too short for this machine there is no answer, and it is
        asked again.
        """
        for _ in range(COMMAND_TRIES):
            with contextlib.closing(http.client.HTTPConnection("127.0.0.1", relay.status, timeout=LIMIT)) as client:
                client.connect()
                with contextlib.suppress(ConnectionError):
                    client.request(method, path, body=body)
                    answer = client.getresponse()
                    return answer.status, dict(answer.getheaders()), answer.read().decode()
        self.fail(f"{method} {path} is not answered")

    def json(self, relay):
        status, headers, text = self.ask(relay, "/status.json")
        self.assertEqual((status, headers["content-type"]), (200, "application/json"))
        return json.loads(text)

    @contextlib.contextmanager
    def draining(self, relay, store):
        """A relay that was told to stop, with datapoints for a store that reads slowly until the block ends."""
        relay.lines(b"%s 1 1\n" % (b"a" * 2000) * 9000)
        self.wait_for(lambda: self.json(relay)["destinations"][0]["taken"] > 0, "some was taken")
        self.wait_for(store.is_connected, "the store is connected")
        reads_on = threading.Event()
        reader = threading.Thread(target=store.read_slowly, args=(0.05, reads_on), daemon=True)
        reader.start()
        relay.command(b"stop")
        yield
        reads_on.set()
        reader.join(LIMIT)
        store.read_on()

    def metrics(self, relay):
        status, headers, text = self.ask(relay, "/metrics")
        self.assertEqual(status, 200)
        self.assertTrue(headers["content-type"].startswith("text/plain; version=0.0.4"), headers)
        return text

    def agrees(self, relay):
        """JSON, metrics and page say of each destination what the report says; nothing may come meanwhile."""
        report = relay.report()
        shown = [(it["destination"], {name: it[name] for name in COUNTS}) for it in self.json(relay)["destinations"]]
        self.assertEqual(shown, report)
        samples = {(name, label): int(value) for name, label, value in SAMPLE.findall(self.metrics(relay))}
        page = self.ask(relay, "/")[2]
        for dest, counts in report:
            self.assertEqual(samples["relayd_destination_queued", dest], counts["queued"])
            for name in ("offered", "kept", "dropped", "taken"):
                self.assertEqual(samples[f"relayd_destination_{name}_total", dest], counts[name])
            if (card := f"<h3>{dest}</h3>") in page:
                self.assertIn(f"{counts['queued']} of 10 queued", page[page.index(card):].split("</section>")[0])
            else:
                self.assertIn(f"<td>{dest}", page)

    def state(self, relay):
        """The name of what the status says first."""
        return self.json(relay)["state"]

    def says(self, relay):
        """What the page says first, which its title says too."""
        page = self.ask(relay, "/")[2]
        said = re.search(r"<h1[^>]*>(.*)</h1>", page)[1]
        self.assertIn(f"<title>{said} - relayd at {socket.gethostname()}</title>", page)
        return said


class Status(Serving):
    """What is shown."""

    def test_values(self):
        """Two stores, one of which is not there: what each has counted, and what each receiver has."""
        store, = self.stores(1)
        dests = [f"127.0.0.1:{store.port}:a", f"127.0.0.1:{free_ports(1)[0]}"]
        with self.serving(dests, MAX_QUEUE_SIZE="10") as relay:
            relay.lines(b"a 1 1\n" * 25 + b"bad line\n" * 3 + SECRET.encode() + b"\n")
            self.wait_for(lambda: relay.totals()["offered"] == 50, "all was offered")
            self.wait_for(lambda: relay.report()[0][1]["queued"] == 0, "the store has all")
            self.agrees(relay)
            self.wait_for(lambda: self.json(relay)["receivers"][0]["bad_lines"] == 4, "the bad lines are counted")
            self.wait_for(lambda: self.json(relay)["destinations"][1]["last_error"], "the other store was tried")
            wanted = f"1 of 2 away: {dests[1]}, a queue full"
            self.wait_for(lambda: self.says(relay) == wanted, "the losses are over")
            now = self.json(relay)
            line, pickle, udp = now["receivers"]
            self.assertEqual([line["receiver"], pickle["receiver"], udp["receiver"]], ["line", "pickle", "udp"])
            self.assertEqual((line["datapoints"], line["state"], pickle["datapoints"]), (25, "open", 0))
            first, second = now["destinations"]
            self.assertEqual((first["connected"], first["last_error"]), (True, None))
            self.assertEqual((second["connected"], second["last_error"], second["dropped"]), (False, REFUSED, 15))
            page = self.ask(relay, "/")[2]
            self.assertIn(f'<section class="warn"><h3>{dests[1]}</h3>', page)
            self.assertNotIn("script", page)
            for path in ("/", "/status.json", "/metrics"):
                self.assertNotIn("evil", self.ask(relay, path)[2])
            self.assertNotRegex(page, r'(?:src|href)="(?!/|data:)')
            self.settles(relay)

    def test_no_series_twice(self):
        """Each of several receivers of lines has its own name, in JSON, in the metrics and on the page."""
        dest = f"127.0.0.1:{free_ports(1)[0]}"
        with self.serving([dest], ("--line-receivers", "6")) as relay:
            names = [*(f"line {number}" for number in range(6)), "pickle", "udp"]
            self.assertEqual([it["receiver"] for it in self.json(relay)["receivers"]], names)
            series = [line.rpartition(" ")[0] for line in self.metrics(relay).splitlines() if not line.startswith("#")]
            self.assertEqual(sorted(set(series)), sorted(series))
            page = self.ask(relay, "/")[2]
            for name in names:
                self.assertEqual(page.count(f"<tr><td>{name}<"), 1)
            self.settles(relay)

    def test_since_when(self):
        """For how long the relay has run, and how long a store has been up or down."""
        store, = self.stores(1)
        began = time.monotonic()
        with self.serving([f"127.0.0.1:{store.port}"]) as relay:
            ready = time.monotonic()
            self.wait_for(lambda: self.json(relay)["destinations"][0]["connected"], "the store is connected")
            self.wait_for(lambda: self.json(relay)["destinations"][0]["since_seconds"] >= 3, "it is up for 3 seconds")
            self.assertGreaterEqual(time.monotonic() - began, 3)
            least = int(time.monotonic() - ready)
            uptime = self.json(relay)["uptime_seconds"]
            self.assertIn(uptime, range(least, int(time.monotonic() - began) + 1))
            lost = time.monotonic()
            store.stop()
            self.wait_for(lambda: not self.json(relay)["destinations"][0]["connected"], "the store is lost")
            since = self.json(relay)["destinations"][0]["since_seconds"]
            self.assertLessEqual(since, time.monotonic() - lost)
            self.settles(relay)

    def test_a_stopped_store_has_a_card(self):
        store, = self.stores(1)
        dest = f"127.0.0.1:{store.port}"
        with self.serving([dest]) as relay:
            self.gets_below(2, lambda: self.card_comes(relay, dest, store))
            self.assertEqual((self.state(relay), self.says(relay)), ("away", f"1 of 1 away: {dest}, queues below 10 %"))
            self.wait_for(lambda: self.json(relay)["destinations"][0]["last_error"] == REFUSED, "its error is shown")
            store.start()
            self.wait_for(lambda: self.json(relay)["destinations"][0]["connected"], "the store is connected again")
            self.settles(relay)

    def card_comes(self, relay, dest, store):
        """How long it takes until a store that is stopped has a card."""
        if store.listener is None:
            store.start()
        relay.lines(b"a 1 1\n")  # a relay that has no input for long is not well
        self.wait_for(store.is_connected, "the store has its connection")
        self.wait_for(lambda: self.says(relay) == "all well: 0 a second in, 0 out, nothing queued", "all is well")
        self.assertEqual(self.state(relay), "well")
        self.assertNotIn("<section class=\"warn\"", self.ask(relay, "/")[2])
        store.stop()
        began = time.monotonic()
        self.wait_for(lambda: f'<section class="warn"><h3>{dest}</h3>' in self.ask(relay, "/")[2], "the store has a card")
        return time.monotonic() - began

    def test_the_last_minutes(self):
        """The samples add up to what the report says."""
        store, = self.stores(1)
        with self.serving([f"127.0.0.1:{store.port}"]) as relay:
            relay.lines(b"a 1 1\n" * 70)

            def sums():
                samples = self.json(relay)["samples"]
                return tuple(sum(it[name] for it in samples) for name in ("received", "written", "dropped"))

            self.wait_for(lambda: sums() == (70, 70, 0), "the samples have them")
            self.settles(relay)

    def test_the_worst_comes_first(self):
        """A queue that fills, then drops; a store that comes back; bad lines; nothing."""
        port, = free_ports(1)
        dest = f"127.0.0.1:{port}"
        with self.serving([dest], MAX_QUEUE_SIZE="10000") as relay:
            self.wait_for(lambda: self.state(relay) == "away", "the store is away")

            def sends(lines, state, says):
                """Whether it is in this state once so many lines were sent, and the page says so."""
                relay.lines(b"a 1 1\n" * lines)
                time.sleep(0.2)
                return self.state(relay) == state and re.fullmatch(says, self.says(relay))

            self.wait_for(lambda: sends(200, "filling", rf"FILLING: {dest} full in \d+ (s|min \d+ s), not connected for \d+ s"),
                          "the queue fills")
            self.wait_for(lambda: sends(9000, "losing", rf"LOSING [\d,]+ a second: {dest} not connected for \d+ s, queue full"),
                          "the queue drops")
            began = time.time()
            store = Store(port)
            self.addCleanup(store.stop)
            store.start()
            self.wait_for(lambda: self.state(relay) == "well", "all is well")
            self.wait_for(lambda: relay.totals()["taken"] == len(store.lines()), "all is written")
            now = self.json(relay)["destinations"][0]
            self.assertEqual((now["connections"], now["connection_losses"], now["queued"]), (1, 0, 0))
            self.assertGreater(now["failed_tries"], 0)
            self.assertEqual(now["written_bytes"], 6 * now["taken"])
            # The second in which the relay began and the whole seconds since then may be one second short together.
            self.assertGreaterEqual(now["last_write_timestamp_seconds"], int(began) - 1)
            self.assertLessEqual(now["last_write_timestamp_seconds"], time.time() + 1)
            turns = []

            def sends_bad():
                relay.lines(b"bad line\n" * 30)
                turns.append(1)
                time.sleep(0.2)
                return self.state(relay) == "bad_input" and re.fullmatch(r"bad input: [\d,]+ a second at line", self.says(relay))

            self.wait_for(sends_bad, "bad lines are said")
            self.wait_for(lambda: self.state(relay) == "well", "they are over")
            metrics = {match[:3]: int(match[3]) for match in REASON.findall(self.metrics(relay))}
            self.assertEqual(metrics["relayd_receiver_rejected_total", "line", "line"], 30 * len(turns))
            # How many it took depends on the machine.
            self.assertIn(relay.stop(), ((b"stopping\n", Ran(0, last, b"")) for last in (b"settled\n", b"sealed 0\n")))

    def test_the_one_that_loses_most(self):
        """Of two queues that drop, the page names the one that drops more, in either order of DESTINATIONS."""
        dests = [f"127.0.0.1:{port}" for port in free_ports(2)]
        rules = ALL.format(", ".join(dests)) + "[more]\npattern = ^more\\.\ndestinations = {}\n"
        for most in dests:
            with self.serving(dests, rules=rules.format(most), MAX_QUEUE_SIZE="10") as relay:
                wanted = rf"LOSING [\d,]+ a second: {most} not connected for \d+ s, queue full, and 1 more"

                def said():
                    relay.lines(b"more.of 1 1\nboth 1 1\nmore.of 1 1\n" * 20)
                    return self.says(relay)

                self.wait_for(lambda: re.fullmatch(wanted, said()), f"it says {wanted}")
                self.settles(relay)

    def test_the_checksum_of_the_files(self):
        """JSON, metrics and page have the MD5 of the files' bytes; each file counts, and so does a limit on names."""
        dest = f"127.0.0.1:{free_ports(1)[0]}"
        rewrite, limit = "[pre]\n^a = b\n", "\n[post]\n^.{1025,}$ =\n"
        sums = []
        for options, given in (((), None), ((), rewrite), (("--longest-name", "1024"), None),
                               (("--longest-name", "1024"), rewrite)):
            with self.serving([dest], options, rewrite=given) as relay:
                text = relay.config + ALL.format(dest) + (given or "") + (limit if options else "")
                digits = hashlib.md5(text.encode()).hexdigest()[:12]
                self.assertEqual(self.json(relay)["configuration"], digits)
                self.assertIn(f',configuration="{digits}"}} 1\n', self.metrics(relay))
                self.assertIn(f", configuration {digits}.", self.ask(relay, "/")[2])
                sums.append(digits)
                self.settles(relay)
        self.assertEqual(len(set(sums)), 4)

    def test_a_store_that_takes_nothing(self):
        """A connected store that does not read is stuck, and the oldest datapoint's age is known."""
        store, = self.stores(1, reads=False, room=4096)
        dest = f"127.0.0.1:{store.port}"
        began = time.monotonic()
        with self.serving([dest], MAX_QUEUE_SIZE="1000000") as relay:
            relay.lines(b"%s 1 1\n" % (b"a" * 2000) * 9000)
            self.wait_for(lambda: self.state(relay) == "stuck", "it is stuck")
            self.assertRegex(self.says(relay), rf"^STUCK: {dest} takes nothing for \d+ s, [\d,]+ queued$")
            now = self.json(relay)["destinations"][0]
            self.assertGreater(now["oldest_queued_milliseconds"], 2000)
            self.assertLess(now["oldest_queued_milliseconds"], 1000 * (time.monotonic() - began))
            store.read_on()
            self.wait_for(lambda: self.state(relay) == "well", "it reads again")
            self.settles(relay)

    def test_a_constant_rate(self):
        """What arrives at a constant rate is shown at that rate: no sample is a quarter off."""
        store, = self.stores(1)
        with self.serving([f"127.0.0.1:{store.port}"]) as relay:
            self.gets_below(500, lambda: self.greatest_error(relay))
            self.settles(relay)

    def greatest_error(self, relay):
        """How many a second the samples are off while 2,000 a second are sent for some time.

        Those of a producer or relay that the machine holds up are.
        """
        before = len(self.json(relay)["samples"])
        with socket.create_connection(("127.0.0.1", relay.line), LIMIT) as stream:
            begun = time.monotonic()
            for turn in range(700):
                stream.sendall(b"a 1 1\n" * 40)
                time.sleep(max(0.0, begun + (turn + 1) / 50 - time.monotonic()))
        rates = [it["received"] * 1000 / it["milliseconds"] for it in self.json(relay)["samples"]][before + 1:-1]
        self.assertGreater(len(rates), 2)
        return max(abs(rate - 2000) for rate in rates)

    def test_health(self):
        """It is up, and once it is to end it says so."""
        store, = self.stores(1, reads=False, room=4096)
        with self.serving([f"127.0.0.1:{store.port}"], ("--drain", "3600"), MAX_QUEUE_SIZE="10000") as relay:
            self.assertEqual(self.ask(relay, "/healthz")[::2], (200, "up\n"))
            with self.draining(relay, store):
                self.wait_for(lambda: self.ask(relay, "/healthz")[::2] == (503, "ending\n"), "it is to end")
                self.assertEqual(self.state(relay), "stopping")
                self.assertIn("\nrelayd_stopping 1\n", self.metrics(relay))
            self.assertEqual(relay.end(), Ran(0, b"settled\n", b""))

    def test_promtool_takes_the_metrics(self):
        if not shutil.which("promtool"):
            raise unittest.SkipTest("promtool is missing")
        store, = self.stores(1)
        with self.serving([f"127.0.0.1:{store.port}:a"]) as relay:
            done = subprocess.run(["promtool", "check", "metrics"], input=self.metrics(relay).encode(),
                                  capture_output=True, timeout=LIMIT)
            self.assertEqual((done.returncode, done.stdout, done.stderr), (0, b"", b""))
            self.settles(relay)

    def test_in_a_browser(self):
        """Chromium shows the values, on a wide window and on that of a phone, and nothing is wider than it."""
        if not shutil.which("chromium"):
            raise unittest.SkipTest("chromium is missing")
        dest = f"127.0.0.1:{free_ports(1)[0]}"
        with self.serving([dest], MAX_QUEUE_SIZE="10") as relay, tempfile.TemporaryDirectory() as folder:
            relay.lines(b"a 1 1\n" * 25)
            self.wait_for(lambda: relay.totals()["dropped"] == 15, "the queue has dropped")
            for width in (1100, 400):
                shot = f"{folder}/{width}.png"
                done = subprocess.run(
                    ["chromium", "--headless", "--no-sandbox", "--disable-gpu", f"--user-data-dir={folder}/data",
                     "--disable-dev-shm-usage", f"--window-size={width},900", f"--screenshot={shot}", "--dump-dom",
                     f"http://127.0.0.1:{relay.status}/"],
                    stdout=subprocess.PIPE, stderr=subprocess.DEVNULL, timeout=LIMIT)
                page = done.stdout.decode()
                self.assertIn("10 of 10 queued", page)
                self.assertIn("15 lost since the start", page)
            self.settles(relay)


class Ports(Serving):
    """Where it listens."""

    def test_a_port_that_is_taken(self):
        """It is named after the others, and nothing is written or received."""
        dest = f"127.0.0.1:{free_ports(1)[0]}"
        with self.serving([dest]) as relay:
            for interface in ("127.0.0.1", "192.0.2.1"):
                *listening, admin = free_ports(4)
                words = ("run", "--admin", str(admin), "--status", str(relay.status), "--status-interface", interface)
                self.ends(words, Ran(3, b"", b"relayd: listen: status\n"),
                          {"config": self.configuration([dest], listening), "rules": ALL.format(dest)})
            self.settles(relay)

    def test_nothing_without_it(self):
        """No thread serves the status, and no port is open for it."""
        dest = f"127.0.0.1:{free_ports(1)[0]}"
        with self.relay([dest], ALL.format(dest)) as relay:
            self.assertNotIn("status", relay.thread_names())
            self.settles(relay)
        with self.serving([dest]) as relay:
            self.wait_for(lambda: "status" in relay.thread_names(), "the thread has its name")
            self.settles(relay)

    def test_another_interface(self):
        dest = f"127.0.0.1:{free_ports(1)[0]}"
        port, = free_ports(1)
        options = ("--status", str(port), "--status-interface", "127.0.0.2")
        with self.relay([dest], ALL.format(dest), options=options) as relay:
            with socket.create_connection(("127.0.0.2", port), LIMIT):
                pass
            with self.assertRaises(ConnectionRefusedError):
                socket.create_connection(("127.0.0.1", port), LIMIT)
            self.settles(relay)


class Hostile(Serving):
    """What is answered to other requests, and that the relay goes on."""

    def test_other_requests(self):
        store, = self.stores(1)
        with self.serving([f"127.0.0.1:{store.port}"]) as relay:
            self.assertEqual(self.ask(relay, "/status.json?a=b")[0], 200)
            self.assertEqual(self.ask(relay, "/other")[0], 404)
            self.assertEqual(self.ask(relay, "/../etc/passwd")[0], 404)
            for method in ("POST", "PUT", "DELETE", "OPTIONS"):
                status, headers, _ = self.ask(relay, "/", method, body="x")
                self.assertEqual((status, headers["allow"]), (405, "GET, HEAD"))
            status, headers, body = self.ask(relay, "/", "HEAD")
            self.assertEqual((status, body), (200, ""))
            self.assertGreater(int(headers["content-length"]), 1000)
            self.settles(relay)

    def raw(self, relay, sent):
        """What is answered to bytes."""
        for _ in range(COMMAND_TRIES):
            if got := self.raw_once(relay, sent):
                return got
        return b""

    def raw_once(self, relay, sent):
        """What is answered to bytes that are sent once."""
        got = b""
        with socket.create_connection(("127.0.0.1", relay.status), LIMIT) as stream:
            with contextlib.suppress(ConnectionError):
                stream.sendall(sent)
                while more := stream.recv(65536):
                    got += more
        return got

    def test_another_host(self):
        """At the loopback interface a request for another host gets no page."""
        dest = f"127.0.0.1:{free_ports(1)[0]}"
        with self.serving([dest]) as relay:
            for host in (b"127.0.0.1", b"localhost", b"[::1]"):
                for end in (b"", b":%d" % relay.status):
                    request = b"GET /healthz HTTP/1.1\r\nHost: %s%s\r\n\r\n" % (host, end)
                    self.assertIn(b"HTTP/1.1 200 ", self.raw(relay, request))
            for host in (b"evil.example", b"evil.example:80", b"127.0.0.1.evil.example", b"localhost.evil.example:80"):
                for path in (b"/", b"/status.json", b"/metrics", b"/healthz"):
                    request = b"GET %s HTTP/1.1\r\nHost: %s\r\n\r\n" % (path, host)
                    answer = self.raw(relay, request)
                    self.assertIn(b"HTTP/1.1 421 ", answer)
                    self.assertNotIn(dest.encode(), answer)
            self.settles(relay)

    def test_beside_silent_connections(self):
        """Each of ten answers beside silent connections takes less than a second."""
        store, = self.stores(1)
        self.needs_descriptors(SILENT + 100)
        with self.serving([f"127.0.0.1:{store.port}"]) as relay, contextlib.ExitStack() as streams:
            for count in (15, SILENT):
                for _ in range(count):
                    stream = streams.enter_context(socket.socket())
                    stream.setblocking(False)
                    stream.connect_ex(("127.0.0.1", relay.status))
                self.gets_below(1 if count < SILENT else 5, lambda: self.slowest_answer(relay))
            self.settles(relay)

    def slowest_answer(self, relay):
        """How long the slowest of five answers takes."""
        times = []
        for _ in range(5):
            began = time.monotonic()
            self.assertEqual(self.ask(relay, "/metrics")[0], 200)
            times.append(time.monotonic() - began)
        return max(times)

    def test_long_headers(self):
        """A MiB of headers is refused after 8 KiB, and is not kept."""
        store, = self.stores(1)
        with self.serving([f"127.0.0.1:{store.port}"]) as relay:
            grown = []
            for _ in range(4):
                before = relay.resident()
                head = b"GET / HTTP/1.1\r\nHost: h\r\n" + b"X: %s\r\n" % (b"a" * 1000) * (MIB // 1000) + b"\r\n"
                self.assertNotIn(b" 200 ", self.raw_once(relay, head))
                self.assertNotIn(b" 200 ", self.raw_once(relay, b"GET /" + b"a" * MIB + b" HTTP/1.1\r\n\r\n"))
                grown.append(relay.resident() - before)
            self.assertLess(min(grown), MIB // 4, "what a relay takes at its start is not kept of them")
            self.assertIn(b"HTTP/1.1 431 ", self.raw(relay, b"GET / HTTP/1.1\r\nHost: h\r\nX: " + b"a" * 9000 + b"\r\n\r\n"))
            self.assertIn(b"HTTP/1.1 400 ", self.raw(relay, b"nonsense\r\n\r\n"))
            self.assertEqual(self.ask(relay, "/")[0], 200)
            self.settles(relay)

    def test_half_a_request(self):
        """It is left without an answer after a second, and the next connection is served."""
        store, = self.stores(1)
        with self.serving([f"127.0.0.1:{store.port}"]) as relay:
            self.gets_below(3, lambda: self.answered_beside_half_a_request(relay))
            self.settles(relay)

    def answered_beside_half_a_request(self, relay):
        """How long an answer takes beside half a request."""
        with socket.create_connection(("127.0.0.1", relay.status), LIMIT) as half:
            half.sendall(b"GET / HTTP/1.1\r\nHo")
            began = time.monotonic()
            self.assertEqual(self.ask(relay, "/")[0], 200)
            took = time.monotonic() - began
            self.assertEqual(half.recv(100), b"")
            return took

    def test_many_connections(self):
        """While 500 connections say nothing, datapoints pass and the admin port answers; once they are gone the page is back."""
        store, = self.stores(1)
        self.needs_descriptors(HOSTILE + 100)
        with self.serving([f"127.0.0.1:{store.port}"]) as relay:
            with contextlib.ExitStack() as streams:
                for _ in range(HOSTILE):
                    stream = streams.enter_context(socket.socket())
                    stream.setblocking(False)
                    stream.connect_ex(("127.0.0.1", relay.status))
                relay.lines(b"a 1 1\n" * 1000)
                self.wait_for(lambda: relay.totals()["taken"] == 1000, "the datapoints pass")
            self.wait_for(lambda: self.ask(relay, "/")[0] == 200, "the page is back")
            self.settles(relay)
