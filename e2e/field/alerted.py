"""The alerts of the examples, in Prometheus: each fires while its trouble lasts, and ends with it."""

import contextlib
import json
import os
import re
import socket
import subprocess
import threading
import time
import urllib.parse
import urllib.request

from cases import Field
from fixtures.program import TOP
from fixtures.stores import Store, free_ports
from programs import HOST, LIMIT, Relayd, wait_until
from scraped import Prometheus

PLACES = 20_000  # of a queue
SPOOLED = 1_048_576  # bytes of files, the fewest that may be asked for
SHORTER = [(r"for: \d+[sm]", "for: 1s"), (r"\[\d+m\]", "[10s]"), (r"> 120", "> 15"), (r"_total\[10s\]\) > 5", "_total[10s]) > 2")]


class Alerting(Prometheus):
    """Debian's Prometheus, with the alerts of the examples after shorter times."""

    def __init__(self, folder, target):
        super().__init__(folder, target)
        with open(os.path.join(TOP, "examples", "alerts.yml"), encoding="utf-8") as file:
            rules = file.read()
        for old, new in SHORTER:
            rules = re.sub(old, new, rules)
        self.write("alerts.yml", rules)
        with open(self.config, "a", encoding="utf-8") as file:
            file.write("rule_files: [alerts.yml]\n")
        with open(self.config, encoding="utf-8") as file:
            text = file.read().replace("scrape_interval: 1s", "scrape_interval: 1s\n  evaluation_interval: 1s")
        self.config = self.write("prometheus.yml", text)

    def have_fired(self, since):
        """The names of the alerts that have fired since a time: one may have ended while another was waited for."""
        passed = int(time.time() - since) + 1
        words = urllib.parse.urlencode({"query": f'last_over_time(ALERTS{{alertstate="firing"}}[{passed}s])'})
        try:
            with urllib.request.urlopen(f"http://{HOST}:{self.port}/api/v1/query?{words}", timeout=LIMIT) as answer:
                found = json.load(answer)["data"]["result"]
        except OSError:
            return set()
        return {it["metric"]["alertname"].removeprefix("Relayd") for it in found}

    def firing(self):
        """The names of the alerts that fire."""
        try:
            with urllib.request.urlopen(f"http://{HOST}:{self.port}/api/v1/alerts", timeout=LIMIT) as answer:
                found = json.load(answer)["data"]["alerts"]
        except OSError:
            return set()
        return {it["labels"]["alertname"].removeprefix("Relayd") for it in found if it["state"] == "firing"}


class Producer:
    """Sends lines at a rate until it is ended."""

    def __init__(self, port, line=b"a 1 1\n", rate=1000):
        self.port, self.line, self.rate, self.is_over = port, line, rate, False
        self.thread = threading.Thread(target=self.send, daemon=True)
        self.thread.start()

    def send(self):
        """Writes a tenth of a second's lines ten times a second."""
        with socket.create_connection((HOST, self.port), LIMIT) as stream:
            while not self.is_over:
                stream.sendall(self.line * (self.rate // 10))
                time.sleep(0.1)

    def end(self):
        """Sends no more."""
        self.is_over = True
        self.thread.join()


@contextlib.contextmanager
def refused_at(process, name, error):
    """Meanwhile the system refuses each connection to the thread of a process with this name, with this error."""
    thread, = (it for it in os.listdir(f"/proc/{process}/task") if comm_of(process, it) == name)
    words = ["strace", "-p", thread, "-e", "trace=accept4,accept", "-e", f"inject=accept4,accept:error={error}"]
    with subprocess.Popen(words, stderr=subprocess.DEVNULL) as tracer:
        try:
            wait_until(lambda: tracer_of(process, thread) == tracer.pid)
            yield
        finally:
            tracer.terminate()
            tracer.wait(LIMIT)


def comm_of(process, thread):
    """The name of a thread."""
    with open(f"/proc/{process}/task/{thread}/comm", encoding="ascii") as file:
        return file.read().strip()


def tracer_of(process, thread):
    """The process that traces a thread, 0 if none does."""
    with open(f"/proc/{process}/task/{thread}/status", encoding="ascii") as file:
        return int(re.search(r"TracerPid:\t(\d+)", file.read())[1])


class Alerted(Field):
    """One relay, one store, one trouble after the other."""

    def fire(self, prometheus, since, *names):
        """Each of these fires at some time from then on."""
        self.assertTrue(wait_until(lambda: set(names) <= prometheus.have_fired(since)),
                        f"{names} fire: {prometheus.have_fired(since)}")

    def ends(self, prometheus):
        self.assertTrue(wait_until(lambda: not prometheus.firing()), f"still there: {prometheus.firing()}")

    def test_each_alert(self):
        port, status = free_ports(2)
        store = Store(port)
        self.addCleanup(store.stop)
        store.start()
        relay = self.begin(Relayd(self.path("relay"), [f"{HOST}:{port}"], queue=PLACES, options=("--status", str(status))))
        prometheus = self.begin(Alerting(self.path("prometheus"), status))
        steady = Producer(relay.line_port)
        self.assertTrue(wait_until(lambda: prometheus.query("relayd_receiver_datapoints_total > 1000")), "it is scraped")
        self.ends(prometheus)
        # A store is away, its queue fills, and drops; then it is back.
        began = time.time()
        store.stop()
        self.fire(prometheus, began, "StoreAway", "Filling", "Losing")
        store = Store(port)
        self.addCleanup(store.stop)
        store.start()
        self.ends(prometheus)
        # It flaps.
        began = time.time()
        while "Flapping" not in prometheus.have_fired(began) and time.time() < began + LIMIT:
            store.hang_up()
            time.sleep(1)
        self.fire(prometheus, began, "Flapping")
        self.ends(prometheus)
        # Input is bad, then there is none.
        began = time.time()
        bad = Producer(relay.line_port, b"bad line\n", 100)
        self.fire(prometheus, began, "BadInput")
        bad.end()
        self.ends(prometheus)
        began = time.time()
        steady.end()
        self.fire(prometheus, began, "NoInput")
        steady = Producer(relay.line_port)
        self.ends(prometheus)
        steady.end()
        # The relay is away, and then another one is there.
        began = time.time()
        relay.end()
        self.fire(prometheus, began, "Away")
        relay = self.begin(Relayd(self.path("again"), [f"{HOST}:{port}"], queue=PLACES, options=("--status", str(status))))
        steady = Producer(relay.line_port)
        self.ends(prometheus)
        steady.end()

    def test_a_receiver_that_dies(self):
        """A receiver whose listener is none any more takes nothing until the relay is started again."""
        port, status = free_ports(2)
        store = Store(port)
        self.addCleanup(store.stop)
        store.start()
        options = ("--status", str(status))
        relay = self.begin(Relayd(self.path("relay"), [f"{HOST}:{port}"], options=options))
        prometheus = self.begin(Alerting(self.path("prometheus"), status))
        steady = Producer(relay.line_port)
        self.assertTrue(wait_until(lambda: prometheus.query("relayd_receiver_datapoints_total > 1000")), "it is scraped")
        self.ends(prometheus)
        began = time.time()
        with refused_at(relay.process.pid, "pickle", "ENOTSOCK"), contextlib.suppress(ConnectionError):
            socket.create_connection((HOST, relay.pickle_port), LIMIT).close()
            self.fire(prometheus, began, "ReceiverDead")
        steady.end()
        relay.end()
        relay = self.begin(Relayd(self.path("again"), [f"{HOST}:{port}"], options=options))
        steady = Producer(relay.line_port)
        self.ends(prometheus)
        steady.end()

    def test_a_store_that_takes_nothing(self):
        port, status = free_ports(2)
        store = Store(port, reads=False, room=4096)
        self.addCleanup(store.stop)
        store.start()
        relay = self.begin(Relayd(self.path("relay"), [f"{HOST}:{port}"], queue=1_000_000,
                                  options=("--status", str(status))))
        prometheus = self.begin(Alerting(self.path("prometheus"), status))
        began = time.time()
        with socket.create_connection((HOST, relay.line_port), LIMIT) as stream:
            stream.sendall(b"%s 1 1\n" % (b"a" * 2000) * 9000)
        self.fire(prometheus, began, "TakesNothing")
        store.read_on()
        self.assertTrue(wait_until(lambda: "TakesNothing" not in prometheus.firing()), "it ends")

    def test_files_of_a_store_that_is_away(self):
        """They have what comes, until they are full; the store gets it once it is there."""
        port, status = free_ports(2)
        spool = self.path("spool")
        os.makedirs(spool)
        options = ("--status", str(status), "--spool", spool, "--spool-size", str(SPOOLED))
        relay = self.begin(Relayd(self.path("relay"), [f"{HOST}:{port}"], queue=PLACES // 10, options=options))
        prometheus = self.begin(Alerting(self.path("prometheus"), status))
        began = time.time()
        steady = Producer(relay.line_port, b"%s 1 1\n" % (b"a" * 200))
        self.fire(prometheus, began, "Spooling")
        self.assertTrue(wait_until(lambda: prometheus.query("relayd_destination_spool_full == 1")), "they are full")
        self.fire(prometheus, time.time(), "SpoolFull")
        store = Store(port)
        self.addCleanup(store.stop)
        store.start()
        self.ends(prometheus)
        steady.end()

    def test_a_dead_receiver(self):
        """The times of that alert, by promtool."""
        folder = self.path("promtool")
        os.makedirs(folder)
        tests = {"rule_files": [os.path.join(TOP, "examples", "alerts.yml")], "evaluation_interval": "5s", "tests": [{
            "interval": "5s",
            "input_series": [{"series": 'relayd_receiver_up{receiver="line 1"}', "values": "1 0 0 0 0 0 1 1"}],
            "alert_rule_test": [{"alertname": "RelaydReceiverDead", "eval_time": moment, "exp_alerts": alerts} for moment, alerts
                                in (("5s", []), ("25s", [{"exp_labels": {"receiver": "line 1", "severity": "page"},
                                                          "exp_annotations": {"summary": "receiver line 1 takes nothing"}}]),
                                    ("35s", []))]}]}
        path = os.path.join(folder, "tests.yml")
        with open(path, "w", encoding="utf-8") as file:
            json.dump(tests, file)
        done = subprocess.run(["promtool", "test", "rules", path], capture_output=True, text=True, timeout=LIMIT, check=False)
        self.assertEqual(done.returncode, 0, done.stdout + done.stderr)
