"""`examples/report_to_graphite.py`: what a running relay reports comes to a store as datapoints, under carbon's names."""

import json
import os
import re
import signal
import socket
import subprocess
import sys
import tempfile
import time
import urllib.request

from fixtures.answering import answering
from fixtures.harness import LIMIT
from fixtures.program import TOP
from fixtures.running import WithRelays, shown
from fixtures.stores import free_ports

SCRIPT = os.path.join(TOP, "examples", "report_to_graphite.py")
LINE = re.compile(rb"(\S+) (\d+(?:\.\d+)?) (\d{10})")
COUNTED = {"attemptedRelays": "offered", "sent": "taken", "fullQueueDrops": "dropped"}
SPOOL = ("Datapoints", "Bytes", "AgeSeconds", "DatapointsPerSecond")
MACHINE = socket.gethostname().replace(".", "_")
BOUND = 60  # seconds in which the script gives up, with an answer that hangs and a store that hangs: ten, on a fast machine


def script(admin, port, *words):
    """Runs the script once: its status, and what it says on standard error."""
    ran = subprocess.run([sys.executable, SCRIPT, "--admin", str(admin), "--to", f"127.0.0.1:{port}", *words],
                         stdout=subprocess.PIPE, stderr=subprocess.PIPE, timeout=LIMIT)
    return ran.returncode, ran.stdout + ran.stderr


def is_shown(status):
    """Whether a status has a line and a bad one, a store that is connected, and one that was tried in vain."""
    (there, away), receivers = status["destinations"], status["receivers"]
    counts = [sum(it[name] for it in receivers) for name in ("datapoints", "bad_lines")]
    return there["connected"] and away["failed_tries"] > 0 and counts == [1, 1]


class Reported(WithRelays):
    """A relay with two destinations, of which one is not there."""

    def setUp(self):
        super().setUp()
        folder = tempfile.TemporaryDirectory()
        self.addCleanup(folder.cleanup)
        self.state = os.path.join(folder.name, "counts")

    def values(self, store, seen, count):
        """The values of the next lines of a store by their names."""
        self.wait_for(lambda: len(store.lines()) >= seen + count, "all counts have come")
        found = [LINE.fullmatch(line) for line in store.lines()[seen:]]
        self.assertEqual(len(found), count)
        return {it[1].decode(): float(it[2]) for it in found}

    def test_the_names_of_carbon(self):
        """With --status a dashboard for carbon-relay has what it asks for first."""
        store, own = self.stores(2)
        status, = free_ports(1)
        dests = [f"127.0.0.1:{store.port}:a"]
        words = ("--status", str(status), "--state", self.state)
        rules = f"[all]\ndefault = true\ndestinations = {dests[0]}\n"
        name = f"carbon.relays.{MACHINE}."
        for turn, count in enumerate((3, 5)):  # the second relay has started anew
            with self.relay(dests, rules, options=("--status", str(status))) as relay:
                if turn == 0:
                    self.assertEqual(script(relay.admin, own.port, *words), (0, b""))
                with socket.create_connection(("127.0.0.1", relay.line), LIMIT) as stream:
                    stream.sendall(b"a 1 1\n" * count)
                    self.wait_for(lambda: shown(status)["receivers"][0]["datapoints"] == count, "they have come")
                    seen = len(own.lines())
                    self.assertEqual(script(relay.admin, own.port, *words), (0, b""))
                    values = self.values(own, seen, 5 + 4 + 9 + 3 * 6)
                self.assertEqual((values[name + "metricsReceived"], values[name + "activeConnections"]), (count, 1))
                self.assertGreater(values[name + "memUsage"], 1_000_000)
                self.assertTrue(0 <= values[name + "cpuUsage"] <= 800, values)
                self.assertEqual(values[f"{name}destinations.127_0_0_1:{store.port}:a.relayMaxQueueLength"], 0)
                self.settles(relay)
                time.sleep(1)  # a start is known by its second

    def test_the_table_of_names(self):
        """docs/OPERATING.md has each name that comes, and those of Prometheus are served."""
        with open(os.path.join(TOP, "docs", "OPERATING.md"), encoding="utf-8") as file:
            rows = re.findall(r"(?m)^\| `([\w.]+)`[^|]*\|.*\| `([^|`]+)` \|$", file.read())
        store, own = self.stores(2)
        status, = free_ports(1)
        dests = [f"127.0.0.1:{store.port}:a"]
        with self.relay(dests, f"[all]\ndefault = true\ndestinations = {dests[0]}\n", options=("--status", str(status))) as relay:
            for count in (2 + 2 + 9 + 3 * 6, 5 + 4 + 9 + 3 * 6):
                self.assertEqual(script(relay.admin, own.port, "--status", str(status), "--state", self.state), (0, b""))
                values = self.values(own, len(own.lines()) - count if own.lines() else 0, count)
            short = [name.removeprefix(f"carbon.relays.{MACHINE}.") for name in values]
            names = {re.sub(r"^(d|r)(\w+)\.[^.]+", lambda it: f"{it[0].split('.')[0]}.{it[1].upper()}", name) for name in short}
            self.assertEqual(names, {name for name, _ in rows})
            with urllib.request.urlopen(f"http://127.0.0.1:{status}/metrics", timeout=LIMIT) as answer:
                served = set(re.findall(r"(?m)^# TYPE (\w+)", answer.read().decode()))
            self.assertLessEqual({re.search(r"(relayd|process)_\w+", query)[0] for _, query in rows}, served)
            self.settles(relay)

    def test_the_status_comes_too(self):
        """With --status each destination and each receiver has what the report does not say."""
        store, own = self.stores(2)
        other, status = free_ports(2)
        dests = [f"127.0.0.1:{store.port}:a", f"127.0.0.1:{other}"]
        rules = f"[all]\ndefault = true\ndestinations = {', '.join(dests)}\n"
        options = ("--status", str(status), "--line-receivers", "2")
        with self.relay(dests, rules, options=options) as relay:
            relay.lines(b"a 1 1\nbad\n")
            self.wait_for(lambda: is_shown(shown(status)), "the status has it")
            self.assertEqual(script(relay.admin, own.port, "--status", str(status)), (0, b""))
            values = self.values(own, 0, 2 * 2 + 2 + 2 * 9 + 4 * 6)
            names = f"carbon.relays.{MACHINE}"
            self.assertEqual(values[f"{names}.destinations.127_0_0_1:{store.port}:a.connected"], 1)
            self.assertEqual(values[f"{names}.destinations.127_0_0_1:{other}:None.connected"], 0)
            self.assertGreater(values[f"{names}.destinations.127_0_0_1:{other}:None.failedTries"], 0)
            waiting = [values[f"{names}.destinations.127_0_0_1:{other}:None.spool{kind}"] for kind in SPOOL]
            self.assertEqual(waiting, [0] * 4)
            receivers = [f"{names}.receivers.{name}" for name in ("line_0", "line_1", "pickle", "udp")]
            self.assertEqual([values[f"{name}.open"] for name in receivers], [1] * 4)
            self.assertEqual(sum(values[f"{name}.datapoints"] for name in receivers), 1)
            self.assertEqual(sum(values[f"{name}.rejected"] for name in receivers), 1)
            self.settles(relay)

    def test_counts_come_as_datapoints(self):
        """The queue at once, and from the second turn on what was counted since the last one, by carbon's names."""
        store, own = self.stores(2)
        other, = free_ports(1)
        dests = [f"127.0.0.1:{store.port}:a", f"127.0.0.1:{other}"]
        rules = f"[all]\ndefault = true\ndestinations = {', '.join(dests)}\n"
        with self.relay(dests, rules, MAX_QUEUE_SIZE="3") as relay:
            def send(numbers):
                for number in numbers:
                    relay.lines(b"a %d 1\n" % number)
                    self.wait_for(lambda: len(store.lines()) == number + 1, "the line has come")
                    self.wait_for(lambda: len(set(counts["offered"] for _, counts in relay.report())) == 1, "to both")

            words = ("--prefix", "stats.carbon", "--instance", "b", "--state", self.state)
            names = [f"stats.carbon.relays.{MACHINE}-b.destinations.127_0_0_1:{store.port}:a.",
                     f"stats.carbon.relays.{MACHINE}-b.destinations.127_0_0_1:{other}:None."]
            send(range(2))
            self.assertEqual(script(relay.admin, own.port, *words), (0, b""))
            self.assertEqual(self.values(own, 0, 4), {name + key: queued for name, queued in zip(names, (0, 2))
                                                      for key in ("queued", "relayMaxQueueLength")})
            send(range(2, 7))
            self.assertEqual(script(relay.admin, own.port, *words), (0, b""))
            self.assertEqual(self.values(own, 4, 10), {
                names[0] + "attemptedRelays": 5, names[0] + "sent": 5, names[0] + "fullQueueDrops": 0,
                names[0] + "queued": 0, names[0] + "relayMaxQueueLength": 0, names[1] + "attemptedRelays": 5,
                names[1] + "sent": 0, names[1] + "fullQueueDrops": 4, names[1] + "queued": 3,
                names[1] + "relayMaxQueueLength": 3})
            # A turn that fails is in the next one.
            send(range(7, 9))
            self.assertEqual(script(relay.admin, other, *words)[0], 1)
            send(range(9, 10))
            self.assertEqual(script(relay.admin, own.port, *words), (0, b""))
            self.assertEqual(self.values(own, 14, 10)[names[0] + "sent"], 3)
            self.settles(relay)
        # A relay that has started anew counts from 0.
        with self.relay(dests, rules, MAX_QUEUE_SIZE="3") as relay:
            relay.lines(b"a 1 1\n")
            self.wait_for(lambda: len(store.lines()) == 11, "the line has come")
            self.assertEqual(script(relay.admin, own.port, *words), (0, b""))
            self.assertEqual(self.values(own, 24, 10)[names[0] + "attemptedRelays"], 1)
            self.settles(relay)

    def test_the_relay_itself_takes_them(self):
        """Its own line port reads each line as a datapoint."""
        store, = self.stores(1)
        dests = [f"127.0.0.1:{store.port}"]
        with self.relay(dests, f"[all]\ndefault = true\ndestinations = {dests[0]}\n") as relay:
            with open(self.state, "w", encoding="ascii") as file:
                json.dump({dests[0]: {"queued": 0, "offered": 0, "dropped": 0, "taken": 0}}, file)
            self.assertEqual(script(relay.admin, relay.line, "--state", self.state), (0, b""))
            self.wait_for(lambda: len(store.lines()) == 5, "all counts have come")
            self.settles(relay)

    def test_again_and_again(self):
        """With --every the second turn has the counts, and the first has the queue alone."""
        store, own = self.stores(2)
        dests = [f"127.0.0.1:{store.port}"]
        with self.relay(dests, f"[all]\ndefault = true\ndestinations = {dests[0]}\n") as relay:
            words = [sys.executable, SCRIPT, "--admin", str(relay.admin), "--to", f"127.0.0.1:{own.port}", "--every", "1"]
            with subprocess.Popen(words) as child:
                self.wait_for(lambda: len(own.lines()) >= 7, "two turns have come")
                child.kill()
            self.assertEqual([line.split()[0].split(b".")[-1] for line in own.lines()[:7]],
                             [b"queued", b"relayMaxQueueLength", b"attemptedRelays", b"sent", b"fullQueueDrops", b"queued",
                              b"relayMaxQueueLength"])
            self.settles(relay)

    def fails_in_time(self, admin, port):
        """The script gives up within its limits, with one line."""
        began = time.monotonic()
        status, said = script(admin, port)
        self.assertEqual((status, said.count(b"\n")), (1, 1), said)
        self.assertTrue(said.startswith(b"report_to_graphite: "), said)
        self.assertLess(time.monotonic() - began, BOUND)

    def test_nobody_answers(self):
        """No relay, and no store: one line on standard error, and status 1."""
        self.fails_in_time(*free_ports(2))

    def test_a_relay_that_hangs(self):
        """One that is stopped in its tracks, as by a debugger; the system takes connections for it."""
        store, own = self.stores(2)
        dests = [f"127.0.0.1:{store.port}"]
        with self.relay(dests, f"[all]\ndefault = true\ndestinations = {dests[0]}\n") as relay:
            relay.child.send_signal(signal.SIGSTOP)
            try:
                self.fails_in_time(relay.admin, own.port)
            finally:
                relay.child.send_signal(signal.SIGCONT)
            self.assertEqual(own.lines(), [])
            self.assertEqual(script(relay.admin, own.port), (0, b""))
            self.settles(relay)

    def test_an_answer_that_never_ends(self):
        """By a byte now and then, and as fast as it is read."""
        def slowly(stream):
            for _ in range(BOUND * 4):
                stream.sendall(b"d")
                time.sleep(0.5)

        def fast(stream):
            for _ in range(1000):
                stream.sendall(b"d" * 65536)

        for answer in (slowly, fast):
            with answering(answer) as admin:
                self.fails_in_time(admin, free_ports(1)[0])

    def test_what_is_no_report(self):
        """Another program at the admin port: its answer is not taken for a report."""
        with answering(lambda stream: stream.sendall(b"unknown command\n")) as admin:
            said = script(admin, free_ports(1)[0])
        self.assertEqual(said, (1, b"report_to_graphite: this is no line of a report: unknown command\n"))
