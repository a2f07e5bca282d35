"""Two relays in a row, as the files of `examples/two-relays` have them: relay rules, and behind them a hash ring."""

import contextlib
import os
import re

from fixtures.harness import held, run
from fixtures.program import TOP
from fixtures.running import Relay, WithRelays
from fixtures.stores import Store, free_ports

EXAMPLES = os.path.join(TOP, "examples", "two-relays")
NAMES = [f"servers.web{number}.{kind}" for number in range(50) for kind in ("load.shortterm", "cpu.idle")]
WATCHED = [name for name in NAMES if ".load." in name]
COPIES = 2  # as ring.conf says
ALERTS, *STORES = "10.0.0.4:2003", "10.0.0.1:2003", "10.0.0.2:2003", "10.0.0.3:2003"
PLACE = re.compile(r"\b10\.0\.0\.\d:2003\b|\b2\d\d\d\b")  # a store, or a port of the relays themselves


class InARow(WithRelays):
    """The files as they are, with free ports of loopback in place of their stores and ports."""

    def setUp(self):
        super().setUp()
        texts = {}
        for name in ("front.conf", "front-rules.conf", "ring.conf"):
            with open(os.path.join(EXAMPLES, name), encoding="ascii") as file:
                texts[name] = file.read()
        found = sorted(set(PLACE.findall("".join(texts.values()))))
        self.port = dict(zip(found, free_ports(len(found))))

        def free(place):
            port = str(self.port[place[0]])
            return f"127.0.0.1:{port}" if ":" in place[0] else port

        self.text = {name: PLACE.sub(free, text) for name, text in texts.items()}

    def start(self, place):
        """A store in place of one of the files."""
        store = Store(self.port[place]).start()
        self.addCleanup(store.stop)
        return store

    @contextlib.contextmanager
    def runs(self, admin, line, **names):
        """A relay that runs on these files, which is ready."""
        words = []
        for role, name in names.items():
            path = self.folder / name
            path.write_text(self.text[name], encoding="ascii")
            words += ["--" + role, os.fspath(path)]
        with held(["run", *words, "--admin", str(self.port[admin])], bufsize=0) as child:
            relay = Relay(child, self.port[line], 0, 0, self.port[admin])
            if not relay.is_ready():
                child.kill()
                self.fail(f"it was not ready: {relay.end()}")
            yield relay

    def ring(self):
        """The second relay."""
        return self.runs("2016", "2213", config="ring.conf")

    def front(self):
        """The first."""
        return self.runs("2015", "2013", config="front.conf", rules="front-rules.conf")

    def expected(self, stores):
        """The names that `relayd route` puts on the ring, for each store, in the order in which they are sent."""
        words = ["route", "--config", os.fspath(self.folder / "ring.conf"), "--names", "-"]
        lines = run(words, "".join(f"{name}\n" for name in NAMES).encode()).out.decode().splitlines()
        return [[line.split()[0] for line in lines if f":{store.port}:" in line] for store in stores]

    def test_rules_before_a_ring(self):
        """The store of the alerts has what the rule takes; each metric is at two stores of the ring; both settle."""
        alerts, *stores = map(self.start, (ALERTS, *STORES))
        with self.ring() as ring, self.front() as front:
            front.lines("".join(f"{name} 1 1700000000\n" for name in NAMES).encode())
            self.wait_for(lambda: sum(len(store.lines()) for store in stores) == COPIES * len(NAMES) and
                          len(alerts.lines()) == len(WATCHED), "all have come")
            got = [[line.split()[0].decode() for line in store.lines()] for store in (alerts, *stores)]
            self.assertEqual(got[0], WATCHED)
            self.assertEqual(got[1:], self.expected(stores))
            self.assertEqual({sum(name in names for names in got[1:]) for name in NAMES}, {COPIES})
            self.settles(front)
            self.settles(ring)

    def test_the_second_is_away(self):
        """What waits for it in the first is written once it is back, and the store of the alerts does not notice."""
        alerts, *stores = map(self.start, (ALERTS, *STORES))
        with self.front() as front:
            front.lines("".join(f"{name} 1 1700000000\n" for name in NAMES).encode())
            self.wait_for(lambda: len(alerts.lines()) == len(WATCHED), "the alerts have theirs")
            self.wait_for(lambda: front.report()[1][1]["queued"] == len(NAMES), "all wait for the second")
            with self.ring() as ring:
                self.wait_for(lambda: sum(len(store.lines()) for store in stores) == COPIES * len(NAMES),
                              "all have come")
                self.settles(front)
                self.settles(ring)

    def test_several_rings(self):
        """Each ring gets what the rules send it, and each of its metrics is at one of its stores."""
        rings, names = [self.stores(2), self.stores(2)], [f"{head}.x{number}" for number in range(40) for head in "ab"]
        ring = {"RELAY_METHOD": "consistent-hashing"}
        first, second = [[f"127.0.0.1:{store.port}:{name}" for store, name in zip(stores, "xy")] for stores in rings]
        with self.relay(first, **ring) as one, self.relay(second, **ring) as two:
            places = [f"127.0.0.1:{one.line}", f"127.0.0.1:{two.line}"]
            rules = (f"[a]\npattern = ^a\\.\ndestinations = {places[0]}\n"
                     f"[rest]\ndefault = true\ndestinations = {places[1]}\n")
            with self.relay(places, rules) as front:
                front.lines("".join(f"{name} 1 1700000000\n" for name in names).encode())
                self.wait_for(lambda: sum(len(store.lines()) for stores in rings for store in stores) == len(names),
                              "all have come")
                for relay in (front, one, two):
                    self.settles(relay)
        for stores, head in zip(rings, "ab"):
            got = [line.split()[0].decode() for store in stores for line in store.lines()]
            self.assertEqual(sorted(got), sorted(name for name in names if name.startswith(head)))
            self.assertTrue(all(store.lines() for store in stores))
