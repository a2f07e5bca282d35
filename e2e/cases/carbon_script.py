"""`examples/compare_with_carbon.py`: what it refuses, and what it reads of carbon's files."""

import os
import pickle
import re
import socket
import subprocess
import sys
from collections import Counter

from field.programs import CarbonRelay
from fixtures.configured import RULES, WithFiles, ring, settings
from fixtures.harness import Settings
from fixtures.program import TOP
from fixtures.running import WithRelays, frame

SCRIPT = os.path.join(TOP, "examples", "compare_with_carbon.py")
CARBON_PYTHON = "/usr/bin/python3"
CARBON = "/usr/lib/python3/dist-packages/carbon/routers.py"
STORES = "10.0.0.1:2004:a, 10.0.0.1:2104:b, 10.0.0.2:2004:a, 10.0.0.2:2104:b"
NAMES = "".join(f"servers.web{number}.cpu.load\n" for number in range(1, 213))
ON_ONE_HOST = 77  # of these names have, without diverse replicas, two copies on one host
TIMES_ALONE = {"MIN_TIMESTAMP_RESOLUTION": "60"}  # a setting that changes no name and no destination


def carbon_text(more="", **keys):
    """The text of a carbon.conf with a ring of two copies, and with more below it."""
    keys = {"RELAY_METHOD": "consistent-hashing", "REPLICATION_FACTOR": 2, "DESTINATIONS": STORES} | keys
    return "[relay]\n" + "".join(f"{key} = {value}\n" for key, value in keys.items()) + more


class Script(WithFiles):
    """The script, by the Python that carbon runs with."""

    def setUp(self):
        super().setUp()
        self.names = self.file("names", NAMES)

    def file(self, name, text):
        """The path of a file that is written."""
        path = self.folder / name
        path.write_text(text, encoding="ascii")
        return path

    def ran(self, *words):
        """How the script ended."""
        python = CARBON_PYTHON if os.path.exists(CARBON) else sys.executable
        return subprocess.run([python, SCRIPT, *map(os.fspath, words)], capture_output=True, text=True, check=False)

    def refuses(self, message, *words):
        """A case: the script ends with status 2 and says why."""
        with self.subTest():
            ran = self.ran(*words)
            self.assertEqual((ran.returncode, ran.stdout), (2, ""), ran.stderr)
            self.assertIn(message, ran.stderr)

    def routes(self, carbon, config, *words):
        """The words that compare these two files."""
        return ("--relayd", Settings.relayd, "routes", "--carbon", self.file("carbon.conf", carbon),
                "--config", self.file("relay.conf", config), *words, self.names)

    def differ(self, count, carbon, config, *words):
        """A case: this number of names differ."""
        with self.subTest():
            ran = self.ran(*self.routes(carbon, config, *words))
            self.assertEqual(ran.stdout.splitlines()[-1:], [f"212 names, {count} with other destinations"], ran.stderr)
            self.assertEqual(ran.returncode, 1 if count else 0)

    def needs_carbon(self):
        """Skips a test where carbon is missing."""
        if not os.path.exists(CARBON):
            self.skipTest("graphite-carbon is missing")

    def test_what_is_missing(self):
        missing = self.folder / "missing"
        self.refuses("cannot be run", "--relayd", missing, "rewrites", missing, self.names)
        self.refuses("cannot be run", "rewrites", missing, self.names, "--relayd", missing)
        self.refuses("required", "routes", self.names)
        self.refuses("is not OLD=NEW", "routes", "--carbon", missing, "--config", missing, "--port", "2004", self.names)

    def test_faults_of_relayd(self):
        missing = self.folder / "missing"
        words = ("--relayd", Settings.relayd)
        self.refuses("relayd: rewrite: cannot read", *words, "rewrites", missing, self.names)
        self.refuses("relayd: config: cannot read", *words, "routes", "--carbon", missing, "--config", missing,
                     self.names)

    def test_diverse_replicas(self):
        """Both relays have their own setting: in carbon it is on unless it is set, and here it is off."""
        self.needs_carbon()
        self.differ(ON_ONE_HOST, carbon_text(), ring(STORES, 2))
        self.differ(0, carbon_text(), ring(STORES, 2, DIVERSE_REPLICAS="true"))
        self.differ(0, carbon_text(DIVERSE_REPLICAS="False"), ring(STORES, 2))
        self.differ(ON_ONE_HOST, carbon_text(DIVERSE_REPLICAS="False"), ring(STORES, 2, DIVERSE_REPLICAS="true"))

    def test_an_instance(self):
        """Its section is read over that of all, and that of `a` where none is named."""
        self.needs_carbon()
        one = ring(STORES, 1)
        self.differ(212, carbon_text("[relay:x]\nREPLICATION_FACTOR = 1\n"), one)
        self.differ(0, carbon_text("[relay:x]\nREPLICATION_FACTOR = 1\n"), one, "--instance", "x")
        self.differ(0, carbon_text("[relay:a]\nREPLICATION_FACTOR = 1\n"), one)
        rules = self.file("carbon-rules", RULES.replace("127.0.0.1:3001", "10.0.0.1:2004:a").replace(
            "127.0.0.1:3002", "10.0.0.2:2104:b"))
        self.differ(0, carbon_text("[relay:rules]\nRELAY_METHOD = rules\n"),
                    settings(RELAY_METHOD="rules", DESTINATIONS=STORES), "--instance", "rules", "--carbon-rules", rules,
                    "--rules", rules)

    def test_options_that_would_do_nothing(self):
        self.needs_carbon()
        rules = self.file("rules", RULES)
        for message, words in (
                ("--instance y: ", ("--instance", "y")),
                ("--carbon-rules: carbon's RELAY_METHOD is consistent-hashing", ("--carbon-rules", rules)),
                ("--rules: relayd's RELAY_METHOD", ("--rules", rules)),
                ("--port 2005=2003: carbon's DESTINATIONS have no port 2005", ("--port", "2005=2003")),
                ("--port 2004=2006: 2004 was given already", ("--port", "2004=2003", "--port", "2004=2006"))):
            self.refuses(message, *self.routes(carbon_text("[relay:x]\n"), ring(STORES, 2), *words))

    def compares(self, last, carbon, config, names, *words):
        """A case: the last line of a comparison of these names."""
        with self.subTest():
            self.names = self.file("names", names)
            ran = self.ran(*self.routes(carbon, config, *words))
            self.assertEqual(ran.stdout.splitlines()[-1:], [last], ran.stderr)

    def test_tags_that_carbon_sorts(self):
        """A name whose tags are not sorted may move, and has another name where it does not."""
        self.needs_carbon()
        names = "".join(f"disk.used;host=web{number};a=1\n" for number in range(100))
        sorted_names = names.replace(";a=1", "").replace(";", ";a=1;")
        carbon, relayd = carbon_text(TAG_RELAY_NORMALIZED="True", DIVERSE_REPLICAS="False"), ring(STORES, 2)
        self.compares("100 names, 0 with other destinations", carbon, relayd, sorted_names)
        self.compares("100 names, 0 with other destinations", carbon_text(DIVERSE_REPLICAS="False"), relayd, names)
        self.names = self.file("names", names)
        ran = self.ran(*self.routes(carbon, relayd))
        moved, renamed = map(int, re.search(r"100 names, (\d+) with other destinations, (\d+) with another name\n\Z",
                                            ran.stdout).groups())
        self.assertEqual((moved + renamed, ran.returncode), (100, 1))
        self.assertGreater(min(moved, renamed), 5)

    def test_lists_of_names(self):
        """The whitelist and the blacklist, and the rewrite rules of docs/MIGRATING.md that do the same."""
        self.needs_carbon()
        white, black = self.file("white", "# ours\n^servers\\.\n^apps\\.\n"), self.file("black", "\\.debug$\n")
        names = "servers.web1.load\nservers.web1.debug\napps.shop.calls\nother.x\n"
        carbon, relayd = carbon_text(USE_WHITELIST="True"), ring(STORES, 2, DIVERSE_REPLICAS="true")
        rewrite = self.file("rewrite", "[pre]\n^.*\\.debug$ =\n^!.* =\n^(servers\\.|apps\\.) = !\\1\n^[^!].* =\n^! =\n")
        lists = ("--whitelist", white, "--blacklist", black)
        self.compares("4 names, 2 with other destinations", carbon, relayd, names, *lists)
        self.compares("4 names, 1 with other destinations", carbon, relayd, names, "--whitelist", white)
        self.compares("4 names, 1 with other destinations", carbon, relayd, names, "--blacklist", black)
        self.compares("4 names, 0 with other destinations", carbon, relayd, names, *lists, "--rewrite", rewrite)
        self.refuses("carbon's USE_WHITELIST is on", *self.routes(carbon, relayd))
        self.refuses("carbon's USE_WHITELIST is off", *self.routes(carbon_text(), relayd, *lists))
        self.refuses("No such file", *self.routes(carbon, relayd, "--whitelist", self.folder / "missing"))

    def test_another_ring(self):
        self.needs_carbon()
        ran = self.ran(*self.routes(carbon_text(ROUTER_HASH_TYPE="fnv1a_ch"), ring(STORES, 2, DIVERSE_REPLICAS="true")))
        self.assertGreater(int(re.search(r"212 names, (\d+) with other", ran.stdout)[1]), 100, ran.stderr)

    def test_the_rules_that_carbon_reads(self):
        """RELAY_RULES names the file. A comparison with another one would compare what carbon does not do."""
        self.needs_carbon()
        text = RULES.replace("127.0.0.1:3001", "10.0.0.1:2004:a").replace("127.0.0.1:3002", "10.0.0.2:2104:b")
        other, site = self.file("relay-rules.conf", text), self.file("site-rules.conf", text)
        carbon = carbon_text(RELAY_METHOD="rules", RELAY_RULES="site-rules.conf")
        relayd = settings(RELAY_METHOD="rules", DESTINATIONS=STORES)
        self.refuses("carbon's RELAY_RULES is site-rules.conf",
                     *self.routes(carbon, relayd, "--carbon-rules", other, "--rules", other))
        self.differ(0, carbon, relayd, "--carbon-rules", site, "--rules", other)

    def test_methods_that_aggregate(self):
        """They route by what the rules make of a name, and other names as the ring does."""
        self.needs_carbon()
        carbon = carbon_text(RELAY_METHOD="aggregated-consistent-hashing")
        relayd = ring(STORES, 2, DIVERSE_REPLICAS="true")
        sums, others, wrong = (self.file(name, text) for name, text in (
            ("sums", "all.load (60) = sum servers.*.cpu.load\n"), ("others", "all.load (60) = sum other.*.cpu.load\n"),
            ("wrong", "all.<<x>> (60) = sum servers.<<x>>\n")))
        self.refuses("carbon's RELAY_METHOD is aggregated-consistent-hashing: give --aggregation-rules", *self.routes(carbon, relayd))
        self.refuses("No such file", *self.routes(carbon, relayd, "--aggregation-rules", self.folder / "missing"))
        self.refuses("--aggregation-rules: carbon's RELAY_METHOD is consistent-hashing",
                     *self.routes(carbon_text(), relayd, "--aggregation-rules", sums))
        self.refuses("carbon itself fails: KeyError", *self.routes(carbon, relayd, "--aggregation-rules", wrong))
        self.refuses("carbon has no RELAY_METHOD ring", *self.routes(carbon_text(RELAY_METHOD="ring"), relayd))
        self.differ(0, carbon, relayd, "--aggregation-rules", others)
        ran = self.ran(*self.routes(carbon, relayd, "--aggregation-rules", sums))
        self.assertGreater(int(re.search(r"212 names, (\d+) with other", ran.stdout)[1]), 100, ran.stderr)

    def test_pools(self):
        self.needs_carbon()
        self.refuses("DESTINATION_POOL_REPLICAS is on", *self.routes(carbon_text(DESTINATION_POOL_REPLICAS="True"), ring(STORES)))

    def test_files_that_carbon_refuses(self):
        self.needs_carbon()
        self.refuses("carbon cannot read", *self.routes("[relay]\n[relay]\n", ring(STORES)))

    def test_all_differences(self):
        """The option is taken before the word and after it."""
        self.needs_carbon()
        words = self.routes(carbon_text(), ring(STORES, 2))
        some, *all_ = (self.ran(*each).stdout for each in (words, ("--all", *words), (*words, "--all")))
        self.assertIn(f"({ON_ONE_HOST - 3} more, which --all shows)\n", some)
        for text in all_:
            self.assertEqual(text.count("\n  carbon: "), ON_ONE_HOST)


class CarbonRing(CarbonRelay):
    """carbon-relay with a ring, lines to its stores, and settings of its own."""

    def __init__(self, folder, targets, lists, method="consistent-hashing", **settings):
        super().__init__(folder, "1", "line")
        with open(self.config, encoding="utf-8") as file:
            text = file.read().replace("DESTINATIONS = 127.0.0.1:1\n", f"DESTINATIONS = {', '.join(targets)}\n")
        text = text.replace("RELAY_METHOD = rules\n", f"RELAY_METHOD = {method}\nREPLICATION_FACTOR = 2\n")
        self.write("carbon.conf", text + "".join(f"{key} = {value}\n" for key, value in settings.items()))
        self.lists = lists

    def words(self):
        *words, start = super().words()
        words = [word for word in words if not word.startswith("--rules=")]
        return [*words, *(f"--{name}={path}" for name, path in self.lists.items()), start]


class OnSockets(WithRelays):
    """What the script says of a site is what its stores get, of a carbon-relay and of a relay."""

    def setUp(self):
        super().setUp()
        if not os.path.exists("/usr/bin/carbon-relay"):
            self.skipTest("graphite-carbon is missing")
        self.text = "".join(f"{kind}.used;host=web{number};a={number % 3}\n" for number in range(60) for kind in ("disk", "net"))
        (self.folder / "names").write_text(self.text, encoding="ascii")
        lists = {"whitelist": "^disk\\.\n", "blacklist": "host=web7\\b\n"}
        for name, text in lists.items():
            (self.folder / name).write_text(text, encoding="ascii")
        self.lists = {name: self.folder / name for name in lists}

    def got(self, stores):
        """Which store got which name, by the places of the stores."""
        return {(place, line.split(b" ")[0]) for place, store in enumerate(stores) for line in store.lines()}

    def site(self, uses_lists=False, **settings):
        """A case: a site with settings of carbon's, once by the script and once on sockets."""
        theirs, ours = self.stores(3), self.stores(3)
        targets, dests = ([f"127.0.0.1:{store.port}:{place}" for place, store in zip("abc", stores)] for stores in (theirs, ours))
        settings |= {"DIVERSE_REPLICAS": "False"}
        lists = self.lists if uses_lists else {}
        carbon = CarbonRing(str(self.folder / f"carbon{len(os.listdir(self.folder))}"), targets, lists, **settings)
        carbon.begin()
        self.addCleanup(carbon.end)
        config = self.folder / "relay.conf"
        config.write_text(ring(", ".join(dests), 2), encoding="ascii")
        ports = [word for one, other in zip(theirs, ours) for word in ("--port", f"{one.port}={other.port}")]
        words = [CARBON_PYTHON, SCRIPT, "--relayd", Settings.relayd, "routes", "--carbon", carbon.config, *ports,
                 *(word for name, path in lists.items() for word in (f"--{name}", path)), "--config", config,
                 self.folder / "names"]
        ran = subprocess.run([*map(os.fspath, words)], capture_output=True, text=True, check=False)
        said = re.search(r"120 names, (\d+) with other destinations(?:, (\d+) with another name)?\n\Z", ran.stdout)
        self.assertTrue(said, ran.stderr)
        lines = "".join(f"{name} 1 1700000000\n" for name in self.text.splitlines()).encode()
        with self.relay(dests, REPLICATION_FACTOR=2, RELAY_METHOD="consistent-hashing") as relay:
            relay.lines(lines)
            carbon.lines(lines)
            self.wait_for(lambda: len(self.got(ours)) == 240, "each store of the relay has its names")
            passed = 60 - 1 if uses_lists else 120
            self.wait_for(lambda: len(self.got(theirs)) == 2 * passed, "each store of carbon has its names")
            self.settles(relay)
        return [int(number or 0) for number in said.groups()], self.differences(theirs, ours)

    def test_pickles_that_carbon_alone_takes(self):
        """docs/MIGRATING.md has them; of a pickle with such a row the others count."""
        def row(name, value=1):
            return name, (1700000000, value)

        taken = [pickle.dumps([row(f"protocol{number}")], number) for number in range(1, 6)]
        refused = [pickle.dumps([row("zero")], 0), pickle.dumps((row("tuple"),), 2), pickle.dumps([list(row("row"))], 2),
                   pickle.dumps([("pair", [1700000000, 1])], 2)]
        mixed = pickle.dumps([row("before"), row("two words"), row("great", 1e30), row("after")], 2)
        (theirs,), (ours,) = self.stores(1), self.stores(1)
        carbon = CarbonRing(str(self.folder / "carbon"), [f"127.0.0.1:{theirs.port}"], {})
        carbon.begin()
        self.addCleanup(carbon.end)

        def names(store):
            return sorted(line.rsplit(b" ", 2)[0].decode() for line in store.lines())

        with self.relay([f"127.0.0.1:{ours.port}"], RELAY_METHOD="consistent-hashing") as relay:
            for pickled in (*taken, *refused, mixed):
                for port in (carbon.pickle_port, relay.pickle):
                    with socket.create_connection(("127.0.0.1", port)) as stream:
                        stream.sendall(frame(pickled))
            both = sorted(["before", "after", *(f"protocol{number}" for number in range(1, 6))])
            self.wait_for(lambda: len(names(theirs)) == len(both) + 6, "carbon has sent all")
            self.wait_for(lambda: len(names(ours)) == len(both), "the relay has sent what it takes")
            self.settles(relay)
        self.assertEqual(names(ours), both)
        self.assertEqual(names(theirs), sorted([*both, "zero", "tuple", "row", "pair", "two words", "great"]))

    def test_metrics_that_are_left_to_carbon(self):
        """A relay in front leaves to a carbon-relay what it aggregates, and sends all else by a ring with the same stores:
        each store gets what it got of carbon-relay alone."""
        stores = self.stores(3)
        targets = [f"127.0.0.1:{store.port}:{place}" for place, store in zip("abc", stores)]
        names = ([f"prod.apps.a{number % 9}.web{number}.requests" for number in range(90)] +
                 [f"servers.web{number}.load" for number in range(90)])
        lines = "".join(f"{name} 1 1700000000\n" for name in names).encode()
        carbon = CarbonRing(str(self.folder / "carbon"), targets, {}, "aggregated-consistent-hashing", DIVERSE_REPLICAS="False")
        carbon.write("aggregation-rules.conf", "<env>.apps.<app>.all.requests (60) = sum <env>.apps.<app>.*.requests\n")
        carbon.begin()
        self.addCleanup(carbon.end)

        def kept():
            return [Counter(line.rstrip(b"\r") for line in store.lines()) for store in stores]

        def sent_by(send):
            before = kept()
            send(lines)
            self.wait_for(lambda: sum(map(Counter.total, kept())) == sum(map(Counter.total, before)) + 2 * len(names),
                          "all have come")
            return [now - then for now, then in zip(kept(), before)]

        alone = sent_by(carbon.lines)
        with self.relay(targets, REPLICATION_FACTOR=2, RELAY_METHOD="consistent-hashing") as on_ring:
            self.assertNotEqual(sent_by(on_ring.lines), alone)
            left, rest = f"127.0.0.1:{carbon.port}:carbon", f"127.0.0.1:{on_ring.line}:ring"
            rules = f"[left]\npattern = \\.apps\\.\ndestinations = {left}\n[rest]\ndefault = true\ndestinations = {rest}\n"
            with self.relay([left, rest], rules) as front:
                self.assertEqual(sent_by(front.lines), alone)
                self.assertEqual([counts["taken"] for _, counts in front.report()], [90, 90])
                self.settles(front)
            self.settles(on_ring)

    def differences(self, theirs, ours):
        """How many names go to other stores, and how many to the same stores under another name."""
        def by_name(stores):
            found = {}
            for place, name in self.got(stores):
                given = name.split(b";")[0] + re.search(rb";host=\w+", name)[0]
                found.setdefault(given, (name, set()))[1].add(place)
            return found
        carbon, relay = by_name(theirs), by_name(ours)
        moved = [name for name, (_, places) in relay.items() if carbon.get(name, (None, set()))[1] != places]
        renamed = [name for name, (text, _) in relay.items() if name not in moved and carbon[name][0] != text]
        return [len(moved), len(renamed)]

    def test_a_site_with_each_setting(self):
        """The script counts exactly the names that go elsewhere, or by another name, on sockets."""
        for uses_lists, keys in ((False, {}), (False, TIMES_ALONE), (False, {"TAG_RELAY_NORMALIZED": "True"}),
                                 (True, {"USE_WHITELIST": "True"}), (False, {"ROUTER_HASH_TYPE": "fnv1a_ch"}),
                                 (True, {"USE_WHITELIST": "True", "TAG_RELAY_NORMALIZED": "True"})):
            with self.subTest():
                said, found = self.site(uses_lists, **keys)
                self.assertEqual(said, found, keys)
                self.assertEqual(sum(said) > 0, keys not in ({}, TIMES_ALONE), keys)

    def test_a_copy_of_the_traffic(self):
        """A relay with rules in front of a carbon-relay with a ring and of another relay: the stores of both get the same."""
        theirs, ours = self.stores(3), self.stores(3)
        targets, dests = ([f"127.0.0.1:{store.port}:{place}" for place, store in zip("abc", stores)] for stores in (theirs, ours))
        carbon = CarbonRing(str(self.folder / "carbon"), targets, {}, DIVERSE_REPLICAS="False")
        carbon.begin()
        self.addCleanup(carbon.end)
        with self.relay(dests, REPLICATION_FACTOR=2, RELAY_METHOD="consistent-hashing") as trial:
            both = [f"127.0.0.1:{carbon.port}:carbon", f"127.0.0.1:{trial.line}:relayd"]
            rules = f"[both]\ndefault = true\ndestinations = {', '.join(both)}\n"
            with self.relay(both, rules) as front:
                front.lines("".join(f"{name} 1 1700000000\n" for name in self.text.splitlines()).encode())
                for stores in (theirs, ours):
                    self.wait_for(lambda stores=stores: len(self.got(stores)) == 240, "each store has its names")
                self.settles(front)
            self.settles(trial)
        self.assertEqual(self.differences(theirs, ours), [0, 0])
