"""White space beyond ASCII in names: what carbon does with it, and what the rewrite rules for it do."""

import os
import tempfile

from field.programs import CarbonCache, CarbonRelay
from fixtures.program import TOP
from fixtures.running import WithRelays

MOMENT = 1_700_000_000
SPACES = "\u0085\u00a0\u2003\u2028\u3000"
# The names as they come, each with what carbon makes of it, None where the line is bad to it.
NAMES = {"secret.a": "secret.a", "x.y": "x.y", "secret.b\u00a0c": None, "\u2003x.\u00a0y": None}
NAMES |= {f"{space}secret.{place}": f"secret.{place}" for place, space in enumerate(SPACES)}
NAMES |= {f"secret.end{place}{space}": f"secret.end{place}" for place, space in enumerate(SPACES)}
NAMES |= {f"{SPACES}x.both{SPACES}": "x.both"}


def packaged_rules():
    """The rewrite rules that the package installs."""
    with open(os.path.join(TOP, "examples", "rewrite-rules.conf"), encoding="utf-8") as file:
        return file.read()


class CarbonRelayByRules(CarbonRelay):
    """carbon-relay with a rule of its own, and lines to its stores."""

    def __init__(self, folder, targets, rules):
        super().__init__(folder, "1", "line")
        with open(self.config, encoding="utf-8") as file:
            text = file.read().replace("DESTINATIONS = 127.0.0.1:1\n", f"DESTINATIONS = {', '.join(targets)}\n")
        self.write("carbon.conf", text)
        self.write("relay-rules.conf", rules)


class WhiteSpace(WithRelays):
    """The same lines through a carbon-relay and a relay, each with two stores."""

    def setUp(self):
        super().setUp()
        if not os.path.exists("/usr/bin/carbon-relay"):
            self.skipTest("graphite-carbon is missing")
        self.lines = "".join(f"{name} 7 {MOMENT}\n" for name in NAMES).encode()

    def begin(self, program):
        """Starts a program of carbon's, which ends with the case."""
        program.begin()
        self.addCleanup(program.end)
        return program

    def rules(self, secret, rest):
        """Relay rules that send what begins with `secret.` to a store of its own."""
        return f"[secret]\npattern = ^secret\\.\ndestinations = {secret}\n[rest]\ndefault = true\ndestinations = {rest}\n"

    def folder_of(self, name):
        """A folder for a program."""
        return tempfile.mkdtemp(prefix=f"{name}-", dir=self.folder)

    def names_at(self, store, count):
        """The names that a store got, once there are so many."""
        self.wait_for(lambda: len(store.lines()) >= count, f"{count} lines arrive")
        return sorted(line.decode().rsplit(" ", 2)[0] for line in store.lines())

    def test_beside_carbon(self):
        """With the packaged rewrite rules each store gets the names that it gets of carbon-relay."""
        wanted = [sorted(name for name in NAMES.values() if name and name.startswith("secret") == is_secret)
                  for is_secret in (True, False)]
        theirs, ours = self.stores(2), self.stores(2)
        targets = [f"127.0.0.1:{store.port}" for store in theirs]
        carbon = self.begin(CarbonRelayByRules(self.folder_of("carbon"), targets, self.rules(*targets)))
        targets = [f"127.0.0.1:{store.port}" for store in ours]
        with self.relay(targets, self.rules(*targets), packaged_rules()) as relay:
            relay.lines(self.lines)
            carbon.lines(self.lines)
            for stores in (theirs, ours):
                self.assertEqual([self.names_at(store, len(names)) for store, names in zip(stores, wanted)], wanted)
            self.settles(relay)

    def files(self, cache, name):
        """The cache files a name."""
        self.wait_for(lambda: name in cache.metrics(), f"the cache files {name}")

    def test_what_a_cache_stores(self):
        """Without the rules such a name gets past `^secret\\.`, and a carbon-cache files it as one that begins so."""
        secret, = self.stores(1)
        cache = self.begin(CarbonCache(self.folder_of("cache")))
        targets = [f"127.0.0.1:{secret.port}", f"127.0.0.1:{cache.port}"]
        name = "secret.kept"
        with self.relay(targets, self.rules(*targets), packaged_rules()) as relay:
            relay.lines(f"\u00a0{name} 7 {MOMENT}\nlast.kept 7 {MOMENT}\n".encode())
            self.assertEqual(self.names_at(secret, 1), [name])
            # A cache files names in its own order, one after the other: once it does not hold this one, the next that comes
            # is filed after it.
            self.files(cache, "last.kept")
            self.wait_for(lambda: not cache.holds(name), "nothing of it waits")
            relay.lines(f"after.kept 7 {MOMENT}\n".encode())
            self.files(cache, "after.kept")
            self.assertNotIn(name, cache.metrics())
            self.settles(relay)
        with self.relay(targets, self.rules(*targets)) as relay:
            relay.lines(f"\u00a0secret.past 7 {MOMENT}\n".encode())
            self.files(cache, "secret.past")
            self.assertEqual([counts["offered"] for _, counts in relay.report()], [0, 1])
            self.settles(relay)
