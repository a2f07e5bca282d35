#!/usr/bin/python3
"""Compares the routes of names with those of carbon's own routers, destination by destination, in order.

    /usr/bin/python3 e2e/beside/routes.py [PATH]

PATH is the program `relayd` (crates/relayd/out/relayd, which is built where it is missing or older than the
sources). Its files are written to a folder, `relayd route` is run on each name, and carbon reads the very same
files: `carbon.conf.Settings` the settings, `carbon.relayrules` the relay rules, `carbon.rewrite` the rewrite
rules, all of Debian's package `graphite-carbon`. The expected line is made anew in each run, from
`carbon.routers` of the name that carbon's rules make.

Each configuration counts once, and its first difference is printed.

Known differences do not count:

- carbon's routers may give a destination twice (by rules; by a ring a lone node where the factor is 2 or
  more). It is kept where it came first.
- carbon passes on what a name was rewritten to, whatever it is. A text that is no name is expected to be dropped.
- carbon's walk leaves out the one place before the place where it began. A node has a hundred places, so the
  walk misses none of these; that it did not is looked at.
"""

import os
import random
import subprocess
import sys
import tempfile
from concurrent.futures import ThreadPoolExecutor
from itertools import islice

sys.dont_write_bytecode = True  # the folder stays as it was checked out
sys.path.insert(0, os.path.dirname(os.path.dirname(os.path.abspath(__file__))))

from carbon.conf import Settings
from carbon.rewrite import POST, PRE, _RewriteRuleManager
from carbon.routers import DatapointRouter
from carbon.util import parseDestinations

from fixtures.configurations import Configurations
from fixtures.program import find

SEED = 1
LIMIT = 200  # seconds that any one run may take
AT_ONCE = 2
EDGES = 4
LONGEST_NAME = 16384


def written(folder, configuration):
    """The paths of the configuration's files."""
    paths = {}
    for role in ("config", "rules", "rewrite"):
        text = getattr(configuration, role)
        if text is not None:
            paths[role] = os.path.join(folder, role)
            with open(paths[role], "w", encoding="ascii") as file:
                file.write(text)
    return paths


class Carbon:
    """carbon with a configuration's files."""

    def __init__(self, paths):
        self.settings = Settings()
        self.settings.readFrom(paths["config"], "relay")
        self.settings["relay-rules"] = paths.get("rules")
        self.router = DatapointRouter.plugins[self.settings.RELAY_METHOD](self.settings)
        for destination in parseDestinations(self.settings.DESTINATIONS):
            self.router.addDestination(destination)
        self.rewriting = _RewriteRuleManager()
        if "rewrite" in paths:
            self.rewriting.rules_file = paths["rewrite"]
            self.rewriting.read_rules()

    def rewritten(self, name):
        """What carbon's rewrite rules make of a name."""
        for ruleset in (PRE, POST):
            for rule in self.rewriting.rules(ruleset):
                name = rule.apply(name)
        return name

    def destinations(self, name):
        """The destinations of a name, each once."""
        found = list(dict.fromkeys(self.router.getDestinations(name)))
        if self.settings.RELAY_METHOD == "consistent-hashing":
            nodes = self.router.instance_ports
            most = len({host for host, _ in nodes}) if self.settings.DIVERSE_REPLICAS else len(nodes)
            most = min(self.settings.REPLICATION_FACTOR, most)
            assert len(found) == most, "carbon's walk missed a node of %s" % name
        return found

    def edge_names(self):
        """Names whose positions are places of the ring, some of them after a place that is taken."""
        if self.settings.RELAY_METHOD != "consistent-hashing":
            return
        ring = self.router.ring
        places = {place for place, _node in ring.ring}
        crowded = {place for place in places if place - 1 in places}
        names = ["edge.%d" % n for n in range(20000)]
        for chosen in filter(None, (places, crowded)):
            yield from islice((name for name in names if ring.compute_ring_position(name) in chosen), EDGES)

    def line(self, name):
        """The line that is expected of a name, and the number of destinations on it."""
        name = self.rewritten(name)
        if not 1 <= len(name.encode()) <= LONGEST_NAME:
            return "dropped", 0
        found = self.destinations(name)
        return " ".join([name, *map(shown, found)]), len(found)


def shown(destination):
    """A destination in text."""
    host, port, instance = destination
    return f"{host}:{port}" if instance is None else f"{host}:{port}:{instance}"


def route(program, paths, name):
    """What the program prints for a name, or how it failed."""
    words = [word for role, path in paths.items() for word in ("--" + role, path)]
    ran = subprocess.run([program, "route", *words, name.encode()], stdin=subprocess.DEVNULL, capture_output=True,
                         timeout=LIMIT)
    if ran.returncode != 0 or ran.stderr:
        return f"status {ran.returncode}, {ran.stderr.decode(errors='replace')!r}"
    return ran.stdout.decode(errors="replace")


def first_difference(program, paths, configuration, seen):
    """The first name of which the program and carbon differ, with both answers; None where there is none."""
    carbon = Carbon(paths)
    names = [*configuration.names, *carbon.edge_names()]
    with ThreadPoolExecutor(AT_ONCE) as pool:
        answers = pool.map(lambda name: route(program, paths, name), names)
        for name, answer in zip(names, answers):
            line, count = carbon.line(name)
            if answer != line + "\n":
                return name, answer, line
            seen["routes"] += 1
            seen["of several destinations"] += count > 1
            seen["of none"] += count == 0
            seen["of rewritten names"] += not line.startswith(name + " ")
            seen["dropped"] += line == "dropped"
    return None


def main():
    program = find("relayd", *sys.argv[1:2])
    if program is None:
        return 1
    seen = dict.fromkeys(("routes", "of several destinations", "of none", "of rewritten names", "dropped"), 0)
    passed = failed = 0
    for configuration in Configurations(random.Random(SEED)).all():
        with tempfile.TemporaryDirectory() as folder:
            paths = written(folder, configuration)
            difference = first_difference(program, paths, configuration, seen)
        if difference is None:
            passed += 1
        else:
            failed += 1
            name, answer, line = difference
            print(f"FAIL {name!r}: {answer!r}, and carbon's {line!r}, by")
            for role in paths:
                print(f"--{role}:\n{getattr(configuration, role)}")
    print(f"{passed + failed} configurations:", ", ".join(f"{count} {what}" for what, count in seen.items()))
    if not failed and 0 in seen.values():
        print("nothing of some kind was compared")
        failed += 1
    print(f"{passed} passed, {failed} failed")
    return 0 if failed == 0 else 1


if __name__ == "__main__":
    sys.exit(main())
