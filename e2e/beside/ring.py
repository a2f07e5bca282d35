#!/usr/bin/python3
"""Compares the ring with carbon's own, choice by choice, with and without diverse replicas.

    /usr/bin/python3 e2e/beside/ring.py [PATH]

PATH is the program `relayd` (crates/relayd/out/relayd, which is built where it is missing or older than the
sources): `relayd route --names` prints the choices. With a factor of 1 each list is asked for a name at each
place of the ring and one right past it, so each position has the node that carbon gives it. The expected values
come from the `ConsistentHashingRouter` of Debian's package `graphite-carbon`, with DIVERSE_REPLICAS off and on,
and are made anew in each run.

Each list of destinations counts once; the first difference ends the run.

One difference is known and does not count: carbon's `get_nodes` gives a lone node twice where the factor is 2 or
more. A choice here has it once.
"""

import os
import random
import subprocess
import sys
import tempfile

sys.dont_write_bytecode = True  # the folder stays as it was checked out
sys.path.insert(0, os.path.dirname(os.path.dirname(os.path.abspath(__file__))))

from carbon.conf import Settings
from carbon.hashing import carbonHash
from carbon.routers import ConsistentHashingRouter

from fixtures.program import find

LAST_POSITION = 65535
REPLICAS = 100


def node_of(destination):
    """carbon's node: the host and the instance."""
    host, _port, *instance = destination.split(":")
    return (host, instance[0] if instance else None)


def position(key):
    return carbonHash(key, "carbon_ch")


def replica_positions(node):
    return [position("%s:%d" % (node, i)) for i in range(REPLICAS)]


def lists_of_hosts(rng):
    """Lists of destinations of all sizes, with and without instances."""
    for count in (1, 2, 3, 4, 5, 7, 10, 16, 31, 32, 64):
        yield ["10.0.0.%d:2004" % n for n in range(1, count + 1)]
        yield ["store-%d.example:%d" % (n, 3000 + n) for n in range(count)]
    yield ["127.0.0.1:3001"]
    yield ["127.0.0.1:2004:%s" % letter for letter in "abcdefgh"]
    yield ["127.0.0.1:2004", "127.0.0.1:2104:a", "127.0.0.1:2204:None", "127.0.0.2:2004:a"]
    yield ["10.0.0.1:2004:a", "10.0.0.1:2104:b", "10.0.0.2:2004:a", "10.0.0.2:2104:b"]
    yield ["h%d:%d:i%d" % (n % 16, 2000 + n, n // 16) for n in range(64)]
    labels = "abcdefghijklmnopqrstuvwxyzABCDEFGHIJKLMNOPQRSTUVWXYZ0123456789.-_"
    for _ in range(30):
        destinations = {}
        for _ in range(rng.randint(1, 24)):
            host = "".join(rng.choice(labels) for _ in range(rng.randint(1, 40)))
            instance = rng.choice(["", ":" + "".join(rng.choice(labels) for _ in range(rng.randint(1, 20)))])
            destination = "%s:%d%s" % (host, rng.randint(1, 65535), instance)
            destinations.setdefault(node_of(destination), destination)
        yield list(destinations.values())
    yield ["x" * 255 + ":1:" + "y" * 255, "x" * 255 + ":1"]


def lists_on_shared_hosts(rng):
    """Lists of 1 to 64 destinations on 1 to 64 hosts: some with several instances, some hosts with one more node that
    names none."""
    for count in (*range(1, 9), 10, 13, 16, 24, 40, 64):
        for hosts in sorted({1, rng.randint(1, count), (count + 1) // 2, count}):
            bare = set(rng.sample(range(hosts), rng.randint(0, hosts)))
            seen = {}
            destinations = []
            for n in range(count):
                host = n if n < hosts else rng.randrange(hosts)
                number = seen[host] = seen.get(host, -1) + 1
                instance = "" if number == 0 and host in bare else ":" + "abcdefghijklmnopqrstuvwxyz"[number % 26] * (1 + number // 26)
                destinations.append("10.1.%d.%d:%d%s" % (host // 8, host % 8, 2004 + 100 * number, instance))
            rng.shuffle(destinations)
            yield destinations


def list_past_the_last_position():
    """Destinations of which several replicas have the last position, so that some are placed past it."""
    chosen = []
    n = 0
    while len(chosen) < 4:
        host = "past-%d" % n
        if LAST_POSITION in replica_positions((host, None)):
            chosen.append(host + ":2004")
        n += 1
    return chosen


def names_by_position():
    """A name for each position."""
    found = {}
    n = 0
    while len(found) <= LAST_POSITION:
        found.setdefault(position("edge.%d" % n), "edge.%d" % n)
        n += 1
    return found


NAME_AT = names_by_position()


def names_at(positions):
    return [NAME_AT[it] for it in sorted(positions) if 0 <= it <= LAST_POSITION]


def names(rng, ring):
    """Names of metrics, some of them with positions at, right below and right above an entry's place."""
    chosen = ["abc", "a", "x" * 16384, "servers.web2.cpu.load", "naïve.métrique", "負荷.平均", "a;host=b;dc=c"]
    chosen += ["servers.web%d.cpu.%d.load" % (rng.randint(0, 9999), rng.randint(0, 63)) for _ in range(60)]
    places = [place for place, _node in ring.ring]
    edges = {place + step for place in rng.sample(places, min(20, len(places))) for step in (-1, 0, 1)}
    edges |= {0, places[0] - 1, places[0], places[0] + 1, places[-1] - 1, places[-1], places[-1] + 1, LAST_POSITION}
    return chosen + names_at(edges)


def edge_names(ring):
    """A name at each place of the ring and one right past it: between two places, all positions have one node."""
    return names_at({0, LAST_POSITION, *(place + step for place, _node in ring.ring for step in (0, 1))})


def router_of(nodes, factor, diverse):
    """carbon's router by the ring of these nodes."""
    settings = Settings()
    settings["REPLICATION_FACTOR"] = factor
    settings["DIVERSE_REPLICAS"] = diverse
    router = ConsistentHashingRouter(settings)
    for number, (host, instance) in enumerate(nodes):
        router.addDestination((host, number, instance))
    return router


class Walks:
    """carbon's walks of a ring, each made once."""

    def __init__(self, ring):
        self.ring, self.found = ring, {}

    def get_nodes(self, name):
        if name not in self.found:
            self.found[name] = list(self.ring.get_nodes(name))
        return self.found[name]


def routers_of(nodes, factors):
    """carbon's ring of nodes, and its routers for each factor, not diverse and diverse, which share the ring's walks."""
    first = router_of(nodes, 1, False)
    walks = Walks(first.ring)
    routers = {}
    for factor in factors:
        for diverse in (False, True):
            router = routers[factor, diverse] = router_of([], factor, diverse)
            router.ring, router.instance_ports = walks, first.instance_ports
    return first.ring, routers


def expected_choice(router, name):
    """The numbers of the destinations that carbon chooses, each once."""
    return list(dict.fromkeys(number for _host, number, _instance in router.getDestinations(name)))


CONFIGURATION = """\
[relay]
RELAY_METHOD = consistent-hashing
DESTINATIONS = %s
REPLICATION_FACTOR = %d
DIVERSE_REPLICAS = %s
USE_FLOW_CONTROL = False
DESTINATION_PROTOCOL = line
"""


def choices_of(program, destinations, factor, diverse, asked):
    """The numbers of the destinations that the program chooses for each of these names."""
    with tempfile.NamedTemporaryFile("w", suffix=".conf", encoding="ascii") as config:
        config.write(CONFIGURATION % (", ".join(destinations), factor, diverse))
        config.flush()
        ran = subprocess.run([program, "route", "--config", config.name, "--names", "-"], capture_output=True,
                             input="".join(name + "\n" for name in asked).encode())
    assert ran.returncode == 0 and not ran.stderr, (ran.returncode, ran.stderr[:500])
    lines = ran.stdout.decode().splitlines()
    assert len(lines) == len(asked), "%d lines for %d names" % (len(lines), len(asked))
    number_of = {destination: number for number, destination in enumerate(destinations)}
    for name, line in zip(asked, lines):
        first, *chosen = line.split(" ")
        assert first == name, (name[:200], line[:200])
        yield [number_of[destination] for destination in chosen]


def compare(program, destinations, rng, seen):
    """Compares each choice of a list of destinations, and counts what was compared."""
    nodes = [node_of(destination) for destination in destinations]
    ring, routers = routers_of(nodes, sorted({1, 2, 3, 4, 5, len(nodes), 64}))
    wanted = [place for node in nodes for place in replica_positions(node)]
    seen["replicas at a place that was taken"] += len(wanted) - len(set(wanted))
    seen["replicas past the last position"] += sum(place > LAST_POSITION for place, _node in ring.ring)
    some, plain = names(rng, ring), {}
    for (factor, diverse), router in routers.items():
        asked = some + edge_names(ring) if factor == 1 else some
        for name, given in zip(asked, choices_of(program, destinations, factor, diverse, asked)):
            expected = expected_choice(router, name)
            assert given == expected, "%s, factor %d, diverse %s: %s, and carbon's %s" % (
                name[:200], factor, diverse, given, expected)
            seen["diverse choices" if diverse else "choices"] += 1
            seen["diverse choices that differ"] += diverse and expected != plain[factor, name]
            plain.setdefault((factor, name), expected)


FEWEST = {  # what was seen at least, for the comparison to mean something
    "choices": 300000, "diverse choices": 300000, "diverse choices that differ": 4000,
    "replicas at a place that was taken": 1000, "replicas past the last position": 2,
}


def main():
    program = find("relayd", *sys.argv[1:2])
    if program is None:
        sys.exit(1)
    rng = random.Random(1)
    lists = [*lists_of_hosts(rng), *lists_on_shared_hosts(rng), list_past_the_last_position()]
    seen = dict.fromkeys(FEWEST, 0)
    for destinations in lists:
        compare(program, destinations, rng, seen)
    assert all(seen[what] >= fewest for what, fewest in FEWEST.items()), seen
    print("%d rings: %s; all the same" % (len(lists), ", ".join("%d %s" % (count, what) for what, count in seen.items())))
    print("%d passed, 0 failed" % len(lists))


if __name__ == "__main__":
    main()
