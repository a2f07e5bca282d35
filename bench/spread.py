#!/usr/bin/python3
"""How many of some metric names carbon's own router gives each store of a ring.

    /usr/bin/python3 bench/spread.py COPIES HOST:PORT:INSTANCE .. <NAMES

It prints a count for each store. Debian's package graphite-carbon has the router, for that Python alone.
"""

import collections
import shutil
import subprocess
import sys
import tempfile

DEBIAN_PYTHON = "/usr/bin/python3"


def print_counts(copies, destinations):
    """Asks carbon's router for each name of standard input."""
    from carbon.conf import Settings
    from carbon.routers import ConsistentHashingRouter

    settings = Settings()
    settings["REPLICATION_FACTOR"], settings["DIVERSE_REPLICAS"] = copies, False
    router = ConsistentHashingRouter(settings)
    for place, destination in enumerate(destinations):
        host, _, instance = destination.split(":")
        router.addDestination((host, place, instance))
    counts = collections.Counter(place for name in sys.stdin for _, place, _ in router.getDestinations(name.rstrip("\n")))
    print(*(counts[place] for place in range(len(destinations))))


def counts_of_carbon(names, plan):
    """What carbon's router gives each store; none where graphite-carbon is missing."""
    if not shutil.which("carbon-relay"):
        return None
    ran = subprocess.run([DEBIAN_PYTHON, __file__, str(plan.replicas), *plan.destinations().split(", ")],
                         input="\n".join(names), stdout=subprocess.PIPE, check=True, text=True)
    return [int(word) for word in ran.stdout.split()]


def counts_of_relayd(names, plan, relayd):
    """What `relayd route` gives each store: the same, by e2e/beside/ring.py."""
    with tempfile.NamedTemporaryFile("w", suffix=".conf") as config:
        config.write(plan.settings())
        config.flush()
        ran = subprocess.run([relayd, "route", "--config", config.name, "--names", "-"],
                             input="".join(f"{name}\n" for name in names), stdout=subprocess.PIPE, check=True, text=True)
    counts = collections.Counter(ran.stdout.split())
    return [counts[destination] for destination in plan.destinations().split(", ")]


def counts_by_store(names, plan, relayd):
    """How many of the names each store of a ring is to get."""
    return counts_of_carbon(names, plan) or counts_of_relayd(names, plan, relayd)


if __name__ == "__main__":
    print_counts(int(sys.argv[1]), sys.argv[2:])
