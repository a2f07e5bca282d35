#!/usr/bin/env python3
"""Makes the input of the benchmark: realistic lines, the same for the same seed.

    python3 bench/lines.py PATH [--lines N] [--seed N] [--fractions]

Names are like those of collectd and statsd, of 25 to 103 bytes; most values
are whole numbers, some have `.000000` behind them; times rise. With
`--fractions` half of the values have a fraction, as collectd writes rates
(`1340.106640`) and gauges (`22.32958984375`).
"""

import argparse
import os
import random
import tempfile

LINES = 2_000_000
SEED = 20
BLOCK = 10_000  # lines made at a time


def collectd_names(source, hosts):
    """Names as collectd's Graphite plugin writes them."""
    plugins = (
        [f"cpu-{n}.cpu-{kind}" for n in range(16) for kind in
         ("user", "system", "idle", "wait", "nice", "interrupt", "softirq", "steal")]
        + [f"interface-{port}.if_{kind}.{way}" for port in ("eth0", "eth1", "lo", "docker0", "bond0")
           for kind in ("octets", "packets", "errors", "dropped") for way in ("rx", "tx")]
        + [f"df-{place}.df_complex-{kind}" for place in ("root", "boot", "var-lib-docker-overlay2")
           for kind in ("free", "reserved", "used")]
        + [f"disk-sd{letter}.disk_{kind}.{way}" for letter in "abcd"
           for kind in ("octets", "ops", "time", "merged") for way in ("read", "write")]
        + [f"memory.memory-{kind}" for kind in ("used", "free", "cached", "buffered")]
        + ["load.load.shortterm", "users.users", "swap.swap-used", "processes.fork_rate"])
    return [f"collectd.{host}.{plugin}" for host in hosts for plugin in plugins
            if source.random() < 0.9]


def statsd_names(source, hosts):
    """Names as statsd writes them."""
    services = ("checkout", "search", "login", "recommendation-engine", "img", "api-gateway.v2")
    what = [f"{verb}.{place}" for verb in ("GET", "POST", "PUT", "DELETE")
            for place in ("index", "cart.items", "users.profile.settings", "health")]
    ends = ("count", "rate", "mean", "upper", "upper_90", "sum_90", "lower", "std", "median")
    return [f"stats.{kind}.{service}.{host}.{each}.{end}" for kind in ("timers", "counters")
            for service in services for host in hosts[::7] for each in what for end in ends
            if source.random() < 0.3]


def value(source):
    """The text of a value: mostly small, at times large, negative or with a fraction of zeros."""
    kind = source.random()
    if kind < 0.15:
        return "0"
    if kind < 0.75:
        number = source.randrange(1, 10 ** source.randrange(1, 7))
    elif kind < 0.98:
        number = source.randrange(10**6, 10 ** source.randrange(8, 16))
    else:
        number = -source.randrange(1, 10**6)
    return f"{number}.000000" if source.random() < 0.2 else str(number)


def fraction(source):
    """The text of a value with a fraction: a rate with six decimals, or a gauge with up to fifteen digits.

    None is so small, or has so few digits, that it is written with an exponent, which `bench/pass.c` does not read.
    """
    number = 0.001 + source.choice((source.random(), source.uniform(0, 100), source.uniform(0, 10**6 - 1)))
    return f"{number:f}" if source.random() < 0.6 else f"{number:.{source.randrange(7, 16)}g}"


def write(path, lines, seed, fractions=False):
    """Makes the file, under another name until it is whole."""
    source = random.Random(seed)
    hosts = [f"{kind}{n:02d}{site}" for site in ("", "_fra1", "_ams3_example_net")
             for kind in ("web", "db", "cache-node", "worker") for n in range(1, 8)]
    names = collectd_names(source, hosts) + statsd_names(source, hosts)
    source.shuffle(names)
    values = [fraction(source) if fractions and n % 2 else value(source) for n in range(200_003)]
    folder = os.path.dirname(os.path.abspath(path))
    os.makedirs(folder, exist_ok=True)
    with tempfile.NamedTemporaryFile("w", dir=folder, delete=False, newline="\n") as file:
        time = 1_700_000_000
        for first in range(0, lines, BLOCK):
            time += 1
            file.write("".join([
                f"{names[n % len(names)]} {values[n % len(values)]} {time}\n"
                for n in range(first, min(first + BLOCK, lines))]))
    os.replace(file.name, path)


def main():
    """Reads the command line and makes the file."""
    parser = argparse.ArgumentParser(description="The input of the benchmark.")
    parser.add_argument("path")
    parser.add_argument("--lines", type=int, default=LINES)
    parser.add_argument("--seed", type=int, default=SEED)
    parser.add_argument("--fractions", action="store_true")
    given = parser.parse_args()
    write(given.path, given.lines, given.seed, given.fractions)


if __name__ == "__main__":
    main()
