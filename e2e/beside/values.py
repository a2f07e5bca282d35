#!/usr/bin/python3
"""Sends the same lines and the same pickles through carbon-relay and through relayd, and compares the values.

    /usr/bin/python3 e2e/beside/values.py [PATH]

PATH is the program `relayd` (crates/relayd/out/relayd, which is built where it is missing or older than the
sources). Both relays run over loopback, each with a store of its own that keeps the lines that it gets. Each
datapoint has a name of its own, so that both lines of it are found, and counts once.

Two values are the same where they are at most one unit of the tenth decimal apart. What may differ else is what
docs/MIGRATING.md says, and each difference is held against its reason:

- carbon takes each value through a binary64, and relayd reads texts and whole numbers exactly. So a value may differ
  where the nearest binary64 is further away than a unit; then carbon's value is that of the binary64.
- `inf`, `nan`, digits with `_`, more than 38 digits, and values beyond 2^63 are no values for relayd.
"""

import os
import pickle
import random
import socket
import struct
import sys
import tempfile
from fractions import Fraction

sys.dont_write_bytecode = True  # the folder stays as it was checked out
END_TO_END = os.path.dirname(os.path.dirname(os.path.abspath(__file__)))
sys.path[:0] = [END_TO_END, os.path.join(END_TO_END, "field")]

from fixtures import decimals, reference
from fixtures.program import find
from fixtures.stores import Store, free_ports
from programs import CarbonRelay, HOST, Relayd, wait_until

SEED = 1
LINES = 4_000
ROWS = 4_000
ROWS_IN_FRAME = 500
MOMENT = 1_700_000_000
UNIT = Fraction(1, reference.UNITS_OF_ONE)
WORKED = (".5", "-0.50", "5.", "-0", "-1e-11", "1e-10", "0.666666666666667", "0.00000000015", "1.00000000000", "1.5e-05",
          "9007199254740993", "9223372036854775807", "-9223372036854775808", "9223372036854775807.9999999999", "1234567.1",
          "123456789012.3456789012", "9223372036854775809", "1e30", "1" * 39, "inf", "nan", "1_000", ".", "1e", "abc")


def texts(source):
    """Values of lines, as collectd, statsd and others write them, and worked ones."""
    yield from WORKED
    while True:
        number = source.choice((source.random(), source.uniform(-1000, 1000), source.expovariate(1e-6),
                                source.randrange(10**9) / 4, float(source.randrange(-10**6, 10**12))))
        yield source.choice(("%.15g", "%.6f", "%f", "%.2f", "%r", "%.10e", "%.12g")) % number


def numbers(source):
    """Values of pickled rows: binary64s of many sizes, and whole numbers."""
    yield from (0.5, 0.1, -0.0, 1 / 3, 2 / 3, 2.0**-1074, 2.0**-34, 3 * 2.0**-35, 2.0**62, -(2.0**63), 2**53 + 1, 2**63 - 1,
                -(2**63), True, 1e-10, 5e-11, 1.5e-10, 1234567.1, 2.0**64, float("inf"))
    while True:
        yield source.choice((source.uniform(-1, 1), source.uniform(-1e6, 1e6), source.randrange(-10**12, 10**12),
                             source.random() * 2.0 ** source.randrange(-40, 62)))


def frames(rows):
    """Rows as carbon's clients send them."""
    for first in range(0, len(rows), ROWS_IN_FRAME):
        data = pickle.dumps(rows[first:first + ROWS_IN_FRAME], protocol=2)
        yield struct.pack("!L", len(data)) + data


def values_through(relay, pickle_port, line_port, store, lines, rows):
    """What the store of a relay gets of these lines and rows: the text of each name's value."""
    with relay:
        last_lines, last_rows = [b"last.of.lines 1 %d\n" % MOMENT], [("last.of.pickles", (MOMENT, 1))]
        for port, pieces in ((line_port, lines + last_lines), (pickle_port, frames(rows + last_rows))):
            with socket.create_connection((HOST, port)) as stream:
                stream.sendall(b"".join(pieces))

        def has_all():
            got = b"".join(store.taken)
            return b"last.of.pickles " in got and b"last.of.lines " in got and got.endswith(b"\n")
        if not wait_until(has_all):
            return None
    return {line.split()[0].decode(): line.split()[1].decode() for line in b"".join(store.taken).splitlines()}


def why_other(given, ours, theirs):
    """What is wrong with two values of one that was given; None where they may be as they are."""
    exact = reference.value(given.encode()) if isinstance(given, str) else as_units(given)
    wanted = None if exact is None else reference.printed(exact).decode()
    if ours != wanted:
        return f"relayd wrote {ours}, and {wanted} is right"
    if ours is None or theirs is None:
        return None if is_known_refusal(given, ours, theirs) else f"relayd wrote {ours}, carbon {theirs}"
    if abs(Fraction(ours) - Fraction(theirs)) <= UNIT:
        return None
    if abs(Fraction(theirs) - Fraction(float(given))) <= UNIT:
        return None  # carbon's is the nearest binary64
    return f"relayd wrote {ours}, carbon {theirs}"


def as_units(number):
    """The value of a pickled number in units; None where it has none."""
    if isinstance(number, float) and number in (float("inf"), float("-inf")):
        return None
    return decimals.units(Fraction(number))


def is_known_refusal(given, ours, theirs):
    """Whether one of both may refuse this value."""
    if ours is None and theirs is not None:
        return isinstance(given, float) or given in ("9223372036854775809", "1e30", "1" * 39, "inf", "1_000")
    return ours is None and theirs is None


def main():
    program = find("relayd", *sys.argv[1:2])
    if program is None:
        return 1
    Relayd.program = program
    source = random.Random(SEED)
    given = {f"line.{n}": text for n, text in zip(range(LINES), texts(source))}
    lines = [f"{name} {text} {MOMENT}\n".encode() for name, text in given.items()]
    rows = [(f"row.{n}", (MOMENT, number)) for n, number in zip(range(ROWS), numbers(source))]
    given.update((name, number) for name, (_, number) in rows)
    with tempfile.TemporaryDirectory() as folder:
        stores = [Store(port).start() for port in free_ports(2)]
        carbon = CarbonRelay(os.path.join(folder, "carbon"), stores[0].port, protocol="line")
        ours = Relayd(os.path.join(folder, "relayd"), [f"{HOST}:{stores[1].port}:a"], queue=100_000)
        carbons = values_through(carbon, carbon.pickle_port, carbon.port, stores[0], lines, rows)
        relayds = values_through(ours, ours.pickle_port, ours.line_port, stores[1], lines, rows)
        for store in stores:
            store.stop()
    if carbons is None or relayds is None:
        print("a store did not get the last datapoint")
        print("0 passed, 1 failed")
        return 1
    wrong = {name: why for name, each in given.items()
             if (why := why_other(each, relayds.get(name), carbons.get(name))) is not None}
    for name, why in list(wrong.items())[:20]:
        print(f"FAIL {given[name]!r}: {why}")
    same = sum(name in carbons and carbons[name] == relayds.get(name) for name in given)
    print(f"{len(given)} values, {same} written alike, {sum(name in relayds for name in given)} taken by relayd, "
          f"{sum(name in carbons for name in given)} by carbon")
    print(f"{len(given) - len(wrong)} passed, {len(wrong)} failed")
    return 0 if not wrong else 1


if __name__ == "__main__":
    sys.exit(main())
