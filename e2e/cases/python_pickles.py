"""Pickles that Python makes at the time of the test, read by `relayd replay`.

The expected lines come from the rows that were pickled, by the rules of docs/FORMATS.md.
"""

import collections
import pickle
import pickletools
import random

import pickles
from fixtures.harness import short
from fixtures.replayed import Given, Replayed
from fixtures.running import frame

PROTOCOLS = range(1, 6)
NUMBERS = (0, 65536, 0.5, 1e300, float("nan"), ".9", "+042.000", "1.5e3", "1e999", "", ".", "+", "1e", "1e1000", "inf", " 1",
           "1" * 38, "1" * 39)


def report(lines, bad_pickles=0, bad_rows=0, is_open=True):
    """What a connection is to give."""
    return Given(b"".join(lines), 0, bad_pickles, bad_rows, is_open)


def rows_of(count):
    """Rows as daemons send them, each text an object of its own."""
    rng = random.Random(count)
    return [("servers.%s.cpu%d.%s" % (rng.choice(("web", "db", "mail")), i, rng.choice(("load", "idle", "user"))),
             (1700000000 + i % 600, rng.choice((i, -i, i * 70000, 2**31 + i, float(i)))))
            for i in range(count)]


def sharing_rows_of(count):
    """Rows of a few names, with rows, pairs and numbers that are shared."""
    names = ["servers.web%d.requests" % i for i in range(20)]
    pairs = [(1700000000 + i, i) for i in range(300)]
    rows = [(names[i % 20], pairs[i % 300]) for i in range(min(count, 600))]
    return [rows[i % len(rows)] for i in range(count)]


def small(rows):
    """Without the numbers that protocol 1 spells as text."""
    return [(path, (time, value if -(2**31) <= value < 2**31 else 7)) for path, (time, value) in rows]


class FromPython(Replayed):
    """What connections give, by the lines that a store gets of them."""

    def gives(self, what, connection, wanted):
        """A case; one datapoint more than wanted would be offered, too."""
        with self.subTest():
            given = self.given_by(connection, wanted.lines.count(b"\n") + 1)
            if given != wanted:
                self.fail(f"{what}: {short(given.lines)}, {given[1:]}, expected {short(wanted.lines)}, {wanted[1:]}")

    def rows_are_read(self, what, rows, data):
        lines = [pickles.line(row) for row in rows]
        self.gives(what, frame(data), report([it for it in lines if it], 0, lines.count(None)))

    def test_lists_of_all_lengths_in_each_protocol(self):
        for count in (0, 1, 2, 3, 85, 86, 127, 128, 999, 1000, 1001, 1002, 2000, 2001, 10000):
            for protocol in PROTOCOLS:
                rows = rows_of(count) if protocol > 1 else small(rows_of(count))
                self.rows_are_read(f"{count} rows, protocol {protocol}", rows, pickle.dumps(rows, protocol=protocol))

    def test_shared_objects_in_each_protocol(self):
        for count in (2, 1000, 1001, 10000):
            for protocol in PROTOCOLS:
                rows = sharing_rows_of(count)
                self.rows_are_read(f"{count} rows of shared objects, protocol {protocol}", rows,
                                   pickle.dumps(rows, protocol=protocol))

    def test_other_picklers_of_python(self):
        for protocol in PROTOCOLS:
            for rows in (small(rows_of(1001)), sharing_rows_of(10000)):
                self.rows_are_read(f"Python's own pickler, protocol {protocol}", rows, pickle._dumps(rows, protocol))
                self.rows_are_read(f"an optimized pickle, protocol {protocol}", rows,
                                   pickletools.optimize(pickle.dumps(rows, protocol)))

    def test_the_worked_lists(self):
        for name, rows, protocols in pickles.LISTS:
            for protocol in protocols:
                data = pickle.dumps(rows, protocol=protocol)
                self.rows_are_read(f"{name}, protocol {protocol}", rows, data)
                self.rows_are_read(f"{name}, protocol {protocol}, optimized", rows, pickletools.optimize(data))

    def test_what_is_no_list_of_rows(self):
        for name, protocol, value in pickles.others():
            self.gives(f"{name}, protocol {protocol}", frame(pickle.dumps(value, protocol=protocol)), report([], 1))

    def test_numbers_of_rows(self):
        """As values and as times: whole numbers, binary64 and texts, some of which are no numbers or out of range."""
        rows = [("a", (7, value)) for value in (*NUMBERS, 2**63 - 1, -(2**63), 2**63, "9223372036854775808.0000000001")]
        rows += [("a", (time, 1)) for time in (*NUMBERS, 7.9, "7.9", -0.5, 2**53, 2**53 + 1, "1700000000.9")]
        self.rows_are_read("numbers", rows, pickle.dumps(rows, protocol=2))

    def test_what_clients_send(self):
        points = [("a.b.c", (1700000000.0, 42.0)), ("a.b.d", (1700000060.0, 0.5)), ("a.b.e", (1700000060.9, -3.0))]
        whole = [("servers.web1.hits", (1700000000, 12)), ("servers.web1.hits", (1700000010, 13))]
        clients = [
            ("carbon's client", points, 2),
            ("Graphite's documentation", whole, 2),
            ("carbon's example client", points, 1),
            ("a daemon that takes the default", whole, None),
            ("a daemon that takes the highest protocol", whole, -1),
            ("a daemon with texts as numbers", [("a", ("1700000000", "42")), ("b", ("1700000001", "4e1"))], 2),
        ]
        for name, rows, protocol in clients:
            lines = [b"b 40 1700000001\n" if row[1][1] == "4e1" else pickles.line(row) for row in rows]
            self.gives(name, frame(pickle.dumps(rows, protocol=protocol)),
                       report([it for it in lines if it], 0, lines.count(None)))

    def test_a_bad_pickle_between_good_ones(self):
        good = frame(pickle.dumps([("a", (1, 2))], protocol=2))
        pair = collections.namedtuple("pair", "time value")
        globals()["pair"] = pair
        pair.__module__, pair.__qualname__ = __name__, "pair"
        for bad in (pickle.dumps([("a", pair(1, 2))], protocol=2), pickle.dumps([["a", (1, 2)]], protocol=2),
                    pickle.dumps(pickles.Called(), protocol=2), pickle.dumps([("a", (1, 2))], protocol=0), b""):
            self.gives("a bad pickle", good + frame(bad) + good, report([b"a 2 1\n"] * 2, 1))

    def test_the_longest_frame_and_one_that_is_longer(self):
        good = pickle.dumps([("a", (1, 2))], protocol=2)
        longest = good + b"\0" * (1048576 - len(good))
        self.gives("the longest frame", frame(longest) * 2, report([b"a 2 1\n"] * 2))
        self.gives("a longer frame", frame(good) + frame(longest + b"\0") + frame(good),
                   report([b"a 2 1\n"], is_open=False))

    def test_the_moment(self):
        self.gives("-1", frame(pickle.dumps([("a", (-1, 2))], protocol=2)), report([b"a 2 1700000000\n"]))
