"""The yardstick itself: the reference of replays in Python (`fixtures/replay_reference.py`), not relayd, on worked examples
whose answers come from the formats and from Python's pickles.

relayd is asked the same in `lines.py`, `values.py`, `python_pickles.py` and `routes.py`, in `replay.py` at each cut, and
beside this reference in `replay.Generated`; the calls of its crates by the rows of `fixtures/worked_rows.py`.
"""

import pickle

import pickles
from fixtures.configured import REWRITE, ring, settings
from fixtures.harness import LONGEST_LINE, Suite
from fixtures.replay_inputs import read
from fixtures.replay_pickles import rows
from fixtures.replay_routes import Plan, Ring, destinations_of, position, rewrites_of

ROW = bytes.fromhex("80025d71005803000000612e6271014a00f153654b2a86710286710361 2e")
TWO_ROWS = bytes.fromhex("80025d7100285803000000612e6271014a00f15365474045000000000000867102867103"
                         "68014a01f153654b0786710486710565 2e")
UNREADABLE = ("80025d", "80065d2e", "5d68002e", "5d710068002e", "5d5501ff2e", "632e", "", "5d2858ffffffff",
              "5d2854ffffffff")
NO_ROWS = ("80025d71002e", "5d28652e", "800495ffffffffffffffff5d942e")
ONE_BAD_ROW = bytes.fromhex("80025d285501 61 4b05 4e 86 86 5501 62 4b05 4b07 86 86 65 2e")
LINES = (  # a line, and what is written of it
    (b"  a.b\t+042.000   1700000000.9\r", b"a.b 42 1700000000\n"), (b"a 0.5 7", b"a 0.5 7\n"), (b"b 1.5e3 7", b"b 1500 7\n"),
    (b"m 9223372036854775808 1", b"m 9223372036854775808 1\n"), (b"m 9223372036854775808.0000000001 1", b""),
    (b"a 0.666666666666667 7", b"a 0.6666666667 7\n"), (b"a -1e-11 .9", b"a 0 0\n"), (b"a . 7", b""),
    (b"a 1 -0.9", b"a 1 0\n"), (b"a 1 -1.9", b"a 1 9\n"), (b"a 1 -2", b""),
    (b"a 1 9007199254740992", b"a 1 9007199254740992\n"),
    (b"a 1 9007199254740993", b""), (b"a 1", b""), (b"a 1 2 3", b""))
RULES = r"""[z]
default = true
destinations = h:3003
[one]
pattern = ^A\.
continue = true
destinations = h:3002, h:3009, h:3002
[two]
pattern = cpu
destinations = h:3001, h:3002
"""


def framed(*data):
    """Pickles as frames of a connection."""
    return b"".join(len(each).to_bytes(4, "big") + each for each in data)


def written(found):
    """The lines of what was read."""
    return b"".join(point.line() for point in found.points)


class Inputs(Suite):
    """Lines, datagrams and pickles."""

    def gives(self, kind, stream, lines, **faults):
        """A case: the stream, whole and byte by byte, gives these lines and counts."""
        for pieces in (((stream, 9),), tuple((bytes([byte]), 9) for byte in stream)):
            found = read(kind, pieces)
            told = {name: number for name, number in found._asdict().items() if name != "points" and number}
            with self.subTest():
                self.assertEqual((written(found), told), (lines, faults), stream[:100])
            if kind == "datagram":
                return

    def test_lines(self):
        for line, out in LINES:
            self.gives("line", line + b"\n", out, **({} if out else {"bad_lines": 1}))
        self.gives("line", b"a 1 2\n\n \nb 1 2", b"a 1 2\n")

    def test_the_longest_line(self):
        longest = b"x" * (LONGEST_LINE - 4) + b" 1 2"
        self.gives("line", longest + b"\n", longest + b"\n")
        self.gives("line", b"a 1 2\n" + longest + b"x", b"a 1 2\n", closed=True)
        self.gives("line", b"a 1 2\n" + longest + b"x\na 1 2\n", b"a 1 2\n", closed=True)

    def test_the_moment_of_the_last_byte(self):
        self.assertEqual(written(read("line", ((b"a.b 1 -", 1), (b"1\nc 1", 5)))), b"a.b 1 5\n")
        data = framed(pickle.dumps([("a", (-1, 2))], protocol=2))
        self.assertEqual(written(read("pickle", ((data[:-1], 1), (data[-1:] + data[:9], 5)))), b"a 2 5\n")

    def test_datagrams(self):
        self.gives("datagram", b"a 1 2\r\nb 3 4\x0bbad", b"a 1 2\nb 3 4\n", bad_lines=1)

    def test_worked_pickles(self):
        line = b"a.b 42 1700000000\n"
        self.gives("pickle", framed(ROW), line)
        self.gives("pickle", framed(TWO_ROWS, b"c.", ROW), line + b"a.b 7 1700000001\n" + line, bad_pickles=1)
        self.gives("pickle", framed(ONE_BAD_ROW), b"b 7 5\n", bad_rows=1)
        self.gives("pickle", framed(ROW) + (2**20 + 1).to_bytes(4, "big") + framed(ROW), line, closed=True)
        for data in UNREADABLE:
            self.gives("pickle", framed(bytes.fromhex(data), ROW), line, bad_pickles=1)
        for data in NO_ROWS:
            self.gives("pickle", framed(bytes.fromhex(data)), b"")
        for place in range(len(TWO_ROWS)):
            self.assertIsNone(rows(TWO_ROWS[:place]))

    def test_lists_of_python(self):
        for name, given, protocols in pickles.LISTS:
            for protocol in protocols:
                lines = [pickles.line(row) for row in given]
                bad = {"bad_rows": lines.count(None)} if None in lines else {}
                self.gives("pickle", framed(pickle.dumps(given, protocol)), b"".join(filter(None, lines)), **bad)
        for name, protocol, value in pickles.others():
            with self.subTest():
                self.assertIsNone(rows(pickle.dumps(value, protocol)), (name, protocol))


class Routes(Suite):
    """Rules, rewriting and rings."""

    def test_rules(self):
        plan = Plan(settings(DESTINATIONS="h:3001, h:3002, h:3003"), RULES)
        for name, route in ((b"a.cpu", (1, 0)), (b"a.mem", (1, 2)), (b"b.mem", (2,))):
            self.assertEqual(plan.send(name), (name, route))

    def test_rewriting(self):
        plan = Plan(ring("h:1"), None, REWRITE + "^x$ =\n")
        self.assertEqual(plan.send(b"collectd.web1.cpu"), (b"web1.system.cpu", (0,)))
        self.assertEqual(plan.send(b"x"), (None, ()))
        for text, name, new in (("[post]\nb = c\n[pre]\na = b", "a", "c"), ("[pre]\n(a) = $1\\1", "a", "$1a"),
                                ("[pre]\nx = \\\\y", "x", "\\y"), ("[pre]\na = bb", "aXa", "bbXbb")):
            for pattern, replacement in rewrites_of(text):
                name = pattern.sub(replacement, name)
            self.assertEqual(name, new)

    def test_positions(self):
        for key, place in (("abc", 36865), ("a", 3265), ("", 54301), ("message digest", 63851),
                           ("abcdefghijklmnopqrstuvwxyz", 50172)):
            self.assertEqual(position(key), place)

    def test_walks(self):
        walked = Ring(destinations_of("h:1:a, h:1:b, h:1:c"), 2, diverse=False)
        for seen_from, nodes in ((250, [0, 2]), (200, [1, 0]), (401, [0, 1])):
            start = position("abc") - seen_from
            walked.places = {start + place: node for place, node in ((100, 0), (200, 1), (300, 0), (400, 2))}
            walked.rising = sorted(walked.places)
            self.assertEqual(walked.route("abc"), nodes)
        self.assertEqual(len(Ring(destinations_of("h:1"), 2, diverse=False).rising), 100)
