"""`relayd replay`: worked scripts, faults, and generated scripts beside `fixtures/replay_reference.py`."""

import os
import random
from itertools import accumulate, zip_longest

from cases import fault_order, memory
from fixtures.configured import RULES, SETTINGS, WithFiles, encoded, in_short, settings
from fixtures.harness import GREATEST_TIME, LONGEST_LINE, Ran, Settings, run
from fixtures.replay_met import ALL
from fixtures.replay_reference import MOST_READERS, BadScript, replay
from fixtures.replay_routes import Plan
from fixtures.replay_scripts import Replays

REPLAYS = 500  # that are generated, over all seeds
ONE_READER = """reader line
piece 0 9 612e78203120350a612e79203220350a
up 0
offer 0
offer 0
take 0
wrote 0 8
"""
TWO_READERS = """reader line
reader line
piece 1 9 7a203120350a7a203220350a
offer 1
offer 1
piece 0 9 6261640a612e782031
piece 0 9 20350a71203320350a612e79203220350a
up 0
offer 0
offer 0
offer 0
take 0
wrote 0 8
"""
NO_BYTES = """destination 127.0.0.1:3001 queued 0 offered 0 kept 0 dropped 0 taken 0
destination 127.0.0.1:3002 queued 0 offered 0 kept 0 dropped 0 taken 0
"""
NO_INPUT = "reader 0 waiting 0 bad lines 0 bad pickles 0 bad rows 0 bad names 0\n"
DATAGRAMS = "reader datagram\n" + "".join(
    f"piece 0 9 {datagram.hex()}\noffer 0\noffer 0\n" for datagram in (b"a.b 1 2\r\nc 3 4\vbad", b"bad\n\nworse", b"c 5 -1\f"))
WORKED = (  # a script, and what it prints
    (ONE_READER, """handed 0 0 612e78203120350a
destination 127.0.0.1:3001 queued 0 offered 2 kept 1 dropped 1 taken 1
destination 127.0.0.1:3002 queued 0 offered 0 kept 0 dropped 0 taken 0
""" + NO_INPUT),
    (TWO_READERS, """handed 0 0 612e78203120350a
destination 127.0.0.1:3001 queued 0 offered 2 kept 1 dropped 1 taken 1
destination 127.0.0.1:3002 queued 1 offered 3 kept 1 dropped 2 taken 0
reader 0 waiting 0 bad lines 1 bad pickles 0 bad rows 0 bad names 0
reader 1 waiting 0 bad lines 0 bad pickles 0 bad rows 0 bad names 0
"""),
    ("reader line\ntake 0\noffer 0\nup 0\nup 0\nend 0\ndown 1\n",
     "not now 2\nnot now 3\nnot now 5\nnot now 7\nhanded 0 0 \n" + NO_BYTES + NO_INPUT),
    (DATAGRAMS, """not now 6
not now 7
not now 10
destination 127.0.0.1:3001 queued 1 offered 1 kept 1 dropped 0 taken 0
destination 127.0.0.1:3002 queued 1 offered 2 kept 1 dropped 1 taken 0
reader 0 waiting 0 bad lines 3 bad pickles 0 bad rows 0 bad names 0
"""),
    ("reader line", NO_BYTES + NO_INPUT),
    ("\n# readers\nreader line\n\n  # `up` of what is not there\n up 2\t\r\n\nend 1\n",
     "not now 6\nnot now 8\n" + NO_BYTES + NO_INPUT),
    ("reader line\nup 0000000000000001\nup 9999999999999999\n", "not now 3\nhanded 1 0 \n" + NO_BYTES + NO_INPUT),
    ("reader line\nup 1\nwrote 1 0\nwrote 1 1\ndown 1\nwrote 1 0\nup 1\n",
     "not now 4\nnot now 6\nhanded 1 0 \nhanded 1 1 \n" + NO_BYTES + NO_INPUT),
    (f"reader line\npiece 0 {GREATEST_TIME} {b'a +1.0 -1'.hex()}0a\nend 0\n"
     "offer 0\nup 1\ntake 1\nwrote 1 9\nwrote 1 12\n",
     f"handed 1 0 {b'a 1 9007199254740992'.hex()}0a\n"
     "destination 127.0.0.1:3001 queued 0 offered 0 kept 0 dropped 0 taken 0\n"
     "destination 127.0.0.1:3002 queued 0 offered 1 kept 1 dropped 0 taken 1\n" + NO_INPUT),
)
FAULTY = (  # a script, and the line that is reported
    ("", 0), ("\n", 0), ("# reader line\n\n", 0), ("piece 0 1 0a", 1), ("end 0\nreader line\n", 1), ("up 0\n", 1),
    ("reader line\n\n# then\nreader  line\n", 4), ("reader line\nend 0\nreader line\n", 3), ("reader Line\n", 1),
    ("reader\n", 1), ("readers line\n", 1), ("Reader line\n", 1), ("reader lines\n", 1), ("reader line # a\n", 1),
    ("reader udp\n", 1), ("reader line\n; a comment\n", 2), ("\ufeffreader line\n", 1), ("\u00a0reader line\n", 1),
    ("reader\tline\n", 1), ("reader line\nend\t0\n", 2), ("reader line\nend  0\n", 2), ("reader line\nend\n", 2),
    ("reader line\nend 0 0\n", 2), ("reader line\nend -1\n", 2), ("reader line\nend +1\n", 2),
    ("reader line\nend x\n", 2), ("reader line\nend 0x0\n", 2), ("reader line\nend 00000000000000000\n", 2),
    ("reader line\nend \u0660\n", 2),
    ("reader line\noffer\n", 2), ("reader line\ntake 10000000000000000\n", 2), ("reader line\nup 0,\n", 2),
    ("reader line\ndown 0 1\n", 2), ("reader line\nwrote 0\n", 2), ("reader line\nwrote 0 x\n", 2),
    ("reader line\nwrote 0 1 2\n", 2), ("reader line\nwrote 0 00000000000000000\n", 2), ("reader line\ntaken 0\n", 2),
    ("reader line\npiece 0 9\n", 2), ("reader line\npiece 0 9 \n", 2), ("reader line\npiece 0 9 0\n", 2),
    ("reader line\npiece 0 9 0a0\n", 2), ("reader line\npiece 0 9 0A\n", 2), ("reader line\npiece 0 9 0g\n", 2),
    ("reader line\npiece 0 9 0a 0a\n", 2), ("reader line\npiece 0 9  0a\n", 2), ("reader line\npiece 0 -1 0a\n", 2),
    ("reader line\npiece 0 0a\n", 2), ("reader line\npiece x 9 0a\n", 2),
    (f"reader line\npiece 0 {GREATEST_TIME} 0a\npiece 0 {GREATEST_TIME + 1} 0a\n", 3),
    ("reader line\npiece 0 00000000000000009 0a\n", 2), ("reader line\nup 0\nwhat\nend\n", 3),
    ("reader line\nend 0\nreader line\nwhat\n", 3), ("reader line\n" * (MOST_READERS + 1), MOST_READERS + 1),
    ("# first\n" + "reader line\n" * (MOST_READERS + 2), MOST_READERS + 2),
)


class WithScript(WithFiles):
    """A subject whose cases run a script."""

    def script(self, content):
        """The path of a script: as its content, or as the path of one that is there."""
        if isinstance(content, os.PathLike):
            return content
        path = self.folder / "script"
        path.write_bytes(encoded(content))
        return path

    def replays(self, script, out, fault="", status=0, **files):
        """A case: the script prints this on both ends."""
        err = f"relayd: {fault}\n" if fault else ""
        with self.subTest():
            ran = run(("replay", *self.given(files), self.script(script)))
            words = ("replay", in_short(files.get("config")))
            self.same(in_short(script), ran, Ran(status, encoded(out), encoded(err)), words)

    def replay_fails(self, script, fault, status=1, **files):
        """A case: the run prints nothing but this fault."""
        self.replays(script, "", fault, status, **files)


class Worked(WithScript):
    """Scripts whose output is known."""

    def test_scripts(self):
        for script, out in WORKED:
            self.replays(script, out)

    def test_the_reference_prints_the_same(self):
        for script, out in WORKED:
            with self.subTest():
                self.assertEqual(replay(Plan(SETTINGS, RULES), script).decode(), out)

    def test_as_many_readers_as_there_may_be(self):
        out = "".join(f"reader {r}" + NO_INPUT.removeprefix("reader 0") for r in range(MOST_READERS))
        self.replays("reader pickle\n" * MOST_READERS, NO_BYTES + out)

    def test_a_last_line_without_a_newline(self):
        self.replays(ONE_READER.rstrip("\n"), WORKED[0][1])

    def test_words_in_another_order(self):
        words = ("replay", self.script(ONE_READER), *self.given({}))
        self.same(ONE_READER, run(words), Ran(0, WORKED[0][1].encode(), b""), words)


class Faults(WithScript):
    """Scripts that are refused: nothing is printed but the fault."""

    def test_the_first_faulty_line(self):
        for script, line in FAULTY:
            self.replay_fails(script, f"script: line {line}")

    def test_the_reference_refuses_the_same(self):
        for script, line in FAULTY:
            with self.subTest(), self.assertRaises(BadScript) as refused:
                replay(Plan(SETTINGS, RULES), script)
            self.assertEqual(refused.exception.args, (line,), script)

    def test_nothing_is_printed_of_the_events_before_a_fault(self):
        self.replay_fails(ONE_READER + "up 0\nnonsense\n", "script: line 9")

    def test_cannot_read(self):
        self.replay_fails(self.folder / "missing", "script: cannot read", 3)
        self.replay_fails(self.folder, "script: cannot read", 3)

    def test_not_text(self):
        for script in (b"\xff", b"reader line\n# \xe4\n", b"nonsense\n\xc3"):
            self.replay_fails(script, "script: not text")

    def test_the_files_come_first(self):
        """Whatever the script has, a fault of the files is reported."""
        for fault in fault_order.FAULTS:
            lines = [*encoded(fault_order.RIGHT[fault.role]).splitlines(), fault.line]
            content = self.folder / "missing" if fault.text == fault_order.MISSING else b"\n".join(lines)
            files = fault_order.RIGHT | {fault.role: content}
            for script in (self.folder / "missing", b"\xff", "nonsense", ONE_READER):
                self.replay_fails(script, f"{fault.role}: {fault.text.format(len(lines))}", fault.status, **files)

    def test_no_rules_comes_before_the_script(self):
        for script in (self.folder / "missing", b"\xff", "nonsense", ONE_READER):
            self.replay_fails(script, "rules: NoRules", rules=None)

    def test_output_that_takes_nothing(self):
        with open("/dev/full", "wb") as full:
            words = ("replay", *self.given({}), self.script(ONE_READER))
            self.same(ONE_READER, run(words, stdout=full), Ran(3, b"", b"relayd: output\n"), words)

    def test_small_rooms(self):
        """Out of memory is reported as such, and nothing is printed."""
        words = ("replay", *self.given({}), self.script(TWO_READERS))
        expected = Ran(0, WORKED[1][1].encode(), b"")
        _, runs = memory.runs_in_small_rooms(expected, words, b"")
        for room, ran in runs:
            if ran != expected:
                with self.subTest():
                    self.same(f"a room of {room} bytes", ran, memory.NO_MEMORY, words[:1])


class Lines(WithScript):
    """`--lines FILE` in place of a script, and `--text`."""

    MIXED = (b"a.x 1 5\nbad\na.y 2.50 -1\nb.z 3 7\nq nan 7\n" + b"a." + b"n" * 16000 + b" 9223372036854775808 5\n"
             + b"".join(b"a.m%d %d 9\nz%d -0.125 9\n" % (n, n, n) for n in range(60)) + b"a.cut 1 5")

    def lines(self, content, *words, **files):
        """A run with a file of lines."""
        return run(("replay", *self.given(files), "--lines", self.script(content), *words))

    def test_lines(self):
        with self.subTest():
            ran = self.lines(b"a.x 1 5\nbad\na.y 2.50 -1\nb 3 7\n", "--text")
            self.same("lines", ran, Ran(0, b"""handed 0 0 %s
text 0 0 a.x 1 5
text 0 0 a.y 2.5 0
handed 1 0 62203320370a
text 1 0 b 3 7
destination 127.0.0.1:3001 queued 0 offered 2 kept 2 dropped 0 taken 2
destination 127.0.0.1:3002 queued 0 offered 1 kept 1 dropped 0 taken 1
reader 0 waiting 0 bad lines 1 bad pickles 0 bad rows 0 bad names 0
""" % b"a.x 1 5\na.y 2.5 0\n".hex().encode(), b""))

    def test_no_lines(self):
        for content in (b"", b"a.x 1 5"):
            with self.subTest():
                self.same(content, self.lines(content, "--text"),
                          Ran(0, b"handed 0 0 \nhanded 1 0 \n" + (NO_BYTES + NO_INPUT).encode(), b""))

    def test_nothing_after_a_line_that_is_too_long(self):
        with self.subTest():
            ran = self.lines(b"a.x 1 5\n" + b"a" * 20000 + b"\na.y 2 5\n", "--text")
            self.assertIn(b"text 0 0 a.x 1 5\n", ran.out)
            self.assertNotIn(b"a.y", ran.out)

    def test_beside_a_script(self):
        """The same events in a script print the same, but for the lines of those that are refused."""
        writes = [f"wrote {{0}} {1 << power}" for power in range(14, -1, -1)]
        send = "\n".join(["offer 0"] + [event.format(d) for d in (0, 1) for event in ["take {0}", *writes]])
        for content in (b"a.x 1 5\n", self.MIXED):
            script = "\n".join(["reader line", "up 0", "up 1", f"piece 0 0 {content.hex()}",
                                *[send] * (2 * content.count(b"\n")), "end 0"])
            expected = b"".join(line for line in replay(Plan(SETTINGS, RULES), script).splitlines(True)
                                if not line.startswith(b"not now"))
            with self.subTest():
                self.same(in_short(script), self.lines(content), Ran(0, expected, b""))

    def test_text_of_a_script(self):
        """Each line of a connection, also one that was cut off."""
        script = ONE_READER.replace("wrote 0 8", "wrote 0 3\ndown 0\nup 0\nwrote 0 8")
        with self.subTest():
            ran = run(("replay", "--text", *self.given({}), self.script(script)))
            self.same(script, ran, Ran(0, b"""handed 0 0 612e78
text 0 0 a.x
handed 0 1 612e78203120350a
text 0 1 a.x 1 5
""" + WORKED[0][1].encode().split(b"\n", 1)[1], b""))

    def test_cannot_read(self):
        with self.subTest():
            ran = run(("replay", *self.given({}), "--lines", self.folder / "missing"))
            self.same("missing", ran, Ran(3, b"", b"relayd: script: cannot read\n"))

    def test_wrong_words(self):
        for words in (("--lines",), ("--lines", "a", "b"), ("b", "--lines", "a"), ("--lines", "a", "--lines", "b"), ("--text",),
                      ("--text", "--text", "a")):
            with self.subTest():
                ran = run(("replay", *self.given({}), *words))
                self.assertEqual((ran.status, ran.out, ran.err[:6]), (2, b"", b"error:"), words)


class Cuts(WithScript):
    """Connections in two pieces of two moments, cut at each place, and byte by byte: each cut gives the same, but for a
    time -1, which is the moment of the piece that ends its line or frame."""

    FILES = {"config": settings(MAX_QUEUE_SIZE=1000, MAX_DATAPOINTS_PER_MESSAGE=1000), "rewrite": "[pre]\n^x$ =\n^old\\. = a.\n"}
    OFFERS = 8  # of a piece, at most
    LONGEST = b"x" * (LONGEST_LINE - 4) + b" 1 2\n"
    FIRST, SECOND = 1700000000, 1700000005  # the moments

    def gives(self, kind, cuts, texts, counts):
        """A case: a reader for each cut, of which each gives the two stores these texts, and counts so. A text has `{}`
        where the moment of the byte at a place stands, which is given beside it."""
        script = [f"reader {kind}"] * len(cuts)
        for reader, pieces in enumerate(cuts):
            for piece, moment in pieces:
                script += [f"piece {reader} {moment} {piece.hex()}", *[f"offer {reader}"] * self.OFFERS]
        for dest in (0, 1):
            script += [f"up {dest}", f"take {dest}", *(f"wrote {dest} {1 << power}" for power in range(20, -1, -1))]
        with self.subTest():
            ran = run(("replay", *self.given(self.FILES), self.script("\n".join(script))))
            self.assertEqual((ran.status, ran.err), (0, b""))
            lines = [line for line in ran.out.decode().splitlines() if not line.startswith("not now ")]
            handed = [f"handed {dest} 0 {b''.join(self.stamped(text, pieces) for pieces in cuts).hex()}"
                      for dest, text in enumerate(texts)]
            readers = [f"reader {reader} waiting 0 {counts}" for reader in range(len(cuts))]
            self.assertEqual((lines[:2], lines[4:]), (handed, readers))

    @staticmethod
    def stamped(text, pieces):
        """A text, with the moment of the byte at its place, if it has one."""
        if isinstance(text, bytes):
            return text
        written, place = text
        ends = accumulate(len(piece) for piece, _ in pieces)
        moment = next(moment for end, (_, moment) in zip(ends, pieces) if place < end)
        return written.replace(b"{}", b"%d" % moment)

    def in_two(self, stream, places):
        """The stream in two pieces, cut at each of these places."""
        return [((stream[:at], self.FIRST), (stream[at:], self.SECOND)) for at in places]

    def at_each_place(self, stream):
        """The stream in two pieces, cut at each place, and in bytes, whose moments rise."""
        return [*self.in_two(stream, range(1, len(stream))),
                [(stream[at:at + 1], self.FIRST + at) for at in range(len(stream))]]

    def test_lines(self):
        stream = b"b 1 2\nold.c 3 -1\nbad\nx 1 2\n\na.d 4 5\r\n  a.b\t+042.000   1700000000.9\r\nrest 1 2"
        self.gives("line", self.at_each_place(stream),
                   ((b"a.c 3 {}\na.d 4 5\na.b 42 1700000000\n", stream.index(b"\nbad")), b"b 1 2\n"),
                   "bad lines 1 bad pickles 0 bad rows 0 bad names 1")

    def test_a_line_has_the_moment_of_its_newline(self):
        stream = b"a.b 1 -1\n"
        self.gives("line", self.at_each_place(stream), ((b"a.b 1 {}\n", len(stream) - 1), b""),
                   "bad lines 0 bad pickles 0 bad rows 0 bad names 0")

    def test_values(self):
        """Fractions, exponents and both ends of the range."""
        stream = (b"a.a 0.5 7\nb 1.5e3 7\nm 9223372036854775807 1\nm -9223372036854775808 1\nm 9223372036854775808 1\n"
                  b"m 9223372036854775808.0000000001 1\na.z 1 -1\n")
        self.gives("line", self.at_each_place(stream), (
            (b"a.a 0.5 7\na.z 1 {}\n", len(stream) - 1),
            b"b 1500 7\nm 9223372036854775807 1\nm -9223372036854775808 1\nm 9223372036854775808 1\n"),
            "bad lines 1 bad pickles 0 bad rows 0 bad names 0")

    def test_frames(self):
        """Two rows, the second with its path from the memo; what is no pickle; a row that gives no datapoint; and one whose
        time is -1."""
        stream = (b"\0\0\0\x35\x80\x02]q\0(X\x03\0\0\0a.bq\x01J\0\xf1SeG@E\0\0\0\0\0\0\x86q\x02\x86q\x03h\x01J\x01\xf1SeK\x07"
                  b"\x86q\x04\x86q\x05e.\0\0\0\x02c.\0\0\0\x17\x80\x02](U\x01aK\x05N\x86\x86U\x01bK\x05K\x07\x86\x86e."
                  b"\0\0\0\x11]U\x03a.mJ\xff\xff\xff\xffK\x02\x86\x86a.")
        self.gives("pickle", self.at_each_place(stream),
                   ((b"a.b 42 1700000000\na.b 7 1700000001\na.m 2 {}\n", len(stream) - 1), b"b 7 5\n"),
                   "bad lines 0 bad pickles 1 bad rows 1 bad names 0")

    def test_a_frame_after_one_that_cannot_be_read(self):
        """Each pickle that is refused or has no rows, and the frame of one row after it."""
        row = b"\0\0\0\x1e\x80\x02]q\0X\x03\0\0\0a.bq\x01J\0\xf1SeK*\x86q\x02\x86q\x03a."
        for pickled, bad in ((b"c.", 1), (b"\x80\x02]", 1), (b"\x80\x06].", 1), (b"]h\0.", 1), (b"]q\0h\0.", 1),
                             (b"]U\x01\xff.", 1), (b"\x80\x02]q\0.", 0)):
            self.gives("pickle", self.at_each_place(len(pickled).to_bytes(4, "big") + pickled + row),
                       (b"a.b 42 1700000000\n", b""), f"bad lines 0 bad pickles {bad} bad rows 0 bad names 0")

    def test_a_frame_too_long(self):
        """What comes before it is read, and nothing after its length; one byte less is waited for."""
        row = b"\0\0\0\x1e\x80\x02]q\0X\x03\0\0\0a.bq\x01J\0\xf1SeK*\x86q\x02\x86q\x03a."
        for length in (b"\0\x10\0\x01", b"\0\x10\0\0"):
            self.gives("pickle", self.at_each_place(row + length + row), (b"a.b 42 1700000000\n", b""),
                       "bad lines 0 bad pickles 0 bad rows 0 bad names 0")

    def test_the_longest_line_and_one_that_is_longer(self):
        none = "bad lines 0 bad pickles 0 bad rows 0 bad names 0"
        places = (1, 2, LONGEST_LINE // 2, LONGEST_LINE - 4, LONGEST_LINE - 1, LONGEST_LINE)
        self.gives("line", self.in_two(self.LONGEST, places), (b"", self.LONGEST), none)
        for longer in (b"x" + self.LONGEST, b"x" * (LONGEST_LINE + 1)):
            stream = b"b 1 2\n" + longer + b"c 1 2\n"
            cuts = self.in_two(stream, (*places, *range(LONGEST_LINE + 1, len(stream))))
            self.gives("line", cuts, (b"", b"b 1 2\n"), none)


class Words(WithScript):
    """Words of the command line that are wrong."""

    def test_wrong_words(self):
        files = ("--config", "relay.conf")
        for words in ((), ("script",), files, (*files, "one", "two"), (*files, "script", "--names", "names"),
                      (*files, "script", "--moment", "0"), (*files, *files, "script"), (*files, "-x"), (*files, b"\xff")):
            with self.subTest():
                ran = run(("replay", *words))
                self.assertEqual((ran.status, ran.out, ran.err[:6]), (2, b"", b"error:"), words)

    def test_help(self):
        with self.subTest():
            ran = run(("replay", "--help"))
            self.assertEqual((ran.status, ran.err), (0, b""))
            self.assertIn(b"SCRIPT", ran.out)


class Generated(WithScript):
    """Scripts made from a seed: the program prints what the reference does."""

    def test_beside_the_reference(self):
        for seed in Settings.seeds:
            replays = Replays(random.Random(seed))
            for number in range(REPLAYS // len(Settings.seeds)):
                with self.subTest():
                    self.same_as_the_reference(replays.replay(), f"seed {seed}, replay {number}")
            with self.subTest():
                never = [situation for situation in ALL if not replays.met[situation]]
                self.assertEqual(never, [], f"never met by seed {seed}")

    def same_as_the_reference(self, made, what):
        """Fails, with the first line that differs, where the program and the reference do not print the same."""
        *files, script = made
        words = ("replay", *self.given(dict(zip(("config", "rules", "rewrite"), files))), self.script(script))
        ran, expected = run(words), replay(Plan(*files), script)
        if (ran.status, ran.out, ran.err) == (0, expected, b""):
            return
        pairs = enumerate(zip_longest(ran.out.split(b"\n"), expected.split(b"\n")), 1)
        lines = [f"line {place} is {got!r}, expected {wanted!r}" for place, (got, wanted) in pairs if got != wanted]
        self.fail(f"{what}: status {ran.status}, {ran.err!r}; {(lines or ['the same lines'])[0]}")
