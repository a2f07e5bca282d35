"""`relayd pass --pickle`: the datapoints of frames of pickles as lines, and what is wrong with the others."""

import os
import pickle
import random
import struct

import pickles
from fixtures.harness import Ran, Suite, one_byte_a_read, run

NOTE = b"relayd: note: "
ROWS = [("a.b", (1700000000, 42)), ("c", (-1, 0.5)), ("m\u00e9trique", ("7", "1.50"))]
FORM = NOTE + b"cure: write pickle.dumps(rows, 2), where rows is [(name, (time, value)), ..] of texts and numbers\n"
LINES = b"a.b 42 1700000000\nc 0.5 9\nm\xc3\xa9trique 1.5 7\n"
WORDS = ("pass", "--pickle", "--moment", "9")
LONGEST = 1_048_576
MANY = 150
MOST_NOTES = 100


def framed(*texts):
    """Frames of these pickles."""
    return b"".join(struct.pack(">I", len(text)) + text for text in texts)


BAD = (  # a pickle, the place of the byte that shows what is wrong, and that
    (pickle.dumps(ROWS, 0), 1, b"protocol 0"),
    (b"(I1\n.", 1, b"protocol 0"),
    (b"xyz", 0, b"not a pickle"),
    (b"{}", 0, b"not a pickle"),
    (b"", 0, b"ends too early"),
    (b"]q\1(L1\n.", 4, b"opcode 'L' of protocol 1"),
    (b"\x80\2]q\0(I01\n.", 6, b"opcode 'I' of protocol 2"),
    (b"\x80\2]\x8b\0\0\0\0.", 3, b"opcode 139 of protocol 2"),
    (b"\x80\6].", 1, b"protocol 6"),
    (b"\x80\2]", 3, b"ends too early"),
    (b"\x80\2]X\5\0\0\0ab", 10, b"ends too early"),
    (b"\x80\2]].", 3, b"not a list of rows"),
    (b"\x80\2K\1.", 4, b"not a list of rows"),
    (b"\x80\2]h\7.", 4, b"a memo entry that is not there"),
    (b"\x80\2]X\1\0\0\0\xff.", 8, b"a text that is not UTF-8"),
)


class PickleInput(Suite):
    """The option of `pass`."""

    def test_each_protocol(self):
        for protocol in (1, 2, 3, 4, 5):
            frames = framed(pickle.dumps(ROWS, protocol), pickle.dumps([], protocol), pickle.dumps(ROWS[:1], protocol))
            for words in (WORDS, (*WORDS, "--strict"), (*WORDS, "--explain")):
                self.expect(frames, LINES + LINES[:18], words=words)
            self.same(frames, one_byte_a_read(frames, (*WORDS, "--explain")), Ran(0, LINES + LINES[:18], b""), WORDS)

    def test_no_input(self):
        self.expect(b"", words=WORDS)
        self.expect(b"", words=(*WORDS, "--explain", "--strict"))

    def test_what_is_wrong(self):
        """Good frames around a bad one are taken; the note has the place in the whole input."""
        good = framed(pickle.dumps(ROWS, 2))
        for text, place, why in BAD:
            frames = good + framed(text) + good
            self.expect(frames, LINES * 2, b"bad pickles 1\n", words=WORDS)
            self.expect(frames, LINES * 2, b"bad pickles 1\n", 1, words=(*WORDS, "--strict"))
            note = b"%sframe 2, byte %d: %s\n%s" % (NOTE, len(good) + 4 + place, why, FORM)
            with self.subTest():
                ran = run((*WORDS, "--explain"), frames)
                self.same(text, ran, Ran(0, LINES * 2, note + b"bad pickles 1\n"))
                self.same(text, one_byte_a_read(frames, (*WORDS, "--explain")), ran)

    def test_rows_that_are_no_datapoints(self):
        rows = [("a b", (1, 1)), ("a", (1, "x")), ("a", (None, 1)), *ROWS]
        frames = framed(pickle.dumps(ROWS, 2), pickle.dumps(rows, 2))
        notes = b"".join(b"%sframe 2, row %s\n" % (NOTE, what) for what in (
            b"1: not a metric name: a b", b"2: not a value: a", b"3: not a time: a"))
        self.expect(frames, LINES * 2, b"bad rows 3\n", words=WORDS)
        self.expect(frames, LINES * 2, b"bad rows 3\n", 1, words=(*WORDS, "--strict"))
        self.expect(frames, LINES * 2, notes + b"bad rows 3\n", words=(*WORDS, "--explain"))

    def test_the_end_within_a_frame(self):
        frames = framed(pickle.dumps(ROWS, 2))
        for end in (b"\0", b"\0\0\0\x02", b"\0\0\0\x02]"):
            self.expect(frames + end, LINES, words=(*WORDS, "--strict"))
            self.expect(frames + end, LINES, b"%sframe 2, byte %d: the input ends within it\n" % (NOTE, len(frames)),
                        words=(*WORDS, "--explain"))

    def test_a_length_that_is_too_great(self):
        """Nothing behind it is read; what it may be is said."""
        good = framed(pickle.dumps(ROWS, 2))
        for end, length, cause in ((struct.pack(">I", LONGEST + 1), LONGEST + 1, b""),
                                   (pickle.dumps(ROWS, 2), 0x80025d71, b"a pickle begins there, without the four bytes of its length"),
                                   (struct.pack("<I", 40), 0x28000000, b"the length may begin with its least significant byte, "
                                    b"and the most significant comes first"),
                                   (b"a.b 1 2\n", 0x612e6220, b"lines may begin there, which relayd pass reads without --pickle")):
            self.expect(good + end + good, LINES, b"frame too long\n", 1, words=(*WORDS, "--strict"))
            notes = b"%sframe 2, byte %d: a length of %d, above %d: nothing more is read\n" % (NOTE, len(good), length, LONGEST)
            notes += NOTE + cause + b"\n" if cause else b""
            self.expect(good + end + good, LINES, notes + b"frame too long\n", words=(*WORDS, "--explain"))
        longest = b"\x80\2]X" + struct.pack("<I", LONGEST - 9) + b"x" * (LONGEST - 9) + b"."
        self.expect(framed(longest), notes=b"bad pickles 1\n", words=WORDS)
        self.expect(framed(longest), notes=b"%sframe 1, byte %d: not a list of rows\n%sbad pickles 1\n" % (NOTE, LONGEST + 3, FORM),
                    words=(*WORDS, "--explain"))

    def test_many_bad_frames(self):
        frames = framed(*[b"(l."] * MANY)
        notes = b"".join(b"%sframe %d, byte %d: protocol 0\n" % (NOTE, number + 1, 7 * number + 5) for number in range(MOST_NOTES))
        notes += b"%s%d more bad frames and rows\n%s" % (NOTE, MANY - MOST_NOTES, FORM)
        self.expect(frames, notes=notes + b"bad pickles %d\n" % MANY, words=(*WORDS, "--explain"))

    def test_drawn_frames(self):
        """The lines are those of the rows, however the frames are cut."""
        draw = random.Random(1)
        rows = pickles.many(500)
        frames, place = b"", 0
        while place < len(rows):
            count = draw.randrange(1, 60)
            frames += framed(pickle.dumps(rows[place:place + count], draw.randrange(1, 6)))
            place += count
        self.expect(frames, b"".join(map(pickles.line, rows)), words=WORDS)

    def test_an_output_that_is_full(self):
        with open("/dev/full", "wb") as full:
            self.assertEqual(run(WORDS, framed(pickle.dumps(ROWS, 2)), stdout=full), Ran(3, b"", b"relayd: output\n"))
        folder = os.open("/", os.O_RDONLY)
        try:
            self.assertEqual(run(WORDS, stdin=folder), Ran(3, b"", b"relayd: input\n"))
        finally:
            os.close(folder)
