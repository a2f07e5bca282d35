"""The program against the reference, on lines that seek the edges."""

import itertools
import random
import socket

from fixtures import reference
from fixtures.edge_lines import EdgeLines, NO_NUMBERS, NOT_UTF_8, NOT_WHITE, TEXTS
from fixtures.harness import GREATEST_TIME, LIMIT, LONGEST_LINE, Ran, Settings, Suite, held, run, short

STREAMS = 300  # for each seed
LINES = 70     # in each stream
MOST_SHOWN = 3  # differences shown for each seed


def expected_of(stream, moment):
    """How a run on this stream ends by the reference."""
    out, notes = reference.relay(stream, moment)
    return Ran(0, out, notes)


def run_of(stream, moment):
    """How a run of the program on this stream ended."""
    return run(("pass", "--moment", str(moment)), stream)


def in_pieces(stream, moment, pieces):
    """The same, with the stream cut: each read of the program gets one piece."""
    ours, its = socket.socketpair(socket.AF_UNIX, socket.SOCK_SEQPACKET)
    with held(("pass", "--moment", str(moment)), stdin=its) as child:
        its.close()
        try:
            for piece in pieces:
                ours.sendall(piece)
        except (BrokenPipeError, ConnectionResetError):
            pass  # the program has closed the connection
        ours.close()
        out, err = child.communicate(timeout=LIMIT)
    return Ran(child.returncode, out, err)


def first_difference(stream, moment):
    """The first line that differs by itself; else the shortest stream of lines that differs."""
    lines = [text + b"\n" for text in stream.split(b"\n")]
    lines[-1] = lines[-1][:-1]
    for line in lines:
        if line and run_of(line, moment) != expected_of(line, moment):
            return line
    low, high = 0, len(lines)
    while high - low > 1:
        middle = (low + high) // 2
        part = b"".join(lines[:middle])
        if run_of(part, moment) != expected_of(part, moment):
            high = middle
        else:
            low = middle
    return b"".join(lines[:high])


class Comparison(Suite):
    """Output and notes are the same bytes."""

    def compare(self, stream, moment=7):
        """A case: fails with the first line that differs."""
        if run_of(stream, moment) == expected_of(stream, moment):
            return
        line = first_difference(stream, moment)
        self.same(line, run_of(line, moment), expected_of(line, moment), ("pass", "--moment", moment))
        self.fail(f"a difference that did not come again, in {short(stream)}")

    def table(self, lines):
        """Each of these lines, all of them in few runs."""
        lines = list(lines)
        for place in range(0, len(lines), 5000):
            with self.subTest():
                self.compare(b"".join(line + b"\n" for line in lines[place:place + 5000]))

    def test_generated_lines(self):
        for seed in Settings.seeds:
            source = EdgeLines(random.Random(seed))
            shown = 0
            for _ in range(STREAMS):
                moment = source.random.choice((0, 1, 1700000000, GREATEST_TIME))
                try:
                    self.compare(source.stream(LINES), moment)
                except AssertionError as difference:
                    with self.subTest():
                        self.fail(f"seed {seed}: {difference}")
                    shown += 1
                    if shown == MOST_SHOWN:
                        break

    def test_generated_lines_however_they_are_cut(self):
        for seed in Settings.seeds:
            source = EdgeLines(random.Random(f"cuts {seed}"))
            for _ in range(STREAMS // 10):
                stream = source.stream(LINES // 2)
                longest = source.random.choice((1, 3, 50, 5000, 30000))
                pieces, place = [], 0
                while place < len(stream):
                    length = source.random.randrange(1, longest + 1)
                    pieces.append(stream[place:place + length])
                    place += length
                got = in_pieces(stream, 7, pieces)
                if got != expected_of(stream, 7):
                    with self.subTest():
                        lengths = short(bytes(str([len(p) for p in pieces]), "ascii"))
                        self.compare(stream)
                        self.same(stream, got, expected_of(stream, 7), (f"seed {seed}, pieces {lengths},",))
                    break

    def test_a_cut_at_every_place(self):
        stream = b" a.\xc3\xa4\t+042.0e0 -1.9\r\nbad\n\nb 1 2\nc 3"
        for place in range(1, len(stream)):
            with self.subTest():
                got = in_pieces(stream, 7, (stream[:place], stream[place:]))
                self.same(stream, got, expected_of(stream, 7), (f"cut after {place} bytes,",))

    def test_a_long_line_cut_about_its_greatest_length(self):
        for length in (LONGEST_LINE, LONGEST_LINE + 1):
            stream = b"a 1 2\nbad\n" + b"x" * (length - 4) + b" 1 2\nb 3 4\n"
            for place in [1, 5, 6, 7, *range(len(stream) - 12, len(stream))]:
                with self.subTest():
                    got = in_pieces(stream, 7, (stream[:place], stream[place:]))
                    self.same(stream, got, expected_of(stream, 7), (f"cut after {place} bytes,",))

    def test_every_byte_in_every_place(self):
        lines = []
        for byte in set(range(256)) - {10}:
            for line in (b"a%c 1 2", b"%ca 1 2", b"a%cb 1 2", b"a%c1 2", b"a 1%c2", b"a 1%c 2",
                         b"a %c1 2", b"a 1%c0 2", b"a 1 2%c", b"a 1 %c2", b"a 1 2%c0", b"%c", b"%c 1 2",
                         b"a %c 2", b"a 1 %c", b"a 1e%c 2", b"a 1.%c 2", b"a 1 1e%c1"):
                lines.append(line % byte)
        self.table(lines)

    def test_every_short_number(self):
        texts = [bytes(text) for length in range(1, 6)
                 for text in itertools.product(b"+-.01e", repeat=length)]
        self.table(b"v %s 1" % text for text in texts)
        self.table(b"t 1 %s" % text for text in texts)

    def test_every_beginning_of_a_character(self):
        lines = []
        for first in range(128, 256):
            for second in (0x41, 0x7F, 0x80, 0x8F, 0x90, 0x9F, 0xA0, 0xBF, 0xC0, 0xFF):
                for more in (b"", b"\x80", b"\xbf\xbf", b"\x80\x80\x80", b"\x80a"):
                    lines.append(b"%c%c%s 1 2" % (first, second, more))
        self.table(lines)

    def test_every_number_of_digits(self):
        lines = []
        for count in range(1, 43):
            for point in range(0, count + 1):
                for exponent in (b"", b"e%d" % (count - point), b"e-%d" % point):
                    digits = b"1" + b"0" * (count - 1)
                    text = digits[:point] + b"." + digits[point:] + exponent
                    lines += [b"v %s 1" % text, b"t 1 %s" % text, b"t 1 -%s" % text]
        self.table(lines)

    def test_every_exponent(self):
        lines = []
        for k in range(0, 1002):
            for number in (b"0e%d", b"0e-%d", b"7e%d", b"7e-%d", b"-7e-%d", b"-0.0e%d", b"9e+0%d"):
                lines += [b"v %s 1" % (number % k), b"t 1 %s" % (number % k)]
        self.table(lines)

    def test_every_known_text_in_every_field(self):
        texts = NO_NUMBERS + NOT_UTF_8 + NOT_WHITE + TEXTS
        self.table(line % text for text in texts
                   for line in (b"%s 1 2", b"a %s 2", b"a 1 %s", b"%s", b"a 1 2 %s", b"a.%s.b 1 2"))
