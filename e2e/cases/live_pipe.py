"""A live pipe: lines come out while the input stays open."""

import os
import select
import time

from fixtures.harness import LIMIT, LONGEST_LINE, Ran, Suite, short, start

QUIET = 0.05  # seconds for which nothing must come


class Live(Suite):
    """The program with its input held open."""

    def setUp(self):
        self.child = start(bufsize=0)
        self.given = b""
        self.addCleanup(self.clean)

    def clean(self):
        """Ends the program where a test left it running."""
        for pipe in (self.child.stdin, self.child.stdout, self.child.stderr):
            pipe.close()
        if self.child.poll() is None:
            self.child.kill()
        self.child.wait(LIMIT)

    def give(self, text):
        """Writes bytes to the program."""
        self.given += text
        while text:
            text = text[os.write(self.child.stdin.fileno(), text):]

    def take(self, expected):
        """The next bytes out are these, though the input stays open."""
        got, until = b"", time.monotonic() + LIMIT
        while len(got) < len(expected):
            left = until - time.monotonic()
            if left <= 0 or not select.select([self.child.stdout], [], [], left)[0]:
                self.fail(f"after {short(self.given)}: {short(got)} within {LIMIT} s, "
                          f"expected {short(expected)}")
            more = os.read(self.child.stdout.fileno(), len(expected) - len(got))
            if not more:
                break
            got += more
        if got != expected:
            self.fail(f"after {short(self.given)}: {short(got)}, expected {short(expected)}")

    def nothing(self):
        """Nothing comes out now."""
        if select.select([self.child.stdout], [], [], QUIET)[0]:
            got = os.read(self.child.stdout.fileno(), 65536)
            self.fail(f"after {short(self.given)}: {short(got)}, expected nothing yet")

    def ends(self, notes=b"", close=True):
        """The program ends well, with nothing more to say but its notes."""
        if close:
            self.child.stdin.close()
        status = self.child.wait(LIMIT)
        ran = Ran(status, self.child.stdout.read(), self.child.stderr.read())
        self.same(self.given, ran, Ran(0, b"", notes))

    def test_a_line_does_not_wait_for_the_next(self):
        for n in range(3):
            self.give(b"a %d 2\n" % n)
            self.take(b"a %d 2\n" % n)
        self.nothing()
        self.ends()

    def test_half_a_line_and_then_the_rest(self):
        self.give(b"a.b 4")
        self.nothing()
        self.give(b"2 17000")
        self.nothing()
        self.give(b"00000\n")
        self.take(b"a.b 42 1700000000\n")
        self.ends()

    def test_a_line_and_half_of_the_next(self):
        self.give(b"a 1 2\nb 3")
        self.take(b"a 1 2\n")
        self.nothing()
        self.give(b" 4\nc 5")
        self.take(b"b 3 4\n")
        self.ends()

    def test_the_newline_alone(self):
        self.give(b"a 1 2")
        self.nothing()
        self.give(b"\r")
        self.nothing()
        self.give(b"\n")
        self.take(b"a 1 2\n")
        self.ends()

    def test_one_byte_after_the_other(self):
        for line, out in ((b" a.b\t+1.0 -1.9\r\n", b"a.b 1 0\n"), (b"bad\n", b""), (b"\n", b""),
                          (b"\xc3\xa4;t=\xf0\x9f\x98\x80 15e-1 7\n",
                           b"\xc3\xa4;t=\xf0\x9f\x98\x80 1.5 7\n"),
                          (b"\xc3\xa4;t=\xf0\x9f\x98\x80 15e-0 7\n",
                           b"\xc3\xa4;t=\xf0\x9f\x98\x80 15 7\n")):
            for place in range(len(line)):
                self.give(line[place:place + 1])
                time.sleep(0.002)
            if out:
                self.take(out)
        self.ends(b"bad lines 1\n")

    def test_many_lines_at_once(self):
        lines = b"".join(b"host%d.load %d 1700000000\n" % (n, n) for n in range(2000))
        for _ in range(3):
            self.give(lines)
            self.take(lines)
        self.ends()

    def test_bad_lines_do_not_hold_a_line_back(self):
        self.give(b"bad\n\na 1 2\nbad\n")
        self.take(b"a 1 2\n")
        self.ends(b"bad lines 2\n")

    def test_the_longest_line_waits_for_its_newline(self):
        line = b"x" * (LONGEST_LINE - 4) + b" 1 2"
        self.give(line)
        self.nothing()
        self.give(b"\n")
        self.take(line + b"\n")
        self.ends()

    def test_a_text_too_long_ends_the_run_at_once(self):
        """Neither its newline nor the end of the input is waited for."""
        self.give(b"a 1 2\nbad\n" + b"x" * LONGEST_LINE)
        self.take(b"a 1 2\n")
        self.nothing()
        self.give(b"x")
        self.ends(b"line too long\nbad lines 1\n", close=False)
