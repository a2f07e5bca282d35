"""Long runs of `pass`: more reads than 100,000, and more lines than 1,000,000."""

from fixtures.harness import Ran, Suite, one_byte_a_read

MANY_READS = 100000 + 1000
MANY_LINES = 1000000 + 1000


class LongInput(Suite):
    """Counts that pass what fits in two bytes, and lines that no buffer holds at once."""

    def test_many_reads_of_one_byte(self):
        lines = b"".join(b"host%d.load %d 1700000000\n" % (n, n) for n in range(MANY_READS // 20))
        self.assertGreater(len(lines), MANY_READS)
        self.same(lines, one_byte_a_read(lines), Ran(0, lines, b""))

    def test_many_reads_of_one_byte_of_bad_lines(self):
        lines = b"x\n" * (MANY_READS // 2 + 1)
        self.same(lines, one_byte_a_read(lines), Ran(0, b"", b"bad lines %d\n" % (MANY_READS // 2 + 1)))

    def test_many_lines(self):
        lines = b"".join(b"h%d 1 2\n" % n for n in range(MANY_LINES))
        self.expect(lines, lines)

    def test_many_bad_lines(self):
        self.expect(b"x\na 1 2\n" * MANY_LINES, b"a 1 2\n" * MANY_LINES, b"bad lines %d\n" % MANY_LINES)

    def test_many_lines_to_a_full_device(self):
        with open("/dev/full", "wb") as full:
            self.expect(b"a 1 2\n" * MANY_LINES, b"", b"relayd: output\n", 3, stdout=full)

    def test_many_bad_lines_with_no_room_for_the_notes(self):
        with open("/dev/full", "wb") as full:
            self.expect(b"x\n" * MANY_LINES, b"", b"", 3, stderr=full)
