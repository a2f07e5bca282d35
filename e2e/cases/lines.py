"""Examples of lines, one rule after the other."""

from fixtures.harness import GREATEST_TIME, LONGEST_LINE, Suite

LONG = b"x" * (LONGEST_LINE - 4) + b" 1 2"


class Lines(Suite):
    """Lines, their fields and their ends."""

    def test_a_datapoint_comes_out_as_it_came_in(self):
        self.expect(b"a.b 42 1700000000\n", b"a.b 42 1700000000\n")

    def test_empty_input(self):
        self.expect(b"")

    def test_white_space_sign_fraction_and_carriage_return(self):
        self.expect(b"  a.b\t+042.000   1700000000.9\r\n", b"a.b 42 1700000000\n")

    def test_every_white_space_byte_separates(self):
        for byte in (9, 11, 12, 13, 32):
            gap = bytes([byte])
            self.expect(gap.join([b"", b"a", b"1", b"2", b"\n"]), b"a 1 2\n")
            self.expect((gap * 3).join([b"", b"a", b"1", b"2", b"\n"]), b"a 1 2\n")

    def test_no_other_byte_separates(self):
        for gap in (b"\0", b"\x1c", b"\x1d", b"\x1e", b"\x1f", b"\x7f", b"\x85", b"\xa0",
                    b"\xc2\x85", b"\xc2\xa0", b"\xe2\x80\x83", b"\xe3\x80\x80", b"\xef\xbb\xbf"):
            self.expect(gap.join([b"a", b"1", b"2"]) + b"\n", notes=b"bad lines 1\n")
            self.expect(b"a 1 2" + gap + b"\n", notes=b"bad lines 1\n")

    def test_blank_lines_are_no_bad_lines(self):
        for blank in (b"", b"\r", b" ", b"\t\v\f\r "):
            self.expect(blank + b"\na 1 2\n" + blank + b"\n", b"a 1 2\n")

    def test_other_numbers_of_fields_are_bad(self):
        for line in (b"a", b"a.b 42", b"a.b 42 1700000000 x", b"a 1 2 3 4", b"\0"):
            self.expect(line + b"\nok 1 2\n", b"ok 1 2\n", b"bad lines 1\n")

    def test_bad_lines_are_counted_and_the_others_go_on(self):
        self.expect(b"a . 7\nb 1.5e3 7\n", b"b 1500 7\n", b"bad lines 1\n")
        self.expect(b"x\n" * 1234, notes=b"bad lines 1234\n")

    def test_a_rest_without_newline_is_no_line(self):
        self.expect(b"a 1 2")
        self.expect(b"a 1 2\r")
        self.expect(b"bad")
        self.expect(b"a 1 2\nb 3 4", b"a 1 2\n")
        self.expect(LONG)

    def test_names(self):
        for name in (b"a", b"a;tag=x;other=y", b";", b"\xc3\xa4.b", b"a\xc2\xa0b", b"\xe2\x80\x83",
                     b"\xf0\x9f\x98\x80", b"\xed\x9f\xbf", b"\xee\x80\x80", b"\xf4\x8f\xbf\xbf",
                     b"\xc2\x80", b"\xef\xbb\xbfa", b"42", b"-", b"!", b"~", b"a\"b'c\\d"):
            self.expect(name + b" 1 2\n", name + b" 1 2\n")
        for name in (b"a\0", b"\x01a", b"a\x1fb", b"a\x7fb", b"\x80", b"\xc3", b"\xc0\x80",
                     b"\xc1\xbf", b"\xe0\x9f\xbf", b"\xf0\x8f\xbf\xbf", b"\xed\xa0\x80",
                     b"\xed\xbf\xbf", b"\xe2\x82", b"\xe2\x82a", b"\xf0\x9f\x98",
                     b"\xf4\x90\x80\x80", b"\xf5\x80\x80\x80", b"\xfe", b"\xff"):
            self.expect(name + b" 1 2\n", notes=b"bad lines 1\n")


class LongLines(Suite):
    """Lines at and past the greatest length."""

    def test_the_longest_line(self):
        self.expect(LONG + b"\n", LONG + b"\n")
        self.expect(LONG[1:] + b"\r\n", LONG[1:] + b"\n")

    def test_the_longest_line_out(self):
        name = b"x" * (LONGEST_LINE - 11)
        self.expect(name + b" -9e18 9e15\n",
                    name + b" -9000000000000000000 9000000000000000\n")
        name = b"x" * (LONGEST_LINE - 37)
        self.expect(name + b" -9223372036854775807.9999999999 9e15\n",
                    name + b" -9223372036854775807.9999999999 9000000000000000\n")

    def test_a_line_that_is_too_long_to_read_again(self):
        value, time = b" -9223372036854775807.9999999999 ", b"9000000000000000\n"
        longest = b"x" * 16335 + value
        self.expect(longest + b"9e15\n", longest + time)
        self.expect(longest + time, longest + time)
        longer = b"x" + longest
        self.expect(longer + b"9e15\n", longer + time)
        self.expect(longer + time + b"a 1 2\n", notes=b"line too long\n")

    def test_a_line_too_long(self):
        self.expect(b"a 1 2\n" + b"x" + LONG + b"\nb 3 4\n", b"a 1 2\n", b"line too long\n")

    def test_the_carriage_return_counts(self):
        self.expect(LONG + b"\r\nb 3 4\n", notes=b"line too long\n")

    def test_white_space_counts(self):
        self.expect(b" " * LONGEST_LINE + b"\nb 3 4\n", b"b 3 4\n")
        self.expect(b" " * (LONGEST_LINE + 1) + b"\nb 3 4\n", notes=b"line too long\n")

    def test_a_long_text_that_has_not_ended(self):
        self.expect(b"a 1 2\n" + b"x" * LONGEST_LINE, b"a 1 2\n")
        self.expect(b"a 1 2\n" + b"x" * (LONGEST_LINE + 1), b"a 1 2\n", b"line too long\n")

    def test_long_names(self):
        self.expect(b"x" * LONGEST_LINE + b"\na 1 2\n", b"a 1 2\n", b"bad lines 1\n")
        self.expect(b"x" * (LONGEST_LINE + 1) + b"\na 1 2\n", notes=b"line too long\n")

    def test_both_notes_in_order(self):
        self.expect(b"x\ny\na 1 2\n" + b"x" + LONG + b"\nz\n", b"a 1 2\n",
                    b"line too long\nbad lines 2\n")

    def test_much_input(self):
        lines = b"".join(b"host%d.cpu %d 1700000000\n" % (n, n * n) for n in range(50000))
        self.expect(lines, lines)


class Numbers(Suite):
    """Values and times."""

    def values(self, table):
        """Each text as a value gives what is beside it; None is a bad line."""
        for text, value in table.items():
            if value is None:
                self.expect(b"m %s 1\n" % text, notes=b"bad lines 1\n")
            else:
                self.expect(b"m %s 1\n" % text, b"m %s 1\n" % (value if isinstance(value, bytes) else b"%d" % value))

    def times(self, table, moment=1234):
        """Each text as a time gives what is beside it; None is a bad line."""
        for text, time in table.items():
            words = ("pass", "--moment", str(moment))
            if time is None:
                self.expect(b"m 1 %s\n" % text, notes=b"bad lines 1\n", words=words)
            else:
                self.expect(b"m 1 %s\n" % text, b"m 1 %d\n" % time, words=words)

    def test_both_ends_of_the_range(self):
        first = b"m 9223372036854775807 1\nm -9223372036854775808 1\nm 9223372036854775808 1\n"
        self.expect(first, first)
        self.values({b"-9223372036854775809": None, b"9223372036854775807.0": 2**63 - 1,
                     b"922337203685477580.7e1": 2**63 - 1,
                     b"9223372036854775807.9999999999": b"9223372036854775807.9999999999",
                     b"9223372036854775808.0000000001": None, b"9223372036854775808.00000000005": 2**63,
                     b"9223372036854775808.00000000006": None, b"-9223372036854775808.00000000006": None,
                     b"-92233720368547758080e-1": -(2**63), b"1e18": 10**18, b"1e19": None,
                     b"1e999": None, b"-1e999": None, b"1e-999": 0, b"-1e-999": 0})

    def test_one_value_in_many_texts(self):
        self.values({text: 42 for text in (b"42", b"+042.000", b"4.2e1", b"42000e-3", b"42.",
                                           b"42.e0", b"0.42E+2", b"42e00", b"42e-0", b"42e000")})
        self.values({b"5.": 5, b"1.5e3": 1500, b"1000e-3": 1, b"-1000e-3": -1})

    def test_fractions(self):
        self.values({b"0.5": b"0.5", b".5": b"0.5", b"-0.50": b"-0.5", b"+.25e1": b"2.5", b"5e-1": b"0.5",
                     b"1e-10": b"0.0000000001", b"-1e-10": b"-0.0000000001", b"1.00000000000": 1,
                     b"123456.789": b"123456.789", b"1.5e-05": b"0.000015", b"-0.0": 0})

    def test_the_nearest_of_ten_decimals_and_the_even_one_of_two(self):
        self.values({b"0.666666666666667": b"0.6666666667", b"0.33333333333333": b"0.3333333333",
                     b"0.00000000005": 0, b"0.00000000015": b"0.0000000002", b"0.00000000025": b"0.0000000002",
                     b"-0.00000000005": 0, b"-0.00000000015": b"-0.0000000002", b"-1e-11": 0,
                     b"0.000000000050000000000000000000000001": b"0.0000000001",
                     b"0.99999999995": 1, b"0.99999999994999": b"0.9999999999", b"-9.99999999999": -10})

    def test_zero_has_no_sign(self):
        self.values({text: 0 for text in (b"0", b"-0", b"+0", b"0.", b"-0.000", b"0e999",
                                          b"-0e-999", b"0" * 38, b"0." + b"0" * 37)})

    def test_texts_that_are_no_number(self):
        bad = (b"+", b"-", b"1e", b"1e+", b"1e1000", b"0e1000", b"1e0001", b"inf", b"-inf",
               b"nan", b"NaN", b"0x10", b"1_0", b"1,5", b"1.2.3", b".", b"+.", b".e5", b"..5", b"e5", b"1e5.0",
               b"--1", b"+-1", b"1-", b"1e--1", b"\xd9\xa1", b"\xef\xbc\x91", b"1\0", b"1L")
        self.values({text: None for text in bad})
        self.times({text: None for text in bad})

    def test_38_digits_and_no_more(self):
        self.values({b"0" * 37 + b"7": 7, b"7." + b"0" * 37: 7, b"0" * 38 + b"7": None,
                     b"." + b"0" * 37 + b"1": 0, b"." + b"0" * 39: None,
                     b"7." + b"0" * 38: None, b"1" + b"0" * 37 + b"e-37": 1,
                     b"1" + b"0" * 38 + b"e-38": None, b"-" + b"0" * 38 + b"e999": 0,
                     b"9" * 39: None})
        self.times({b"0" * 37 + b"7": 7, b"0" * 38 + b"7": None, b"7." + b"9" * 37: 7,
                    b"7." + b"9" * 38: None})

    def test_times(self):
        self.times({b"1700000000.9": 1700000000, b"0": 0, b".9": 0, b"-.9": 0, b"9007199254740992": GREATEST_TIME,
                    b"9007199254740992.9": GREATEST_TIME, b"9007199254740993": None,
                    b"9.007199254740992e15": GREATEST_TIME, b"1e999": None, b"1e-999": 0,
                    b"-1e-999": 0, b"17e8": 1700000000, b"0e999": 0, b"-0": 0})

    def test_times_below_zero(self):
        self.times({b"-0.9": 0, b"-1": 1234, b"-1.9": 1234, b"-1." + b"9" * 37: 1234,
                    b"-10e-1": 1234, b"-2": None, b"-1e1": None, b"-1e999": None})

    def test_the_moment_is_0_where_it_is_not_given(self):
        self.expect(b"a 1 -1\nb 1 -1.9\n", b"a 1 0\nb 1 0\n")

    def test_what_comes_out_goes_through_unchanged(self):
        lines = b"a 42 7\nb -9223372036854775808 9007199254740992\nc 0 0\n;\xc3\xa4 -1 1\nd -0.25 7\n"
        for moment in ("0", "99"):
            self.expect(lines, lines, words=("pass", "--moment", moment))
