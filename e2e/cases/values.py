"""Values and times against exact arithmetic: Python's `decimal` for texts, `fractions` for binary64.

The seeds are fixed, so each run tries the same numbers: 200,000 texts through `relayd pass`, and as many binary64 through
`relayd replay`, in pickles that Python writes.
"""

import itertools
import pickle
import random
import struct

from fixtures import decimals
from fixtures.harness import Suite, run
from fixtures.replayed import Replayed
from fixtures.running import frame

COUNT = 200_000
TIMES = 20_000
MOMENT = 1_700_000_000
ROWS = 10_000   # of a pickle
MOST_SHOWN = 5  # differences shown of a run

# A text, and what is printed of it; None where it is no value.
TEXTS = [
    (".5", "0.5"), ("-0.50", "-0.5"), ("-0", "0"), ("-1e-11", "0"), ("1e-10", "0.0000000001"),
    ("0.666666666666667", "0.6666666667"), ("0.00000000005", "0"), ("0.00000000015", "0.0000000002"),
    ("1.00000000000", "1"), ("9223372036854775807.9999999999", "9223372036854775807.9999999999"),
    ("-9223372036854775808", "-9223372036854775808"), ("9223372036854775808", "9223372036854775808"),
    ("9223372036854775808.00000000005", "9223372036854775808"), ("9223372036854775808.00000000006", None),
    ("9223372036854775808.0000000001", None), (".", None), ("-.", None), (".e1", None), ("1.2.3", None),
    ("0e999", "0"), ("1e999", None), ("1e1000", None), ("+.5e1", "5"), ("5.", "5"),
]

# The 64 bits of a binary64, and what is printed of it as a value; None where it is no value.
BINARY64 = [
    (0x43e0000000000000, "9223372036854775808"), (0x43e0000000000001, None), (0xc3e0000000000000, "-9223372036854775808"),
    (0x3fe0000000000000, "0.5"), (0x3fb999999999999a, "0.1"), (0x3f40000000000000, "0.0004882812"),
    (0x3f40000000000001, "0.0004882813"), (0x3f58000000000000, "0.0014648438"), (0xbf40000000000000, "-0.0004882812"),
    (0x3dcb7cdfd9d7bdbb, "0.0000000001"), (0x3dcb7cdfd9d7bdba, "0"), (0x43dfffffffffffff, "9223372036854774784"),
    (0x0000000000000001, "0"), (0x8000000000000000, "0"), (0x7ff0000000000000, None), (0xfff0000000000000, None),
    (0x7ff8000000000000, None), (0x4045000000000000, "42"),
]


# ---- number texts


def with_point(random, digits):
    """Digits with a point somewhere, or none."""
    if random.random() < 0.2:
        return digits
    place = random.randint(0, len(digits))
    return digits[:place] + "." + digits[place:]


def digits_of(random, count):
    return "".join(random.choices("0123456789", k=count))


def any_text(random):
    """A sign, digits and an exponent of any size."""
    digits = with_point(random, digits_of(random, random.randint(1, 40)))
    mark = random.choice(("", "", "e%d" % random.randint(-45, 20), "E%+d" % random.randint(-20, 20)))
    return random.choice(("", "+", "-")) + digits + mark


def far_text(random):
    """An exponent of up to four digits."""
    return f"{random.choice(('', '-'))}{digits_of(random, random.randint(1, 38))}e{random.randint(-1100, 1100)}"


def half_text(random):
    """A tie between two values, or a digit beside it."""
    whole, beside = random.randrange(10 ** random.randint(0, 20)), random.choice(("", "0", "00", "001", "1"))
    digits = f"{random.randrange(10**10):010}{random.choice(('4', '5', '5', '5', '6'))}{beside}"
    point = random.randint(-9, 9)
    text = f"{random.choice(('', '-'))}{whole}.{digits}"
    return text if point < 0 else f"{random.choice(('', '-'))}{whole}{digits[:point]}.{digits[point:]}e-{point}"


def end_text(random):
    """Near the ends of the range."""
    near = decimals.MOST_UNITS * 1000 + random.choice((0, 499, 500, 501, 999, 1000)) * random.choice((-1, 1))
    near += random.choice((0, random.randrange(-10**6, 10**6)))
    return f"{random.choice(('', '-'))}{near // 10**13}.{near % 10**13:013}"


def odd_text(random):
    """Signs, points and marks in any order."""
    return "".join(random.choices("0123456789+-..eE", k=random.randint(1, 7)))


def number_texts(seed):
    """Texts, most of them of numbers, from a seed and without end."""
    source = random.Random(seed)
    kinds = (any_text, any_text, any_text, half_text, half_text, end_text, odd_text, far_text)
    while True:
        for kind in kinds:
            yield kind(source)


# ---- binary64


def all_exponents(random):
    """Each exponent with each sign: the least significand, the greatest, the middle and others."""
    for exponent in range(2048):
        for fraction in (0, 1, 2**51, 2**52 - 1, *(random.getrandbits(52) for _ in range(16))):
            yield exponent << 52 | fraction
            yield 1 << 63 | exponent << 52 | fraction


def bits_of(number):
    return int.from_bytes(struct.pack(">d", number), "big")


def beside(bits, most):
    """The patterns round one, which are the numbers next to it."""
    return [at for at in range(bits - most, bits + most + 1) if 0 <= at < 2**64]


def ties(random):
    """Half a unit above a value exactly, an odd number of 2048ths, and the numbers next to it."""
    for _ in range(10_000):
        odd = random.randrange(1, 2 ** random.randint(1, 52), 2)
        yield from beside(bits_of(random.choice((-1, 1)) * odd / 2048), 1)


def near_halves(random):
    """The numbers next to half a unit above a value, none of them a tie."""
    for _ in range(8_000):
        units = random.randrange(10 ** random.randint(0, 17))
        yield from beside(bits_of((units + 0.5) / decimals.UNITS_OF_ONE), 1)


def ends(random):
    """Near the ends of the range."""
    for end in (2.0**63, -(2.0**63), 2.0**64, 1e-10, 5e-11, 2.0**-1022):
        yield from beside(bits_of(end), 300)


def few_decimals(random):
    """What metrics are sent: a number of few decimals, to the nearest binary64."""
    for _ in range(30_000):
        yield bits_of(round(random.uniform(-1000, 1000) * 10 ** random.randint(-3, 6), random.randint(0, 10)))


def any_bits(random):
    while True:
        yield random.getrandbits(64)


def binary64s(seed):
    """Patterns of 64 bits from a seed and without end."""
    kinds = (all_exponents, ties, near_halves, ends, few_decimals, any_bits)
    return itertools.chain.from_iterable(kind(random.Random(seed)) for kind in kinds)


# ---- the cases


def printed(value):
    return None if value is None else decimals.printed(value)


def check_given(test, what, tried, wanted, lines):
    """Fails where a number that was tried does not give what it is to give, or nothing; a line begins with its place."""
    out = dict(line.split(b" ", 1) for line in lines)
    test.assertEqual(len(out), len(lines), f"{what}: a number gives two lines")
    wrong = [(it, out.get(b"%d" % at), want) for at, (it, want) in enumerate(zip(tried, wanted)) if out.get(b"%d" % at) != want]
    if wrong:
        test.fail(f"{what}: {len(wrong)} of {len(tried)} differ: " + "; ".join(
            f"{it} gives {found}, expected {want}" for it, found, want in wrong[:MOST_SHOWN]))


def line_of(value):
    """What follows the name in the line of a value at the time 7."""
    return None if value is None else b"%b 7" % value.encode()


class Texts(Suite):
    """Number texts, each in a line of its own."""

    def passes(self, what, texts, fields, wanted):
        """What `pass` prints of these texts, each put among the fields of a line."""
        given = b"".join(b"%d %b\n" % (at, fields % text.encode()) for at, text in enumerate(texts))
        ran = run(("pass", "--moment", str(MOMENT)), given)
        bad = wanted.count(None)
        check_given(self, what, texts, wanted, ran.out.splitlines())
        self.assertEqual((ran.status, ran.err), (0, b"bad lines %d\n" % bad if bad else b""), what)

    def test_worked_values(self):
        texts, values = zip(*TEXTS)
        self.assertEqual([printed(decimals.units(decimals.number(it))) for it in texts], list(values))
        self.passes("worked texts", texts, b"%b 7", [line_of(it) for it in values])

    def test_values(self):
        texts = list(itertools.islice(number_texts(1), COUNT))
        self.passes("values", texts, b"%b 7", [line_of(printed(decimals.units(decimals.number(it)))) for it in texts])

    def test_times(self):
        texts = list(itertools.islice(number_texts(2), TIMES))
        times = [decimals.seconds(decimals.number(it), MOMENT) for it in texts]
        self.passes("times", texts, b"1 %b", [None if it is None else b"1 %d" % it for it in times])


class Binary64s(Replayed):
    """Binary64 as values of rows that Python pickles."""

    def gives(self, what, patterns, wanted):
        """What a store gets of these patterns."""
        rows = [(str(at), (7, struct.unpack(">d", bits.to_bytes(8, "big"))[0])) for at, bits in enumerate(patterns)]
        pickles = [pickle.dumps(rows[at:at + ROWS], protocol=2) for at in range(0, len(rows), ROWS)]
        given = self.given_by(b"".join(map(frame, pickles)), len(rows))
        check_given(self, what, [f"{it:016x}" for it in patterns], wanted, given.lines.splitlines())
        self.assertEqual(given[1:], (0, 0, wanted.count(None), True), what)

    def test_worked_values(self):
        patterns, values = zip(*BINARY64)
        self.assertEqual([printed(decimals.units(decimals.binary64(it))) for it in patterns], list(values))
        self.gives("worked binary64", patterns, [line_of(it) for it in values])

    def test_values(self):
        patterns = list(itertools.islice(binary64s(3), COUNT))
        self.gives("binary64", patterns, [line_of(printed(decimals.units(decimals.binary64(it)))) for it in patterns])
