"""What `pickle_subset` says of Python's pickles is what Python makes: its examples, and its definition."""

import os
import pickle
import random
import subprocess
import sys
import unittest

from fixtures.harness import LIMIT, Suite
from fixtures.program import TOP
from fixtures.python_definition import pickle_of

# Lengths of texts about those at which a text or a frame is written in another form.
LENGTHS = (1, 3, 20, 255, 256, 300, 5000, 40000, 65520, 65526, 65530, 65535, 65536, 70000)
NUMBERS = (0, 255, 256, 65535, 65536, -1, 2**31 - 1, -(2**31), 2**31, 2**40, -(2**47) - 1, 2**63 - 1, -(2**63), 0.5, None)


def drawn_rows(rng):
    """Rows whose texts, pairs and rows are now and then the same objects."""
    names = [rng.choice("ab.é") * rng.choice(LENGTHS) for _ in range(rng.randint(1, 6))]
    pairs = [(rng.choice((*NUMBERS, *names)), rng.choice((*NUMBERS, "1.5"))) for _ in range(rng.randint(1, 50))]
    rows = [(rng.choice(names) if rng.random() < 0.5 else "a." * rng.randint(1, 90), rng.choice(pairs))
            for _ in range(rng.choice((0, 1, 2, 999, 1000, 1001, 1002, 2001)))]
    return rows + [rng.choice(rows) for _ in range(100)] if rows and rng.random() < 0.5 else rows


def small(rows):
    """Without the numbers that protocol 1 spells as text."""
    return [(path, tuple(7 if isinstance(it, int) and not -(2**31) <= it < 2**31 else it for it in pair)) for path, pair in rows]


class Examples(Suite):
    """Made anew, and compared."""

    @unittest.skipIf(sys.version_info[:2] != (3, 11), "the examples are those of Python 3.11")
    def test_the_examples_are_what_python_makes(self):
        ran = subprocess.run([sys.executable, os.path.join(TOP, "e2e", "pickles.py")], capture_output=True, text=True,
                             timeout=LIMIT)
        self.assertEqual((ran.returncode, ran.stderr), (0, ""))


class Definition(Suite):
    """The definition of what Python writes, as `fixtures/python_definition.py` has it, beside Python's own picklers."""

    def test_the_definition_writes_what_python_writes(self):
        rng = random.Random(1)
        lists = [[("a" * 65526, (300, 2)), ("b", (1, 1))], *(drawn_rows(rng) for _ in range(40))]
        for number, rows in enumerate(lists):
            for protocol in range(1, 6):
                with self.subTest(list=number, protocol=protocol):
                    those = rows if protocol > 1 else small(rows)
                    written = pickle_of(protocol, those)
                    self.assertTrue(written == pickle.dumps(those, protocol=protocol))
                    # Python's pickler in Python appends the last row alone where one is left.
                    self.assertTrue(len(those) % 1000 == 1 or written == pickle._dumps(those, protocol))
