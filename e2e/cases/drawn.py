"""`bench/draw.py`: the picture has a bar and its number for each row of the table."""

import os
import re
import shutil
import subprocess
import sys
import tempfile
import xml.etree.ElementTree as xml

from fixtures import harness
from fixtures.program import TOP

TABLE = """scene	relay	datapoints a second	processor seconds a million	lost %
one	direct	2500000	0.00	0.00
one	relayd	1600981	0.79	0.00
one	carbon-c-relay, 2 workers	137906	5.51	0.00
short	relayd	1234567	0.81	0.00
ring	relayd	1532505	0.90	0.00
ring	carbon-c-relay, 4 workers	151701	15.32	49.42
ring	carbon-c-relay, 4 workers, roomy	800000	4.25	0.00
"""
RELAYD, OTHER = "27, 108, 168", "176, 176, 176"


class Drawn(harness.Suite):
    """A table drawn by gnuplot."""

    def setUp(self):
        if shutil.which("gnuplot") is None:
            self.skipTest("gnuplot is missing")

    def draw(self, table, folder):
        """The status, and the picture of a table where there is one."""
        given, picture = (os.path.join(folder, name) for name in ("table", "picture.svg"))
        with open(given, "w", encoding="ascii") as file:
            file.write(table)
        words = [sys.executable, os.path.join(TOP, "bench", "draw.py"), given, picture]
        ran = subprocess.run(words, stdout=subprocess.PIPE, stderr=subprocess.PIPE, timeout=harness.LIMIT)
        if ran.returncode:
            return ran.returncode, None
        with open(picture, encoding="utf-8") as file:
            return 0, file.read()

    def test_bars_and_numbers(self):
        with tempfile.TemporaryDirectory() as folder:
            status, picture = self.draw(TABLE, folder)
        self.assertEqual(status, 0)
        texts = [text.strip() for text in xml.fromstring(picture.encode()).itertext() if text.strip()]
        for number in ("1.60", "0.14", "1.53", "0.15", "0.80", "0.79", "5.51", "0.90", "15.32", "4.25"):
            self.assertEqual(texts.count(number), 1, (number, texts))
        self.assertEqual(texts.count("relayd"), 4)
        self.assertEqual(texts.count("(49.42 % lost)"), 2)
        self.assertNotIn("direct", texts)
        self.assertNotIn("1.23", texts)
        for colour, bars in ((RELAYD, 4), (OTHER, 6)):
            found = re.findall(rf"fill\s*=\s*['\"]rgb\(\s*{colour}\)", picture)
            self.assertEqual(len(found), bars, colour)

    def test_none_of_its_scenes(self):
        with tempfile.TemporaryDirectory() as folder:
            status, _ = self.draw("".join(TABLE.splitlines(True)[:1]) + "short\trelayd\t1\t1\t0.00\n", folder)
        self.assertEqual(status, 1)
