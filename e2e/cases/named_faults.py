"""Each fault of a call that no command shows by its name is answered in a worked example of that call."""

import pathlib
import re
import unittest

import refusals
from fixtures import worked_rows

CRATES = pathlib.Path(__file__).resolve().parents[2] / "crates"
FAULTS = {  # a type of faults, and the rows whose calls answer with it
    "NumberFault": ("numbers",),
    "NameFault": ("Name::read",),
    "LineFault": ("Point::read_line", "Row::point"),
    "RingFault": ("Ring::from_entries",),
    "FeedFault": ("Reader::feed of lines",),
    "OfferFault": ("DestQueue::offer", "a door that refuses its second offer"),
    "WriterFault": ("a connection lost in mid line", "a connection lost after a line"),
    "OrderFault": ("common_order",),
    "AdmitFault": ("ReadLoop::admit",),
    "AttachFault": ("connections that are not attached",),
}
NO_MEMORY = "NoMemory"


def variants(fault):
    """The variants of a type of faults."""
    texts = (path.read_text(encoding="utf-8") for path in CRATES.glob("*/src/**/*.rt"))
    found = [body for text in texts for body in re.findall(rf"^pub enum {fault} {{\n(.*?)^}}", text, re.M | re.S)]
    (body,) = found
    return re.findall(r"^    ([A-Z]\w*)", body, re.M)


def answers(row):
    """What the calls of a row answer."""
    return [line for line in worked_rows.ROWS[row].splitlines() if line.startswith("answer ")]


class Faults(unittest.TestCase):
    """The table of worked examples."""

    def test_each_fault_is_answered(self):
        for fault, rows in FAULTS.items():
            answered = "\n".join(line for row in rows for line in answers(row))
            for variant in variants(fault):
                if variant != NO_MEMORY:
                    with self.subTest():
                        self.assertRegex(answered, rf"\b{variant}\b", fault)

    def test_out_of_memory_is_answered(self):
        """The rows of faults that say it are of those of which `refusals.py` refuses each growth, and compares what they answer
        then; or sees that they have none."""
        for fault, rows in FAULTS.items():
            if NO_MEMORY in variants(fault):
                with self.subTest():
                    self.assertTrue(set(rows) & set(refusals.ROWS), fault)

    def test_each_row_has_an_answer(self):
        for row in worked_rows.ROWS:
            with self.subTest():
                self.assertTrue(answers(row), row)
