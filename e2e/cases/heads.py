"""The heads of functions: how many parameters they take; and which connectors stand around which."""

import re
import unittest

from fixtures.waits import program_sources

HEAD = re.compile(r"\bfn (\w+)")
OPEN, CLOSE = "(<[{", ")>]}"
MOST = 8  # parameters of a function, `self`, the runtime and the allocator among them
GOOD = 6
MANY = 9  # functions that take more; this number only falls


def parts_of(text, start):
    """The parts between the bracket at a place and its partner, which commas divide; and where that ends."""
    depth, parts, at = 0, [""], start
    while True:
        sign = text[at]
        if sign in OPEN:
            depth += 1
        elif sign in CLOSE and text[at - 1:at + 1] not in ("->", "=>"):
            depth -= 1
        if depth == 0:
            return [part for part in parts if part.strip()], at + 1
        if depth == 1 and sign == ",":
            parts.append("")
        elif at > start:
            parts[-1] += sign
        at += 1


def parameters(text):
    """The name of each function of a source, with how many parameters it takes."""
    code = re.sub(r"//[^\n]*", "", text)
    for head in HEAD.finditer(code):
        at = head.end()
        if code[at] == "<":
            at = parts_of(code, at)[1]
        yield head[1], len(parts_of(code, at)[0])


class Heads(unittest.TestCase):
    """Of the program's crates."""

    def test_few_take_many_parameters(self):
        """What belongs together is a value that owns it, whose fields clauses name."""
        counts = {f"{crate}: {name}": count for crate, text in program_sources() for name, count in parameters(text)}
        self.assertGreater(len(counts), 3000)
        self.assertEqual(counts["mio_loops: serve"], 6)
        self.assertEqual([name for name, count in counts.items() if count > MOST], [])
        self.assertLessEqual(sum(count > GOOD for _, text in program_sources() for _, count in parameters(text)), MANY)

    def test_the_order_of_connectors(self):
        """That which takes what writers have in hand is around those that do not pass it on."""
        first, = (text for _, text in program_sources() if "\npub(crate) struct FirstLines<" in text)
        own, = (text for _, text in program_sources() if "\nfn send_own<" in text)
        self.assertLess(own.index("first.into_connector("), own.index("CountedConnector::new(connector, "))
        made = re.findall(r"(\w+)Connector::\s*new\(", first + own)
        self.assertEqual(made, ["Divert", "Spool", "Rest", "Counted"])
