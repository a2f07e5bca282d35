"""What docs/MIGRATING.md says of patterns that Python's `re` and the relay both take: alike, or with another meaning."""

import re
import sys
import unittest
import warnings

from fixtures.configured import WithFiles, settings

CONFIG = settings(DESTINATIONS="h:1, h:2")
ALIKE = (  # pattern, name
    (r"^servers\.", "servers.web1"), (r"^servers\.", "x.servers."), ("CPU", "cpu"), (r"\.load$", "a.load"),
    (r"[^.]+\.cpu", "a.cpu"), (r"(web|db)\d+", "DB12"), ("a{2,3}", "xaax"), ("a*?b", "ab"), (r"\bcpu\b", "a.cpu.b"),
    ("[]a]", "]"), ("[^]]", "]"), (r"\/", "a/b"), ("(?i:a)", "A"), ("(?P<n>a)", "A"), ("s", "\u017f"), ("k", "\u212a"),
    ("\u00e4", "\u00c4"), (r"\w", "\u00e9"), (r"x#y", "x#y"), ("^a # note", "a"),
)
OTHERWISE = (  # pattern, name, whether Python finds it, whether the relay does
    ("a++a", "aa", False, True),
    ("a*+a", "aa", False, True),
    ("i", "\u0131", True, False),
    ("i", "\u0130", True, False),
    ("[a-c&&b]", "a", True, False),
    ("[a-c~~b]", "b", True, False),
    ("[[:digit:]]", "7", False, True),
    ("[[:digit:]]", "d]", True, False),
    (r"\<a", "x.a", False, True),
    (r"a\>", "a.x", False, True),
)


class Patterns(WithFiles):
    """Each pattern is searched for by both."""

    def found_here(self, pattern, name, found):
        """A case: the relay finds the pattern in the name, or not."""
        rules = f"[a]\npattern = {pattern}\ndestinations = h:1\n[rest]\ndefault = yes\ndestinations = h:2\n"
        self.routes(name, name, "h:1" if found else "h:2", config=CONFIG, rules=rules)

    def found_in_python(self, pattern, name):
        """Whether Python finds it."""
        with warnings.catch_warnings():
            warnings.simplefilter("ignore", FutureWarning)
            return re.search(pattern, name, re.I) is not None

    def test_patterns_that_mean_the_same(self):
        for pattern, name in ALIKE:
            self.found_here(pattern, name, self.found_in_python(pattern, name))

    @unittest.skipIf(sys.version_info < (3, 11), "this Python has no possessive repetitions")
    def test_patterns_that_mean_something_else(self):
        for pattern, name, there, here in OTHERWISE:
            with self.subTest():
                self.assertEqual(self.found_in_python(pattern, name), there, (pattern, name))
            self.found_here(pattern, name, here)
