"""Relay rules and rewrite rules: which files `check` takes, and the fault of those that it refuses."""

from fixtures.configured import SETTINGS, WithFiles, ring

REST = "[rest]\ndefault = true\ndestinations = h:1\n"
RING = ring("h:1, h:2:a")
BAD_PATTERNS = ("(", ")", "a)", "[", "[a", "[]", "[z-a]", "*", "+a", "?", "a{", "a{2,1}", "a{x}", "(?z)a", "\\", r"\Z",
                r"\1", r"(a)\1", "(?=a)", "(?!a)b", "(?<=a)b", r"\p{Nothing}", "(?P<>a)", "(?P<n>a)(?P<n>b)",
                "(" * 251 + ")" * 251, "((a{1000}){1000}){1000}", "a{999999999}")
PATTERNS = ("", "a", "^$", "a b", "; no comment", "[^.]+", r"\.", "(a|b)*?", "(?i)a", "(?-i)A", r"\bcpu\b", "a{2,3}",
            "(?P<n>a)", r"\d\w\s\x41\u{e4}", "\u00e4", r"\p{Greek}", "[[:alpha:]]", "(" * 249 + "a" + ")" * 249)
NO_TRUTHS = ("", "maybe", "2", "truely", "yes no")


def section(name, destinations="h:1", **keys):
    """A section of relay rules; a key that is None is left out."""
    keys = {"destinations": destinations, **keys}
    return f"[{name}]\n" + "".join(f"{key} = {value}\n" for key, value in keys.items() if value is not None)


def rule(pattern="a", **more):
    """A section with a pattern, and a default rule after it."""
    return section("rule", pattern=pattern, **more) + REST


def going_on(word):
    """The key that says whether the rules after it are tried too."""
    return {"continue": word}


class RelayRules(WithFiles):
    """Sections of relay rules, which are numbered from 0."""

    def faulty(self, fault, *texts):
        """Cases: the rules have this fault, also where the method does not use them."""
        for text in texts:
            self.refused(f"rules: {fault}", rules=text)
            self.refused(f"rules: {fault}", rules=text, config=RING)

    def fine(self, *texts):
        """Cases: `check` takes these rules."""
        for text in texts:
            self.counts(2, rules=text)

    def test_no_destinations(self):
        self.faulty("0: NoDestinations", "[a]\n", "[a]\nDestinations = h:1\ndefault = true\n", rule(destinations=None),
                    section("a", None, pattern="(", default="maybe"), section("a", None, **going_on("maybe")))
        self.faulty("1: NoDestinations", REST + section("a", None, default="no"))

    def test_bad_destinations(self):
        for text in ("", ",", "h", "h:1,", "h: 1", "h:1 h:2", "h:0", "h:1:a:b"):
            self.faulty("0: BadDestination", rule(destinations=text), section("a", text) + REST,
                        section("a", text, pattern="(", default="maybe") + REST)
        self.faulty("1: BadDestination", REST + section("a", "h:1, [::1]:1", default="no"))

    def test_destinations_that_the_configuration_lacks(self):
        self.fine(rule(destinations="g:9, h:1:a, g:9"), section("a", "g:9", default="1"))

    def test_more_destinations_than_a_configuration_has(self):
        self.fine(rule(destinations=",".join(f"h:{port}" for port in range(1, 200))))

    def test_a_pattern_and_a_default(self):
        self.faulty("0: PatternAndDefault", rule(default="true"), rule(default="false"), rule("(", default="maybe"),
                    rule("", default=""))
        self.faulty("1: PatternAndDefault", REST + section("a", pattern="a", default="no"))

    def test_bad_patterns(self):
        self.faulty("0: BadPattern", *map(rule, BAD_PATTERNS), rule("(", **going_on("maybe")))
        self.faulty("1: BadPattern", section("a") + rule("("), REST + section("a", pattern="("))

    def test_patterns_that_are_fine(self):
        self.fine(*map(rule, PATTERNS), rule("a=b:c"), rule("# no comment"))

    def test_bad_truth_words(self):
        for word in NO_TRUTHS:
            self.faulty("0: BadTruth", rule(**going_on(word)), section("a", default=word) + REST)
            self.faulty("1: BadTruth", REST + section("a", default=word),
                        REST + section("a", pattern="a", **going_on(word)))

    def test_truth_words(self):
        for word in ("1", "yes", "True", "ON"):
            self.fine(rule(**going_on(word)), section("a", default=word))
        for word in ("0", "no", "False", "OFF"):
            self.fine(rule(**going_on(word)), section("a", default=word) + REST)

    def test_continue_is_read_beside_a_pattern_alone(self):
        self.fine(section("a", default="true", **going_on("maybe")), section("a", **going_on("maybe")) + REST)

    def test_a_second_default(self):
        self.faulty("1: SecondDefault", REST + section("a", default="true"))
        self.faulty("3: SecondDefault", section("a", default="no") + rule()
                    + section("b", default="YES") + section("c", default="maybe"))

    def test_no_default(self):
        self.faulty("NoDefault", "", "# nothing\n", section("a"), section("a", pattern="a"),
                    section("a", Default="true"), section("a", default="no") + section("b", pattern="a"))

    def test_the_first_section_with_a_fault_is_reported(self):
        faults = (("NoDestinations", section("{}", None)), ("BadDestination", section("{}", "h")),
                  ("PatternAndDefault", section("{}", pattern="a", default="no")),
                  ("BadPattern", section("{}", pattern="(")), ("BadTruth", section("{}", default="maybe")),
                  ("SecondDefault", section("{}", default="true")))
        for kind, text in faults:
            for _, other in faults:
                self.faulty(f"1: {kind}", REST + text.format("first") + other.format("second"))

    def test_no_rules(self):
        self.refused("rules: NoRules", rules=None)
        self.refused("rules: NoRules", rules=None, config=SETTINGS + "RELAY_METHOD = rules\n")

    def test_a_ring_needs_no_rules(self):
        self.counts(2, config=RING, rules=None)
        self.counts(2, config=RING, rules=rule())


class RewriteRules(WithFiles):
    """Lines of a rewrite file, which are numbered from 1."""

    def faulty(self, fault, *texts):
        """Cases: the rewrite rules have this fault, whichever the method."""
        for text in texts:
            self.refused(f"rewrite: {fault}", rewrite=text)
            self.refused(f"rewrite: {fault}", rewrite=text, config=RING, rules=None)

    def fine(self, *texts):
        """Cases: `check` takes these rewrite rules."""
        for text in texts:
            self.counts(2, rewrite=text)

    def test_no_section(self):
        self.faulty("line 1: NoSection", "[mid]\n", "[ pre ]", "[pre ]", "[]", "[", "[pre", "a", "a = b\n[pre]",
                    "( = \\2", "[ab] = [c]\n", "; a = b\n[pre]\n", "\ufeff[pre]\n", "[pre] # note\n")
        self.faulty("line 4: NoSection", "# [mid]\n[pre]\na = b\n[[pre]]\nc\n", "\r\n \t\v\f\n\nx = y")

    def test_no_equals(self):
        self.faulty("line 2: NoEquals", "[pre]\na\n", "[post]\n[pre\n", "[pre]\npre]\n", "[pre]\n; a note\n",
                    "[pre]\na : b\n", "[pre]\n( \\2\n", "[pre]\n[mid] # note\n")
        self.faulty("line 5: NoEquals", "[pre]\n\n# a\n a = b\r\nc\nd\n")

    def test_bad_patterns(self):
        self.faulty("line 2: BadPattern", *(f"[pre]\n{text} = x\n" for text in BAD_PATTERNS),
                    "[post]\n( = \\2\n", "[PRE]\n(=\n", "[pre]\n( = a b\n")

    def test_bad_replacements(self):
        for text in (r"(a) = \2", r"(a) = \10", r"(a) = \0", r"(a) = \01", r"a = \1", "a = \\", "a = \\\\\\",
                     r"a = \n", r"(a) = \g<1>", r"(a) = \\\2", r"(a) = \1\x", r"(a)(b) = \1\2\3", r"(?:a) = \1",
                     "(a)" * 10 + r" = \10", "a = b c", "a = b\tc", "a = b\rc", "a = b\x01c", "a = \0", "a = b\x1fc",
                     "a = b\x7f", "a = b # note", "a == b"):
            self.faulty("line 2: BadReplacement", f"[pre]\n{text}\n")
        self.faulty("line 3: BadReplacement", "[pre]\na = b\na = b c\na\n")

    def test_files_that_are_fine(self):
        self.fine("", "# nothing\n", "[pre]", "[post]\n[pre]\r\n[PRE]\n \t[Post]\v\f\n")
        self.fine(*("[pre]\n" + text for text in (
            "= x\n", "a =\n", "=\n", "a==b\n", r"(a)(b) = \2\1\\\1.$1", "a = b#c;d[e]=f", "a b = c",
            "a = \u00a0\u3000\u0085",
            "(a)" * 9 + r" = \9\8.\1", "\ta\v= \fb\r\n")))

    def test_patterns_that_are_fine(self):
        self.fine(*(f"[pre]\n{text} = x\n" for text in PATTERNS))

    def test_the_first_line_with_a_fault_is_reported(self):
        faults = (("NoSection", "[mid]"), ("NoEquals", "a"), ("BadPattern", "( = x"), ("BadReplacement", r"a = \1"))
        for kind, line in faults:
            for _, other in faults:
                self.faulty(f"line 3: {kind}", f"[post]\na = b\n{line}\n{other}\n")
