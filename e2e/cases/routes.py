"""What `route` prints: the rewritten name and its destinations."""

import json
import os

from fixtures.configured import SETTINGS, WithFiles, numbered, ring, settings
from fixtures.harness import Ran, run

LONGEST_NAME = 16384
THREE = settings(DESTINATIONS="h:3001, h:3002, h:3003", RELAY_METHOD="rules")
STORES = "10.0.0.1:2004:a, 10.0.0.2:2004:b, 10.0.0.3:2004:c"
A, B, C = STORES.split(", ")
ONE = ring("h:1")  # a ring of one destination, so that the name alone matters


def rules(*patterns, default="h:3003"):
    """Relay rules of (pattern, destinations, continue), and a default rule."""
    text = ""
    for number, (pattern, destinations, going_on) in enumerate(patterns):
        text += f"[{number}]\npattern = {pattern}\ndestinations = {destinations}\ncontinue = {going_on}\n"
    return text + f"[rest]\ndefault = true\ndestinations = {default}\n"


class ByRules(WithFiles):
    """Routes by the patterns of relay rules."""

    def test_rules_that_continue_and_a_default_that_comes_first(self):
        text = ("[z]\ndefault = true\ndestinations = h:3003\n"
                "[one]\npattern = ^A\\.\ncontinue = true\ndestinations = h:3002, h:3009, h:3002\n"
                "[two]\npattern = cpu\ndestinations = h:3001, h:3002\n")
        self.routes("a.cpu", "a.cpu", "h:3002", "h:3001", config=THREE, rules=text)
        self.routes("a.mem", "a.mem", "h:3002", "h:3003", config=THREE, rules=text)
        self.routes("b.cpu", "b.cpu", "h:3001", "h:3002", config=THREE, rules=text)
        self.routes("b.mem", "b.mem", "h:3003", config=THREE, rules=text)

    def test_a_default_between_rules_comes_last(self):
        text = ("[a]\npattern = a\ndestinations = h:3001\n[d]\ndefault = yes\ndestinations = h:3003\n"
                "[b]\npattern = b\ndestinations = h:3002\n")
        for name, there in (("a", "h:3001"), ("b", "h:3002"), ("ba", "h:3001"), ("c", "h:3003")):
            self.routes(name, name, there, config=THREE, rules=text)

    def test_the_first_rule_that_ends_the_search(self):
        text = rules(("a", "h:3001", "no"), ("a", "h:3002", "yes"), ("", "h:3002", "yes"))
        self.routes("a", "a", "h:3001", config=THREE, rules=text)
        self.routes("b", "b", "h:3002", "h:3003", config=THREE, rules=text)

    def test_sections_that_are_no_rules(self):
        text = "[x]\ndestinations = h:3001\n[y]\ndefault = no\ndestinations = h:3002\n"
        self.routes("a", "a", "h:3003", config=THREE, rules=text + rules())
        self.routes("a", "a", "h:3003", config=THREE, rules=rules() + text)

    def test_a_pattern_is_searched_for_anywhere_whatever_the_case(self):
        for pattern, name in (("cpu", "web.CPU.load"), ("CPU", "cpu"), ("^A", "a.b"), (r"\.b$", "a.B"),
                              ("[a-c]x", "BX"), ("\u00e4", "x\u00c4"), ("\u00c4", "\u00e4"), ("k", "\u212a"),
                              ("(?-i)a", "xa"), ("a{2}", "bAaB"), (r"^\w+\.\d$", "\u00e9.7"), ("x|y$", "zY"),
                              ("", "a"), (r"\x2e", "."), (r"\$", "$")):
            self.routes(name, name, "h:3001", config=THREE, rules=rules((pattern, "h:3001", "no")))

    def test_a_pattern_that_is_not_found(self):
        for pattern, name in (("^b", "ab"), ("a$", "ab"), ("a.c", "ac"), ("(?-i)A", "a"), (r"a\.c", "abc"),
                              ("a{3}", "aa"), ("^$", "a"), ("[^a]", "aA"), ("b c", "bc"), ("\u00df", "ss"),
                              ("(?-u)[a-z]", "\u212a")):
            self.routes(name, name, "h:3003", config=THREE, rules=rules((pattern, "h:3001", "no")))

    def test_no_destination_is_left(self):
        self.routes("a", "a", config=THREE, rules=rules(default="h:1"))
        self.routes("a", "a", config=THREE, rules=rules(("a", "g:3001, h:3001:x", "no")))
        self.routes("a", "a", "h:3003", config=THREE, rules=rules(("a", "H:3001", "yes")))

    def test_destinations_are_equal_in_host_port_and_instance(self):
        config = settings(DESTINATIONS="h:1, h:2, h:1:a, H:1, h:03")
        text = rules(default="h:3, h:1:A, h:01:a, h:0003, H:1, h:1:a, h:2:a, h:00001")
        self.routes("x", "x", "h:3", "h:1:a", "H:1", "h:1", config=config, rules=text)

    def test_the_order_is_that_of_the_rules(self):
        there = numbered(64)
        turned = there.split(", ")[::-1]
        self.routes("x", "x", *turned, config=settings(DESTINATIONS=there),
                    rules=rules(default=",".join(turned * 3)))

    def test_a_long_answer(self):
        hosts = [f"{number:0>255}:65535:{'y' * 255}" for number in range(64)]
        listed = ",".join(hosts)
        name = "x" * LONGEST_NAME
        self.routes(name, name, *hosts, config=settings(DESTINATIONS=listed), rules=rules(default=listed))


class ByRing(WithFiles):
    """Routes by the hash ring; all but the lone destination's are carbon's own."""

    def test_a_lone_destination(self):
        for factor in (1, 2, 64):
            self.routes("abc", "abc", "127.0.0.1:3001", config=ring("127.0.0.1:3001", factor), rules=None)

    def test_the_choice_of_the_ring(self):
        for name, *expected in (("servers.web1.cpu.load", B, A, C), ("servers.web2.cpu.load", A, C, B),
                              ("servers.web3.cpu.load", C, B, A), ("na\u00efve.m\u00e9trique", A, B, C),
                              ("abc", C, A, B), ("a;host=b", C, B, A)):
            for factor in (1, 2, 3, 4, 64):
                self.routes(name, name, *expected[:factor], config=ring(STORES, factor), rules=None)

    def test_replicas_may_be_on_one_host_and_ports_do_not_matter(self):
        four = ("10.0.0.1:2004:a", "10.0.0.1:2104:b", "10.0.0.2:2004:a", "10.0.0.2:2104:b")
        for stores, expected in ((four, four[:2]), (four[::-1], four[:2]),
                               (("10.0.0.1:1:a", "10.0.0.1:2:b", *four[2:]), ("10.0.0.1:1:a", "10.0.0.1:2:b"))):
            name = "servers.web2.cpu.load"
            self.routes(name, name, *expected, config=ring(", ".join(stores), 2), rules=None)

    def test_diverse_replicas_are_on_different_hosts(self):
        four = ("10.0.0.1:2004:a", "10.0.0.1:2104:b", "10.0.0.2:2004:a", "10.0.0.2:2104:b")
        name = "servers.web2.cpu.load"
        for factor, expected in ((1, four[:1]), (2, (four[0], four[2])), (3, (four[0], four[2])), (64, (four[0], four[2]))):
            self.routes(name, name, *expected, config=ring(", ".join(four), factor, DIVERSE_REPLICAS="yes"), rules=None)

    def test_rules_that_are_handed_in_are_not_used(self):
        text = rules(("abc", "10.0.0.1:2004:a", "no"), default="10.0.0.1:2004:a")
        self.routes("abc", "abc", C, config=ring(STORES), rules=text)


class Rewritten(WithFiles):
    """Names that are rewritten before they are routed."""

    def becomes(self, text, name, expected):
        """A case: by these rewrite rules the name becomes another."""
        self.routes(name, expected, "h:1", config=ONE, rules=None, rewrite=text)

    def test_each_match_is_replaced(self):
        for rule, name, expected in (
                ("a = bb", "aXa", "bbXbb"), (r"(a) = $1\1", "a", "$1a"), (r"x = \\y", "x", r"\y"),
                ("= -", "ab", "-a-b-"), ("b* = -", "abc", "-a-c-"), ("aa = b", "aaaaa", "bba"),
                (r"(a)|(b) = <\1\2>", "ab", "<a><b>"), (r"(.)(.) = \2\1", "abcde", "badce"), ("a = b", "A", "A"),
                ("(?i)A = b", "a", "b"), ("^ = x.", "a", "x.a"), ("$ = .x", "a", "a.x"), (r"\. =", "a.b.c", "abc"),
                ("a = =b", "a", "=b"), ("c = d", "ab", "ab"), ("\u00e4 = \u00f6", "\u00e4\u00c4", "\u00f6\u00c4"),
                (". = x", "\u00e4\u20ac\U0001f600", "xxx"),
                (r"(?P<n>a) = \1\1", "a", "aa"), ("(a)" * 9 + r" = \9-\1", "aaaaaaaaa", "a-a"),
                (r"(a+)(b)? = [\2|\1]", "caa", "c[|aa]"), (r"(a|b)+ = \1", "abab", "b"), ("a|ab = x", "ab", "xb"),
                ("^a|a$ = z", "aba", "zbz"), (r"(?P<n>a) = $n${n}$$\1", "a", "$n${n}$$a"), (r"(x) = \\\1\\", "x", "\\x\\"),
                ("(a)" * 10 + r" = \9.x0", "a" * 10, "a.x0"), (r"\x3d = -", "a=b", "a-b"), (r"\d+ = n", "a1b22", "anbn"),
                ("x = [y]", "x", "[y]"), ("a|# b = c", "a", "c"),
                (r"^collectd\.([a-z0-9]+)\. = \1.system.", "collectd.web1.cpu", "web1.system.cpu")):
            self.becomes(f"[pre]\n{rule}\n", name, expected)
            self.becomes(f"[post]\n{rule}\n", name, expected)

    def test_the_rules_of_pre_come_before_those_of_post(self):
        self.becomes("[post]\nb = c\n[pre]\na = b\n", "a", "c")
        self.becomes("[pre]\nb = c\n[post]\na = b\n", "a", "b")
        self.becomes("[pre]\na = b\nb = a\n", "a", "a")
        self.becomes("[POST]\na = c\n[post]\na = d\n", "a", "c")
        self.becomes("[pre]\na = b\n[post]\nd = e\n[PRE]\nb = c\n[Post]\ne = f\n[pre]\nc = d\n", "a", "f")

    def test_lines_that_are_no_rules_and_white_space(self):
        self.becomes("# first\n\n[pre]\n# a = z\na = b\n  # b = z", "a", "b")
        self.becomes("\v[pre]\f\r\n\ta\v=\f b\t\r\n", "a", "b")

    def test_four_hundred_rules(self):
        """Each pair of them removes one byte."""
        self.becomes("[pre]\n" + "^a(a*)$ = b\\1\n^b(a*)$ = \\1\n" * 200, "a" * 201, "a")

    def test_without_rules_a_name_stays(self):
        for text in (None, "", "# a = b\n", "[pre]\n[post]\n"):
            self.becomes(text, "a", "a")

    def test_the_rewritten_name_is_routed(self):
        self.routes("a", "b", "127.0.0.1:3002", rewrite="[pre]\na = b\n")
        self.routes("b.x", "a.x", "127.0.0.1:3001", rewrite="[pre]\nb = a\n")
        self.routes("web1", "abc", C, config=ring(STORES), rewrite="[pre]\nweb1 = abc\n")
        self.routes("collectd.web1.cpu", "web1.system.cpu", "127.0.0.1:3002",
                    rewrite="[pre]\n" + r"^collectd\.([a-z0-9]+)\. = \1.system.")

    def test_a_name_that_is_rewritten_to_nothing(self):
        for config in (SETTINGS, ONE):
            self.drops("x", config=config, rewrite="[pre]\n^x$ =\n")
            self.drops("a.b", config=config, rewrite="[post]\n. =\n")
            self.drops("x", config=config, rewrite="[pre]\n^$ = y\n^x$ =\n")
            self.drops("x", config=config, rewrite="[post]\n^y$ =\n[pre]\nx = y\n")
        self.becomes("[pre]\n^x$ =\n", "xy", "xy")
        self.becomes("[pre]\n^x$ =\n^$ = y\n", "x", "y")
        self.becomes("[pre]\n^x$ =\n[post]\n^$ = y\n", "x", "y")

    def test_a_name_that_is_rewritten_to_a_long_one(self):
        half = LONGEST_NAME // 2
        self.becomes("[pre]\na = bc\n", "a" * half, "bc" * half)
        self.becomes("[pre]\n^ = \u20ac\n", "x" * (LONGEST_NAME - 3), "\u20ac" + "x" * (LONGEST_NAME - 3))
        self.drops("a" * (half + 1), config=ONE, rewrite="[pre]\na = bc\n")
        self.drops("x" * LONGEST_NAME, config=ONE, rewrite="[pre]\n^ = y\n")
        self.drops("x" * (LONGEST_NAME - 2), config=ONE, rewrite="[pre]\n^ = \u20ac\n")
        self.becomes("[pre]\na = bc\nbc = d\n", "a" * LONGEST_NAME, "d" * LONGEST_NAME)


class Names(WithFiles):
    """The word NAME."""

    def test_names(self):
        for name in ("a", "a;host=b", "*", "\u00e4.\u20ac.\U0001f600", "a\u00a0b", "\u2003", "42", "a=b", "dropped",
                     "check", "\"a'b\\", "\u0080", "x" * LONGEST_NAME, "\u00e4" * (LONGEST_NAME // 2)):
            self.routes(name, name, "h:1", config=ONE, rules=None)

    def test_words_that_are_no_names(self):
        expected = Ran(1, b"", b"relayd: name: BadName\n")
        for name in ("", " ", "a b", " a", "a ", "a\tb", "a\n", "a\r", "a\v", "\x01", "a\x1f", "a\x7f", "\x7f",
                     "x" * (LONGEST_NAME + 1), "\u00e4" * (LONGEST_NAME // 2) + "x"):
            for files in ({}, {"config": ONE, "rules": None}, {"rewrite": "[pre]\n[^a] =\n^$ = a\n"}):
                self.ends(("route", name), expected, files)

    def test_words_that_begin_with_a_hyphen(self):
        for name in ("-", "-x", "--help", "--config", "-5.x", "--"):
            with self.subTest():
                words = ("route", *self.given({"config": ONE, "rules": None}), "--", name)
                self.same(name, run(words), Ran(0, os.fsencode(name) + b" h:1\n", b""), words)


class InJson(WithFiles):
    """`--json`: an object for each name, with what the words of its line say."""

    FILES = {"config": settings(DESTINATIONS="h:1, h:2:b"),
             "rules": rules(("^both", "h:1, h:2:b", "no"), ("^none", "h:9", "no"), default="h:1"),
             "rewrite": "[pre]\n^gone =\n^moved = both\n^odd = \"{\\\\[\n"}

    def one(self, name, sent, *there):
        """The object of a name."""
        return {"name": name, "rewritten": sent, "destinations": list(there), "dropped": sent is None}

    def objects(self):
        """Names with their objects."""
        for name, sent, *there in (("a", "a", "h:1"), ("both.x", "both.x", "h:1", "h:2:b"), ("moved.x", "both.x", "h:1", "h:2:b"),
                                   ("none", "none"), ("gone", None), ("odd", '"{\\[', "h:1"), ("\u00e4\"\\", "\u00e4\"\\", "h:1"),
                                   ("\u2028{", "\u2028{", "h:1"), ("x" * LONGEST_NAME, "x" * LONGEST_NAME, "h:1")):
            yield self.one(name, sent, *there)

    def reads(self, ran, expected, status=0, err=b""):
        """The output is these objects, with their members in this order."""
        self.assertEqual((ran.status, ran.err), (status, err))
        objects = list(map(json.loads, ran.out.decode().split("\n")[:-1]))
        self.assertEqual(objects, expected)
        self.assertEqual([list(it) for it in objects], [list(it) for it in expected])

    def test_a_name(self):
        for expected in self.objects():
            with self.subTest():
                words = ("route", *self.given(self.FILES), "--json", expected["name"])
                self.reads(run(words), [expected])
                self.reads(run((*words, "--strict")), [expected], int(not expected["destinations"]))

    def test_names(self):
        expected = list(self.objects())
        names = "".join(f" {it['name']}\r\n\n" for it in expected).encode()
        words = ("route", *self.given(self.FILES), "--json", "--names", "-")
        self.reads(run(words, names), expected)
        self.reads(run((*words, "--strict"), names), expected, 1)
        self.reads(run((*words, "--strict"), b"a\nboth.x"), [self.one("a", "a", "h:1"), self.one("both.x", "both.x", "h:1", "h:2:b")])
        self.reads(run(words, b""), [])

    def test_bad_names(self):
        """They have no object, and the line that they have without the option."""
        note = b"relayd: name: line 2: BadName\n"
        words = ("route", *self.given(self.FILES), "--json", "--names", "-")
        self.reads(run(words, b"a\nx y\na\n"), [self.one("a", "a", "h:1")] * 2, err=note)
        self.reads(run((*words, "--strict"), b"a\nx y\na\n"), [self.one("a", "a", "h:1")] * 2, 1, note)
        self.reads(run(("route", *self.given(self.FILES), "--json", "x y")), [], 1, b"relayd: name: BadName\n")

    def test_faults(self):
        for words in (("route", "a"), ("route", "--names", "-")):
            self.ends((*words, "--json"), Ran(1, b"", b"relayd: rules: NoRules\n"), {"rules": None})
        self.ends(("route", "--names", os.fspath(self.folder), "--json"), Ran(3, b"", b"relayd: names: cannot read\n"), {})
        with open("/dev/full", "wb") as full:
            for words in (("a",), ("--names", "-")):
                ran = run(("route", "--json", *words, *self.given({})), b"a\n", stdout=full)
                self.assertEqual((ran.status, ran.err), (3, b"relayd: output\n"))
