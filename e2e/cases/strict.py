"""`--strict`: the status says that something was bad, was dropped or went nowhere; and `-`, which is standard input once."""

import itertools
import os

from fixtures.configured import NAME, RULES, SETTINGS, WithFiles, ring, settings
from fixtures.harness import LONGEST_LINE, Ran, held, one_byte_a_read, run
from fixtures.stores import free_ports

NOWHERE = "[none]\npattern = ^none\\.\ndestinations = h:1\n" + RULES
DROPPED = "[pre]\n^gone =\n^moved\\. = none.\n"
FILES = {"rules": NOWHERE, "rewrite": DROPPED}
GOOD = (b"a.b", b"x")
LOST = (b"gone", b"none.x", b"moved.x", b"x y", b"\xff", b"x" * 16_385)
LINE_FILES = ("config", "rules", "rewrite", "lines")
TWICE = b"error: '%s' and '%s' are both '-', and standard input can be read only once\n"


def lined(names):
    """A line of each of these names."""
    return b"".join(name + b" 1 2\n" for name in names)


class Strict(WithFiles):
    """The status of a command with and without the option; what it writes is the same."""

    def compared(self, is_lost, words, given=b""):
        """A case: without the option the status is 0, and with it 1 if something is lost."""
        with self.subTest():
            ran = run(words, given)
            self.assertEqual(ran.status, 0, words)
            self.same(given, run((*words, "--strict"), given), Ran(int(is_lost), ran.out, ran.err), words)

    def lists(self):
        """Lists of names, and whether one of them is lost."""
        yield from (([], False), ([*GOOD, *GOOD], False))
        for name in LOST:
            yield from (([name], True), ([*GOOD, name, *GOOD], True))

    def test_pass(self):
        for lines, is_lost in ((b"", False), (b"a 1 2\n\nb 3 4\n", False), (b"a 1 2\nb 3", False), (b"a 1 2\nb\nc 3 4\n", True),
                               (b"a nan 2\n", True), (b"x" * (LONGEST_LINE + 1), True)):
            self.compared(is_lost, ("pass",), lines)
            self.compared(is_lost, ("pass", "--moment", "7"), lines)
        ran = run(("pass", "--explain", "--strict"), b"a 1 2\nb\n")
        self.assertEqual((ran.status, ran.out), (1, b"a 1 2\n"))
        self.assertIn(b"relayd: note: line 2: not three fields", ran.err)

    def test_other_faults_have_their_status(self):
        with open("/dev/full", "wb") as full:
            self.assertEqual(run(("pass", "--strict"), b"a 1 2\nb\n", stdout=full).status, 3)
        for words in (("route", "a"), ("route", "--names", "-"), ("replay", "--lines", "-"), ("replay", "-")):
            self.ends((*words, "--strict"), Ran(1, b"", b"relayd: rules: NoRules\n"), {"rules": None})
            self.ends((*words, "--strict"), Ran(3, b"", b"relayd: config: cannot read\n"), {"config": self.folder / "missing"})
        for words, fault in ((("route", "--names"), b"names"), (("replay", "--lines"), b"script"), (("replay",), b"script")):
            for path in (self.folder / "missing", self.folder):
                self.ends((*words, os.fspath(path), "--strict"), Ran(3, b"", b"relayd: %s: cannot read\n" % fault), {})
        self.ends(("route", "a b", "--strict"), Ran(1, b"", b"relayd: name: BadName\n"), {})

    def test_route(self):
        for name in (*GOOD, *LOST[:3]):
            self.compared(name in LOST, ("route", name.decode(), *self.given(FILES)))

    def test_route_of_names(self):
        words = ("route", "--names", "-", *self.given(FILES))
        for names, is_lost in self.lists():
            for text in (b"\n".join(names), b"\n\n \t\n" + b"".join(b" %s\r\n" % name for name in names)):
                self.compared(is_lost, words, text)

    def test_a_new_name_that_looks_like_a_destination(self):
        """Its line has two words, as that of a name that goes to the destination."""
        rules = "[none]\npattern = ^h:2\ndestinations = h:9\n[rest]\ndefault = true\ndestinations = h:2\n"
        words = ("route", "--names", "-", *self.given({"config": settings(DESTINATIONS="h:2"), "rules": rules,
                                                       "rewrite": "[pre]\n^moved$ = h:2\n"}))
        self.assertEqual(run(words, b"moved\n").out, b"moved h:2\n")
        self.compared(True, words, b"moved\n")
        self.compared(False, words, b"a\n")

    def test_replay_of_lines(self):
        words = ("replay", "--lines", "-", *self.given(FILES))
        for names, is_lost in self.lists():
            self.compared(is_lost, words, lined(names))
        many = lined(b"a.%d" % number for number in range(20_000))
        self.compared(False, words, many)
        self.compared(True, words, many + lined([b"none.x"]))
        self.compared(False, words, lined(GOOD) + b"none.x 1")
        self.compared(True, words, b"x" * (LONGEST_LINE + 1))

    def test_replay_of_a_script(self):
        """Of readers of each kind; a piece that the replay refuses is not read."""
        begun, bad, good, frame = (text.hex() for text in (b"bad ", b"bad\n", b"a.b 1 2\n", b"\0\0\0\x02]."))
        words = ("replay", "-", *self.given(FILES))
        for script, is_lost in (
                ("reader line\n", False),
                (f"reader line\npiece 0 9 {good}\noffer 0\npiece 0 9 {good}\n", False),
                (f"reader line\npiece 0 9 {lined(LOST[:1]).hex()}\n", True),
                (f"reader line\npiece 0 9 {lined(LOST[1:2]).hex()}\n", True),
                (f"reader line\npiece 0 9 {good}\npiece 0 9 {bad}\n", False),       # an offer waits
                (f"reader line\npiece 0 9 {good}\noffer 0\npiece 0 9 {bad}\n", True),
                (f"reader line\npiece 0 9 {begun}\nend 0\npiece 0 9 {good}\n", False),
                (f"reader line\npiece 0 9 {begun}\npiece 0 9 {good}\n", True),
                (f"reader line\npiece 1 9 {bad}\noffer 7\nend 7\n", False),         # there is no such reader
                (f"reader datagram\npiece 0 9 {good[:-2]}\n", False),
                (f"reader datagram\npiece 0 9 {bad}\n", True),
                (f"reader pickle\npiece 0 9 {frame}\n", False),
                ("reader pickle\npiece 0 9 00000000\n", True),
                ("reader pickle\npiece 0 9 ffffffff\n", True)):
            self.compared(is_lost, words, script.encode())

    def test_notes_and_the_status(self):
        """With notes the status stays."""
        for names, status in ((b"a.b\n", 0), (b"none.x\n", 1)):
            ran = run(("route", "--names", "-", "--explain", "--strict", *self.given(FILES)), names)
            self.assertEqual(ran.status, status)


class StandardInput(WithFiles):
    """The word `-` in place of a file."""

    def setUp(self):
        super().setUp()
        self.texts = {"config": SETTINGS, "rules": RULES, "rewrite": "[pre]\nz = y\n"}
        given = self.given(self.texts)
        self.words = {role: given[2 * place:2 * place + 2] for place, role in enumerate(self.texts)}

    def others(self, role):
        """The words of all files, this one on standard input."""
        return [word for other, words in self.words.items() for word in (("--" + role, "-") if other == role else words)]

    def test_each_file_of_a_configuration(self):
        for role, text in self.texts.items():
            for command, out in ((("check",), b"ok 2 destinations\n"), (("route", NAME), b"a.b 127.0.0.1:3001\n")):
                with self.subTest():
                    ran = run((*command, *self.others(role)), text.encode())
                    self.same(role, ran, Ran(0, out, b""), command)
                    self.same(role, run((*command, *self.others(role), "--explain"), text.encode())[:2], (0, out), command)
        ran = one_byte_a_read(SETTINGS.encode(), ("check", *self.others("config")))
        self.assertEqual(ran, Ran(0, b"ok 2 destinations\n", b""))

    def test_a_limit_of_names_behind_it(self):
        words = ("route", "--longest-name", "3", *self.others("rewrite"))
        for name, line in (("a.b", b"a.b 127.0.0.1:3001\n"), ("a.bc", b"dropped\n"), ("zz", b"yy 127.0.0.1:3002\n")):
            self.assertEqual(run((*words, name), self.texts["rewrite"].encode()).out, line)

    def test_scripts_and_lines(self):
        words = sum(map(list, self.words.values()), [])
        lines, script = b"a.b 1 2\n", b"reader line\npiece 0 9 %s\n" % b"a.b 1 2\n".hex().encode()
        for option, text in (("--lines", lines), (None, script)):
            path = self.folder / "input"
            path.write_bytes(text)
            given = [option] if option else []
            expected = run(("replay", *words, *given, os.fspath(path)))
            self.assertEqual(expected.status, 0)
            self.assertEqual(run(("replay", *words, *given, "-"), text), expected)

    def test_notes_show_what_it_has(self):
        """A fault of it has its line, without a second reading."""
        for role, text, line in (("config", SETTINGS.replace("SIZE = 1", "SIZE = x"), 3), ("rules", "[x]\npattern = (\ndestinations = h:1\n" + RULES, 2)):
            ran = run(("check", "--explain", *self.others(role)), text.encode())
            self.assertEqual((ran.status, ran.out), (1, b""))
            self.assertIn(b"relayd: note: standard input line %d" % line, ran.err)
        words = sum(map(list, self.words.values()), [])
        ran = run(("replay", "--explain", *words, "-"), b"reader line\nwhat\n")
        self.assertIn(b"relayd: note: standard input line 2:\nrelayd: note:   what\n", ran.err)

    def test_it_is_not_read_where_an_earlier_file_has_a_fault(self):
        """So that nobody waits for it."""
        (self.folder / "config").write_text("[relay]\n")
        for words in ((*self.others("rules"), "a"), (*self.words["config"], "--names", "-")):
            for notes in ((), ("--explain",)):
                ours, its = os.pipe()
                try:
                    ran = run(("route", *words, *notes), stdin=ours)
                finally:
                    os.close(ours)
                    os.close(its)
                self.assertEqual((ran.status, ran.err.split(b"\n")[0]), (1, b"relayd: config: DESTINATIONS: Missing"))

    def test_it_cannot_be_read(self):
        for role, words in (("config", self.others("config")), ("rules", self.others("rules"))):
            for notes in ((), ("--explain",)):
                folder = os.open(self.folder, os.O_RDONLY)
                try:
                    ran = run(("check", *words, *notes), stdin=folder)
                finally:
                    os.close(folder)
                self.assertEqual((ran.status, ran.out), (3, b""))
                self.assertEqual(ran.err.split(b"\n")[0], b"relayd: %s: cannot read" % role.encode())
                if notes:
                    self.assertIn(b"relayd: note: standard input: is a directory", ran.err)

    def test_a_second_one(self):
        """It is a fault of the command line, and says of what."""
        shown = {role: f"--{role} <FILE>" for role in (*LINE_FILES, "names")} | {"script": "<SCRIPT>"}
        twice = [("check", first, second) for first, second in itertools.combinations(self.texts, 2)]
        for last, command in (("names", "route"), ("lines", "replay"), ("script", "replay")):
            twice += [(command, role, last) for role in self.texts]
        twice += [("run", "config", "rules"), ("restart", "rules", "rewrite")]
        for command, first, second in twice:
            words = [word for role in (first, second) for word in ((f"--{role}", "-") if role != "script" else ("-",))]
            if first != "config":
                words += self.words["config"]
            if command == "route" and second != "names":
                words.append("a")
            if command in ("run", "restart"):
                words += ["--admin", "1"]
            with self.subTest():
                ran = run((command, *words), b"")
                self.assertEqual((ran.status, ran.out), (2, b""), (command, words))
                self.assertEqual(ran.err[:ran.err.index(b"\n") + 1], TWICE % (shown[first].encode(), shown[second].encode()))
                self.assertIn(b"\nUsage: relayd %s " % command.encode(), ran.err)

    def test_a_relay_reads_it_once(self):
        """A reload would have to read it again."""
        admin = str(free_ports(1)[0])
        with held(("run", *self.others("config"), "--admin", admin)) as child:
            child.stdin.write(settings(LINE_RECEIVER_PORT=0, PICKLE_RECEIVER_PORT=0).encode())
            child.stdin.close()
            self.assertEqual(child.stdout.readline(), b"ready\n")
            self.assertEqual(run(("reload", "--admin", admin)),
                             Ran(3, b"", b"relayd: config: cannot read: -: standard input can be read only once\n"))
            self.assertEqual(run(("stop", "--wait", "--admin", admin)), Ran(0, b"stopping\n", b""))

    def test_a_name_is_no_file(self):
        words = ("route", *self.given({"config": ring("h:1"), "rules": None}))
        self.assertEqual(run((*words, "--", "-")), Ran(0, b"- h:1\n", b""))
        self.assertEqual(run(("route", "--config", "-", "--", "-"), ring("h:1").encode()), Ran(0, b"- h:1\n", b""))

    def test_a_file_of_that_name(self):
        (self.folder / "-").write_text(SETTINGS)
        ran = run(("check", "--config", "./-", *self.words["rules"]), b"[relay]\n", cwd=self.folder)
        self.assertEqual(ran, Ran(0, b"ok 2 destinations\n", b""))
