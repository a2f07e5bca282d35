"""Words of the command line: options, refusals, help and version."""

import os
import re

from fixtures.configured import NAME, WithFiles
from fixtures.harness import GREATEST_TIME, Ran, Suite, run, short
from fixtures.program import TOP

LINES = b"a 1 -1\nb 2 3\n"


def commands():
    """The commands that the help shows, but for `help`."""
    return sorted(set(re.findall(r"(?m)^  ([a-z]+)  ", run(("-h",)).out.decode())) - {"help"})


class Words(Suite):
    """The cases that the classes below share."""

    def refused(self, *words):
        """A case: the program refuses these words and reads nothing."""
        with self.subTest():
            ran = run(words, LINES)
            self.same(LINES, ran, Ran(2, b"", ran.err), words)
            if not re.search(rb"^(error|Usage): ", ran.err, re.MULTILINE) or b"panicked" in ran.err:
                self.fail(f"{words}: standard error is {short(ran.err)}")

    def prints(self, words, *patterns):
        """A case: standard output has each of these patterns, standard error nothing."""
        with self.subTest():
            ran = run(words, LINES)
            self.same(LINES, ran, Ran(0, ran.out, b""), words)
            for pattern in patterns:
                if not re.search(pattern, ran.out, re.MULTILINE):
                    self.fail(f"{words}: {short(ran.out, 400)} has no {pattern}")


class Moment(Suite):
    """`--moment N`."""

    def test_moments(self):
        for word, moment in (("0", 0), ("5", 5), ("1700000000", 1700000000),
                             (str(GREATEST_TIME), GREATEST_TIME)):
            out = b"a 1 %d\nb 2 3\n" % moment
            self.expect(LINES, out, words=("pass", "--moment", word))
            self.expect(LINES, out, words=("pass", f"--moment={word}"))

    def test_leading_zeros_are_fine(self):
        for word, moment in (("00", 0), ("007", 7), ("0" * 40 + "7", 7),
                             ("0" * 9 + str(GREATEST_TIME), GREATEST_TIME)):
            self.expect(LINES, b"a 1 %d\nb 2 3\n" % moment, words=("pass", "--moment", word))


class Refused(Words):
    """Words that are wrong: status 2, nothing on standard output, and it says why."""

    def test_moments_that_are_none(self):
        for word in ("9007199254740993", "18446744073709551616", "9" * 100, "-5", "-0", "+5",
                     " 5", "5 ", "", "x", "5x", "0x10", "1e3", "5.0", "1_000", "5\n", "\u0665",
                     "\uff15"):
            self.refused("pass", f"--moment={word}")
            self.refused("pass", "--moment", word)

    def test_a_moment_without_its_value(self):
        self.refused("pass", "--moment")

    def test_a_moment_given_twice(self):
        self.refused("pass", "--moment", "5", "--moment", "5")
        self.refused("pass", "--moment=5", "--moment=6")

    def test_an_interface_of_no_status_server(self):
        self.refused("run", "--config", "missing", "--admin", "2999", "--status-interface", "127.0.0.1")

    def test_no_command(self):
        self.refused()

    def test_unknown_commands(self):
        for word in ("", "past", "PASS", "pass ", "pas"):
            self.refused(word)

    def test_unknown_options(self):
        for words in (("--unknown",), ("pass", "--unknown"), ("pass", "-x"), ("--unknown", "pass"),
                      ("pass", "--moments", "5"), ("pass", "--MOMENT", "5")):
            self.refused(*words)

    def test_options_of_other_commands(self):
        for command, options in (("pass", ("--json",)), ("replay", ("--json", "--pickle")), ("route", ("--pickle",)),
                                 ("report", ("--strict",)), ("stop", ("--json", "--strict")), ("run", ("--json", "--strict"))):
            for option in options:
                self.refused(command, option)

    def test_words_of_other_programs_have_a_tip(self):
        takes = b"each file has its option, such as --config FILE; --log takes none, and writes to standard error"
        stays = b"'relayd run' stays in the foreground; a supervisor such as systemd keeps it in the background"
        for words, reason, tip, usage in (
                (("--daemon",), b"unexpected argument '--daemon' found", stays, b"run"),
                (("--daemon", "start"), b"unexpected argument '--daemon' found", stays, b"run"),
                (("-d",), b"unexpected argument '-d' found", stays, b"run"),
                (("run", "--daemon", "--config", "x", "--admin", "1"), b"unexpected argument '--daemon' found", stays, b"run"),
                (("run", "-d"), b"unexpected argument '-d' found", stays, b"run"),
                (("start",), b"unrecognized subcommand 'start'",
                 b"'relayd run' starts the relay, and stays in the foreground", b"run"),
                (("start", "--config", "x"), b"unrecognized subcommand 'start'",
                 b"'relayd run' starts the relay, and stays in the foreground", b"run"),
                (("status",), b"unrecognized subcommand 'status'",
                 b"'relayd report' prints the counts of a running relay; 'relayd run --status PORT' serves a page", b"report"),
                (("run", "relay.conf"), b"unexpected argument 'relay.conf' found", takes, b"run"),
                (("run", "--config", "x", "--admin", "1", "--log", "/var/log/x"), b"unexpected argument '/var/log/x' found", takes, b"run"),
                (("--config", "x"), b"unexpected argument '--config' found", b"options come after a command: relayd check --config FILE",
                 b"check"),
                (("pass", "lines.txt"), b"unexpected argument 'lines.txt' found",
                 b"'relayd pass' reads standard input: relayd pass < lines.txt", b"pass"),
                (("pass", "--explain", "a b"), b"unexpected argument 'a b' found",
                 b"'relayd pass' reads standard input: relayd pass < a b", b"pass")):
            self.refused(*words)
            with self.subTest():
                err = run(words, LINES).err
                self.assertTrue(err.startswith(b"error: %s\n\n  tip: %s\n\nUsage: relayd %s " % (reason, tip, usage)), err)
        for words in (("stop", "-d"), ("pass", "-d"), ("check", "--daemon"), ("starts",), ("check", "start")):
            with self.subTest():
                self.assertNotIn(b"relayd run' ", run(words, LINES).err)

    def test_empty_paths(self):
        """As those of a variable that is not set."""
        for command, options in (("check", ("config", "rules", "rewrite")), ("route", ("names",)), ("replay", ("lines",)),
                                 ("run", ("admin-key", "record", "spool")), ("report", ("admin-key",)), ("reload", ("admin-key",))):
            for option in options:
                others = (*(("--config", "x") if command in ("check", "route", "replay", "run") and option != "config" else ()),
                          *(("--admin", "1") if command in ("run", "report", "reload") else ()))
                words = (command, f"--{option}=", *others)
                self.refused(*words)
                with self.subTest():
                    self.assertRegex(run(words, LINES).err, rb"\Aerror: invalid value '' for '--%s <(FILE|DIR)>': an empty path\n" % option.encode())

    def test_a_word_too_many(self):
        self.refused("pass", "word")
        self.refused("pass", "--moment", "5", "word")
        self.refused("pass", "pass")

    def test_words_that_are_not_utf_8(self):
        for word in (b"\xff", b"pass\xff", b"\xc3", b"\xed\xa0\x80"):
            self.refused(word)
            self.refused("pass", word)
            self.refused("pass", "--moment", word)
            self.refused("pass", b"--moment=" + word)


class Files(Words, WithFiles):
    """The files and the name of `check` and `route`."""

    def setUp(self):
        super().setUp()
        self.files = self.given({"rewrite": "[pre]\n"})
        self.config = self.files[:2]

    def done(self, *words):
        """A case: these words are fine."""
        with self.subTest():
            out = b"ok 2 destinations\n" if words[0] == "check" else b"%s 127.0.0.1:3001\n" % NAME.encode()
            self.same(words, run(words), Ran(0, out, b""), words)

    def test_options_in_any_order(self):
        config, rules, rewrite = (self.files[place:place + 2] for place in (0, 2, 4))
        for options in ((config, rules, rewrite), (rewrite, rules, config), (rules, config), (config, rules)):
            words = sum(options, [])
            joined = ["=".join(option) for option in options]
            for each in (words, joined):
                self.done("check", *each)
                self.done("route", *each, NAME)
                self.done("route", NAME, *each)
                self.done("route", *each, "--", NAME)
        self.done("route", *config, NAME, *rules)

    def test_no_configuration(self):
        for options in ((), self.files[2:], ("--config",), (*self.files[2:], "--config")):
            self.refused("check", *options)
            self.refused("route", *options)
            self.refused("route", NAME, *options)

    def test_an_option_without_its_value(self):
        for option in ("--config", "--rules", "--rewrite"):
            self.refused("check", *self.config, option)
            self.refused("route", NAME, *self.config, option)
        self.refused("check", "--config", *self.files[2:])
        self.refused("route", "--config", *self.files[2:])

    def test_an_option_given_twice(self):
        for place in (0, 2, 4):
            self.refused("check", *self.files, *self.files[place:place + 2])
            self.refused("route", NAME, *self.files, "=".join(self.files[place:place + 2]))

    def test_no_name_and_too_many(self):
        self.refused("route", *self.files)
        self.refused("route", *self.files, "--")
        self.refused("route", *self.files, NAME, NAME)
        self.refused("route", NAME, *self.files, NAME)
        self.refused("route", *self.files, "--", NAME, "--")
        self.refused("check", *self.files, NAME)
        self.refused("check", NAME, *self.files)
        self.refused("check", *self.files, "--", NAME)
        self.refused("check", *self.files, "")

    def test_unknown_options(self):
        for word in ("--unknown", "-x", "--conf", "--configs", "--CONFIG", "-c", "--moment=5", "--senders=1", "--log"):
            self.refused("check", *self.files, word)
            self.refused("route", *self.files, NAME, word)
        for word in ("--unknown", "-x", "-5", "--config.x"):
            self.refused("route", *self.files, word)

    def test_options_in_front_of_the_command(self):
        for option in (self.config, ["=".join(self.config)]):
            self.refused(*option, "check")
            self.refused(*option, "route", NAME)
            self.refused(*option)

    def test_unknown_commands(self):
        for word in ("checks", "chec", "Check", "routes", "rout", "ROUTE", " check", "check "):
            self.refused(word, *self.files)
            self.refused(word, *self.files, NAME)

    def test_words_that_are_not_utf_8(self):
        for word in (b"\xff", b"a\xc3", b"\xed\xa0\x80"):
            self.refused("route", *self.files, word)
            for option in (b"--config", b"--rules", b"--rewrite"):
                self.refused("check", option + b"=" + word)
                self.refused("route", *self.config, option, word, NAME)

    def test_pass_takes_files_and_does_not_read_them(self):
        for option in ("--config", "--rules", "--rewrite"):
            self.expect(b"a 1 2\n", b"a 1 2\n", words=("pass", option, "missing"))


class Numbers(Words):
    """Options whose value is a number: the help, the refusals and the pages have one range of each."""

    # An option in the help of a command, what its value is called there, and the range of that.
    RANGE = re.compile(r"(?ms)^ +--([a-z-]+) <([A-Z]+)>((?:(?!^ +-).)*?)\b(\d+) to (\d+)\b")
    # Words that each command needs beside an option.
    NEEDED = {"pass": {}, "check": {"config": "x"}, "route": {"config": "x", "name": NAME}, "replay": {"config": "x", "script": "y"},
              "run": {"config": "x", "admin": "1"}, "report": {"admin": "1"}, "watch": {"admin": "1"}, "stop": {"admin": "1"},
              "restart": {"config": "x", "admin": "1"}, "reload": {"admin": "1"}}

    def ranges(self, command):
        """The options of a command whose help has a range: its name, what its value is called, and its two ends."""
        shown = run((command, "-h")).out.decode()
        return [(name, value, int(least), int(most)) for name, value, _, least, most in self.RANGE.findall(shown)]

    def words_with(self, command, name, number):
        """The words of a command with this number at an option."""
        needed = {other: value for other, value in self.NEEDED[command].items() if other != name}
        if (command, name) == ("route", "admin"):
            needed.pop("config")
        bare = [needed.pop(other) for other in ("name", "script") if other in needed]
        return (command, f"--{name}={number}", *(f"--{other}={value}" for other, value in needed.items()), *bare)

    def test_a_number_beside_the_range_of_the_help_is_refused_with_it(self):
        """Those at its ends are not."""
        self.assertEqual(sorted(self.NEEDED), commands())
        found = set()
        for command in self.NEEDED:
            for name, value, least, most in self.ranges(command):
                found.add(name)
                said = f"error: invalid value '%s' for '--{name} <{value}>': not {least} to {most} in decimal digits\n"
                for number in (str(least - 1), str(most + 1), "", "1x"):
                    words = self.words_with(command, name, number)
                    with self.subTest():
                        ran = run(words)
                        self.assertEqual((ran.status, ran.out), (2, b""), words)
                        self.assertTrue(ran.err.decode().startswith(said % number), (words, ran.err))
        self.assertGreaterEqual(len(found), 11)

    def test_the_ends_of_a_range_are_taken(self):
        for command in self.NEEDED:
            for name, _, least, most in self.ranges(command):
                if name in ("admin", "status"):
                    continue
                for number in (least, most):
                    words = self.words_with(command, name, number)
                    with self.subTest():
                        self.assertNotEqual(run(words).status, 2, words)

    def test_the_man_page_and_the_reference_have_these_ranges(self):
        with open(os.path.join(TOP, "packaging", "relayd.1"), encoding="utf-8") as file:
            man = dict(re.findall(r"(?ms)^\.TP\n\.BI? --([a-z-]+)(.*?)(?=^\.TP|^\.SH|^\.PP)", file.read().replace("\\-", "-")))
        with open(os.path.join(TOP, "docs", "REFERENCE.md"), encoding="utf-8") as file:
            page = {name: (int(least), int(most.replace(",", ""))) for name, least, most
                    in re.findall(r"(?m)^\| `--([a-z-]+)` \| (\d+) to ([\d,]+)", file.read())}
        self.assertGreaterEqual(set(page), {"drain", "idle"})
        for command in self.NEEDED:
            for name, _, least, most in self.ranges(command):
                with self.subTest():
                    self.assertIn(f"{least} to {most}", " ".join(man[name].split()), name)
                    self.assertEqual(page.get(name, (least, most)), (least, most), name)


class Help(Words):
    """Help and version: on standard output, status 0."""

    def test_help(self):
        self.prints(("--help",), rb"Usage: relayd ", rb"^ *pass\b", rb"^ *check\b", rb"^ *route\b", rb"--help\b",
                  rb"--version\b")

    def test_help_of_pass(self):
        self.prints(("pass", "--help"), rb"Usage: relayd pass ", rb"--moment\b", rb"\b0\b.*\b%d\b"
                  % GREATEST_TIME, rb"--help\b")

    def test_help_of_check_and_route(self):
        options = (rb"--config <FILE>", rb"--rules <FILE>", rb"--rewrite <FILE>", rb"--help\b")
        for words in (("--help",), ("--config", "missing", "--help"), ("--help", "--unknown")):
            self.prints(("check", *words), rb"Usage: relayd check ", *options)
            self.prints(("route", *words), rb"Usage: relayd route ", *options, rb"Usage: .*<--names <FILE>\|NAME>")

    def test_the_long_help_has_examples_and_statuses(self):
        """It has all that the short one has of options, and each example is taken: it gets as far as its files."""
        self.assertGreater(len(commands()), 9)
        for command in commands():
            short_help, long_help = (run((command, flag)).out.decode() for flag in ("-h", "--help"))
            for option in set(re.findall(r"--[a-z]+", short_help)):
                self.assertIn(option, long_help)
            self.assertNotIn("Example", short_help)
            self.assertRegex(long_help, r"(?i)\bstatus")
            examples = re.findall(r"(?m)^    (?:.* \| )?relayd ([^<\n]*)", long_help)
            self.assertTrue(examples, command)
            for example in examples:
                words = example.split()
                self.assertEqual(words[0], command)
                self.assertIn(run(words, LINES).status, (0, 3), example)
        self.assertRegex(run(("--help",)).out.decode(), r"(?m)^    4    out of memory$")

    def test_version(self):
        self.prints(("--version",), rb"\Arelayd [0-9]+\.[0-9]+\.[0-9]+\S*\n\Z")
