"""The completions of shells and the man page: they have the commands and options that the help shows, and no others."""

import os
import re
import shutil
import subprocess
import sys

from fixtures import completed, configured, harness
from fixtures.program import TOP

SHELLS = {"bash": completed.by_bash, "fish": completed.by_fish, "zsh": completed.by_zsh}
COMMAND = re.compile(r"^  ([a-z]+)  ", re.MULTILINE)
OPTION = re.compile(r"^ +(?:(-\w), )?(--[a-z]+(?:-[a-z]+)*)", re.MULTILINE)
STATUS = re.compile(r"(?:^|; )(\d) ")  # of a list such as `0 success; 1 a fault`


def shown(*words):
    """The help of the program, or of one of its commands."""
    return harness.run((*words, "-h")).out.decode()


def commands():
    """The commands that the help shows."""
    return COMMAND.findall(shown())


def options(*words):
    """The options that the help shows, short ones too."""
    return sorted(option for found in OPTION.findall(shown(*words)) for option in found if option)


class Completion(harness.Suite):
    """What each shell offers."""

    def test_all_are_made_from_the_tables_of_the_command_line(self):
        """The completions, the synopses, and the commands beside each option of the man page."""
        ran = subprocess.run([sys.executable, os.path.join("tools", "command_pages.py"), "--check"], cwd=TOP,
                             stdout=subprocess.PIPE, stderr=subprocess.STDOUT, text=True, check=False)
        self.assertEqual((ran.returncode, ran.stdout), (0, ""))

    def offers(self, *words, **how):
        """For each shell that is there, its name and what it offers."""
        for name, by_shell in SHELLS.items():
            if shutil.which(name):
                yield name, by_shell(*words, **how)

    def test_all_shells_are_there(self):
        missing = [name for name in SHELLS if shutil.which(name) is None]
        if missing:
            self.skipTest(f"{missing[0]} is missing")

    def test_commands(self):
        self.assertGreater(len(commands()), 5)
        for name, offered in self.offers(""):
            # Options are offered with the commands by bash, and after a `-` alone by the others.
            self.assertEqual(offered, sorted(commands() + (options() if name == "bash" else [])), name)
        for name, offered in self.offers("help", ""):
            self.assertEqual(offered, sorted(commands()), name)
        for name, offered in self.offers("re"):
            self.assertEqual(offered, ["reload", "replay", "report", "restart"], name)

    def test_options_of_each_command(self):
        for name, offered in self.offers("-"):
            self.assertEqual(offered, options(), name)
        for command in set(commands()) - {"help"}:
            for name, offered in self.offers(command, "-"):
                self.assertEqual(offered, options(command), (name, command))

    def test_supervised(self):
        """relayd-supervised has the options of `relayd run`, and its own help."""
        for name, offered in self.offers("-", command="relayd-supervised"):
            self.assertEqual(offered, options("run"), name)
        for name, offered in self.offers("--config", "examples/relay.", command="relayd-supervised"):
            self.assertEqual([os.path.basename(each) for each in offered], ["relay.conf"], name)
        for name, offered in self.offers("--senders", "", command="relayd-supervised"):
            self.assertEqual(offered, list("12345678"), name)

    def test_values(self):
        """Files for options that name one, numbers of senders, nothing for a port."""
        for given, found in ((("run", "--config", "examples/relay."), "relay.conf"),
                             (("run", "--config=examples/relay."), "relay.conf"),
                             (("route", "--names", "examples/metr"), "metrics.txt"),
                             (("replay", "--config", "x", "examples/replay-s"), "replay-script.awk")):
            for name, offered in self.offers(*given):
                self.assertEqual([os.path.basename(each) for each in offered], [found], (name, given))
        for name, offered in self.offers("run", "--senders", ""):
            self.assertEqual(offered, list("12345678"), name)
        for name, offered in self.offers("run", "--line-receivers", ""):
            self.assertEqual(offered, list("123456"), name)
        for option in ("--admin", "--idle", "--drain", "--status", "--status-interface"):
            for name, offered in self.offers("run", option, ""):
                self.assertEqual(offered, [], (name, option))


def plain(page):
    """The text of a man page, without the words of its format that are used there within a line."""
    with open(os.path.join(TOP, "packaging", page), encoding="utf-8") as file:
        return file.read().replace("\\-", "-").replace("\\e", "\\")


def section(text, name):
    """A section of a man page."""
    return re.search(rf"(?ms)^\.SH {name}\n(.*?)(?=^\.SH |\Z)", text)[1]


def long_options(*words):
    """The options of two dashes that the help shows."""
    return {option for option in options(*words) if option.startswith("--")}


class ManPage(harness.Suite):
    """The man page of the program."""

    def setUp(self):
        self.text = plain("relayd.1")

    def test_it_has_each_command_and_option(self):
        known = {option for command in commands() for option in long_options(command)} | long_options()
        self.assertEqual(set(re.findall(r"--[a-z]+(?:-[a-z]+)*", self.text)), known)
        for command in set(commands()) - {"help"}:
            with self.subTest():
                self.assertRegex(self.text, rf"(?m)^\.B {command}$")

    def test_each_command_has_its_statuses(self):
        """In the table, as in that of docs/FAULTS.md, and in the long help of the command."""
        found = re.findall(r"(?m)^(\w+)\tT\{\n((?:(?!T\}).*\n)+)T\}$", section(self.text, "EXIT STATUS"))
        self.assertEqual(sorted(command for command, _ in found), sorted(commands()))
        with open(os.path.join(TOP, "docs", "FAULTS.md"), encoding="utf-8") as file:
            table = re.search(r"(?ms)^\| Command \| 0 .*?\n\n", file.read())[0]
        rows = re.findall(r"(?m)^\| `([\w-]+)` \| (.*) \|$", table)
        self.assertEqual([command for command, _ in rows], [*(command for command, _ in found), "relayd-supervised"])
        shown = {command: {status for status, cell in zip("013", row.split("|")) if cell.strip()} for command, row in rows}
        for command, words in found:
            with self.subTest():
                self.assertEqual(set(STATUS.findall(words)), shown[command], command)
                if command != "help":
                    told = harness.run((command, "--help")).out.decode().split("Exit status: ")[1]
                    helped = set(STATUS.findall(told.replace("\n", " ")))
                    self.assertEqual(helped - {"3", "4"}, shown[command] - {"3"}, command)
                    self.assertLessEqual(shown[command], helped, command)

    def test_each_option_has_its_commands(self):
        found = re.findall(r"(?m)^\.TP\n\.BI? (--[a-z]+(?:-[a-z]+)*).*\n\(([a-z, ]+)\)$", section(self.text, "OPTIONS"))
        told = {option: sorted(names.split(", ")) for option, names in found}
        taken = {option: sorted(command for command in set(commands()) - {"help"} if option in long_options(command))
                 for command in commands() for option in long_options(command) - {"--help"}}
        self.assertEqual(told, taken)


class PageOfFiles(configured.WithFiles):
    """The man page of the configuration."""

    def setUp(self):
        super().setUp()
        self.text = plain("relay.conf.5")

    def test_it_has_the_settings_and_defaults_of_the_reference(self):
        """Those of the table in docs/CONFIGURATION.md. What is required there has here the one value that is taken."""
        found = re.findall(r"(?m)^\.TP\n\.BR? ([A-Z_]+)(?: \" = (\S+)\")?$", section(self.text, "RELAY.CONF"))
        with open(os.path.join(TOP, "docs", "CONFIGURATION.md"), encoding="utf-8") as file:
            table = re.findall(r"(?m)^\| ([A-Z_]+) \| (?:`?([^|`,]+)`?|none, required) \|", file.read())
        self.assertGreater(len(table), 10)
        required = {"DESTINATIONS": "", "USE_FLOW_CONTROL": "false", "DESTINATION_PROTOCOL": "line"}
        self.assertEqual(found, [(key, value or required[key]) for key, value in table])
        # The program knows each of these keys.
        text = "[relay]\n" + "".join(f"{key} = {value or '127.0.0.1:3001, 127.0.0.1:3002'}\n" for key, value in found)
        ran = harness.run(("check", "--explain", *self.given({"config": text})))
        self.assertEqual((ran.status, ran.out), (0, b"ok 2 destinations\n"))
        self.assertNotIn(b"not a key", ran.err)

    def test_its_examples(self):
        """The files are good, and route as the page says."""
        found = re.findall(r"(?ms)^\.nf\n(.*?)^\.fi$", section(self.text, "EXAMPLES"))
        ring, rules, rewrite = found
        self.counts(3, config=ring, rules=None)
        config = ring.replace("consistent-hashing", "rules")
        load = ("servers.web1.load.short", "10.0.0.2:2003:b", "10.0.0.1:2003:a")
        for name, line in (("servers.web1.load.short", load), ("collectd.web1.load.short", load),
                           ("a.b", ("a.b", "10.0.0.1:2003:a")), ("debug.x", ("dropped",))):
            self.routes(name, *line, config=config, rules=rules, rewrite=rewrite)
