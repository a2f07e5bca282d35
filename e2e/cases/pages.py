"""The pages of documentation: each command that they show prints what they show, and what they list is all there is."""

import importlib
import os
import re
import shutil
import subprocess

from fixtures import harness, links, waits, walks
from fixtures.pages import PageSuite
from fixtures.program import TOP

CRATE = re.compile(r"\[`(\w+)`\]\(\.\./crates/\1\)")
AWAITED = re.compile(r"\bno command\b[^.|]*\byet\b", re.IGNORECASE)
COMMAND = re.compile(r"`(?:relayd )?(\w+)(?: [^`]*)?`")
OPTION = re.compile(r"--[a-z]+(?:-[a-z]+)*")
SYNOPSIS = re.compile(r"`relayd (\w+) ([^`]*\[--[^`]*)`")
FILE = re.compile(r"`((?:\w+/(?:src|specs)|e2e|examples|tools|packaging|docs)/[\w./-]+\.\w+)`")
NAMED = r"`(?:relayd )?[a-z]+`"
LISTED = re.compile(rf"{NAMED}(?:(?:, | and | or |, and |, or ){NAMED})+")
OPTION_OF = re.compile(rf"`(--[a-z]+(?:-[a-z]+)*)[^`]*` of ({NAMED}(?:(?:, | and | or ){NAMED})*)")
CODE_NAME = re.compile(r"`((?:[A-Z]\w+|[a-z]+_\w+)(?:::\w+)*)`")
DEFINED = re.compile(r"\b(?:fn|struct|enum|trait|type) (\w+)")
LOGIC = re.compile(r"rattle-kit-\w+ logic (\w+)")
THREAD = re.compile(r"(?:fn name\(&self, alloc: Global\) -> Result<String, AllocError> \{\s*(?:String::from_str\(|format!\(in )"
                    r"|let name = String::from_str\()alloc[,;] \"([^\"]+)\"")
MANUAL = os.path.join("packaging", "relayd.1")
HISTORY = "CHANGELOG.md"
CASE = re.compile(r"`(\w+)\.(\w+)\.(test_\w+)`")
ATTACKED = "e2e/cases/hostile.py"
WORD = re.compile(r"\S*\w\S*")  # the bars of a table are none
MOST_WORDS = 58_000  # of all pages, those of crates too


def text_of(page):
    """The text of a file of the repository."""
    with open(os.path.join(TOP, page), encoding="utf-8") as file:
        return file.read()


def crate_sources():
    """The sources of all crates, from the top of the repository."""
    return [os.path.join(at, file)[len(TOP) + 1:] for at, _, files in os.walk(os.path.join(TOP, "crates"))
            if f"{os.sep}src" in at for file in files if file.endswith(".rt")]


def layers():
    """The layer of each crate of crates.txt, one above what it depends on; `tests` for what only tests use."""
    needs = dict(re.findall(r"^(\w+):(.*)$", text_of("crates.txt"), re.MULTILINE))
    needs = {crate: [other for other in words.split() if other in needs] for crate, words in needs.items()}

    def height(crate):
        return max((height(other) + 1 for other in needs[crate]), default=0)

    is_for_tests = re.compile(r".*_tests|worked_files|growth_rows")
    return {crate: "tests" if is_for_tests.fullmatch(crate) else str(height(crate)) for crate in needs}


class Pages(PageSuite):
    """Each page counts once."""

    def test_migrating(self):
        self.page("docs/MIGRATING.md", links=("examples",))

    def test_migrating_from_c_relay(self):
        self.page("docs/MIGRATING_C_RELAY.md", links=("examples",))

    def test_faults(self):
        self.page("docs/FAULTS.md")

    def test_formats(self):
        self.page("docs/FORMATS.md", links=("examples",))

    def test_replay(self):
        self.page("docs/REPLAY.md", links=("examples",))

    def test_containers(self):
        """One short page. The cases of `container` run its commands."""
        self.page("docs/CONTAINERS.md")
        self.assertLessEqual(len(WORD.findall(text_of("docs/CONTAINERS.md"))), 600)

    def test_readme(self):
        if shutil.which("nc") is None:
            self.skipTest("netcat-openbsd is missing")
        self.page("README.md", ports=("2003", "2004", "2015", "2103", "2203"))

    def test_links(self):
        for page in links.pages():
            with self.subTest():
                self.assertEqual(list(links.broken(page)), [], page)

    def test_the_number_of_words(self):
        count = sum(len(WORD.findall(text_of(page))) for page in links.pages())
        print(f"all pages have {count:,} words")
        self.assertLessEqual(count, MOST_WORDS)

    def test_layers(self):
        rows = [line.split(" | ") for line in text_of("docs/ARCHITECTURE.md").splitlines() if CRATE.search(line)]
        shown = {crate: row[0].strip("| ") for row in rows for crate in CRATE.findall(row[1])}
        self.assertEqual(shown, layers())


def user_pages():
    """The pages that are not those of crates."""
    return [page for page in links.pages() if not page.startswith("crates")]


def sentences(page):
    """The sentences of a page, which end with a point, a colon, a semicolon, a cell or a line."""
    for line in links.text_lines(page):
        yield from re.split(r"[.:;|](?=\s|$)", line)


def options():
    """The options of each command, as the program's help has them."""
    commands = re.findall(r"^  (\w+)  ", harness.run(("-h",)).out.decode(), re.MULTILINE)
    helps = {command: harness.run((command, "-h")).out.decode() for command in commands if command != "help"}
    return {command: set(OPTION.findall(text)) - {"--help"} for command, text in helps.items()}


class UpToDate(harness.Suite):
    """What the pages say of the program is what the program does."""

    def test_no_command_is_awaited(self):
        for page in links.pages():
            self.assertEqual([text for text in sentences(page) if AWAITED.search(text)], [], page)

    def test_what_is_quoted_ends(self):
        for page in links.pages():
            self.assertEqual([line for line in links.text_lines(page) if line.count("`") % 2], [], page)

    def test_whoever_takes_an_option_is_named(self):
        known, seen = options(), 0
        for page in user_pages():
            for text in sentences(page):
                named = set(COMMAND.findall(text)) & set(known)
                if re.search(r"\btakes?\b", text) and named:
                    for option in OPTION.findall(text):
                        seen += 1
                        self.assertEqual(named, {it for it in known if option in known[it]}, f"{page}: {text}")
        self.assertGreater(seen, 2)

    def test_whoever_has_an_option_is_named(self):
        known, seen = options(), 0
        for page in (it for it in user_pages() if it != HISTORY):
            for option, listed in OPTION_OF.findall(text_of(page)):
                named = set(COMMAND.findall(listed))
                seen += 1
                self.assertEqual(named, {it for it in known if option in known[it]}, f"{page}: {option} of {listed}")
        self.assertGreater(seen, 0)

    def test_long_lists_of_commands_have_all(self):
        known, seen = set(options()), 0
        for page in user_pages():
            for listed in LISTED.findall(text_of(page)):
                named = set(COMMAND.findall(listed))
                if named <= known and len(named) > len(known) - 2:
                    seen += 1
                    self.assertEqual(named, known, f"{page}: {listed}")
        self.assertGreater(seen, 0)

    def test_functions_of_walks(self):
        """Each function and type that ARCHITECTURE names on a way through the code is there."""
        page = text_of(os.path.join("docs", "ARCHITECTURE.md"))
        ways = page[page.index("## The life of a datapoint"):page.index("## Where to begin a change")]
        named = {name for parts in CODE_NAME.findall(ways) for name in parts.split("::")}
        defined = {name for path in crate_sources() for name in DEFINED.findall(text_of(path))}
        self.assertGreater(len(named), 40)
        named -= {crate for row in text_of("crates.txt").splitlines() for crate in re.findall(r"\w+", row)}
        self.assertEqual(sorted(named - defined), [])

    def test_steps_of_walks(self):
        """Where ARCHITECTURE has an arrow from one function to another, the one calls the other."""
        wrong, steps = walks.untrue(text_of(os.path.join("docs", "ARCHITECTURE.md")))
        self.assertEqual(wrong, [])
        self.assertGreater(steps, 60)

    def test_threads(self):
        """RUNNING has a row for each thread to which the program gives a name of its own."""
        text = text_of(os.path.join("docs", "RUNNING.md"))
        rows = re.findall(r"(?m)^\| (`[^|]*) \|", text[text.index("## The threads"):text.index("### Several receivers")])
        shown = {name.replace(" 0", " {}") for row in rows for name in re.findall(r"`([^`]+)`", row)}
        named = {name for path in crate_sources() for name in THREAD.findall(text_of(path))}
        self.assertGreater(len(named), 6)
        self.assertEqual(sorted(named - shown), [])

    def test_synopses_of_pages(self):
        known, seen = options(), 0
        for page in user_pages():
            for text in links.text_lines(page):
                for command, words in SYNOPSIS.findall(text):
                    seen += 1
                    self.assertEqual(set(OPTION.findall(words)), known[command], f"{page}: relayd {command}")
        self.assertGreater(seen, 3)

    def test_synopses_of_the_manual(self):
        text = text_of(MANUAL).replace("\\-", "-")
        lines = text[text.index(".SH SYNOPSIS"):text.index(".SH DESCRIPTION")].split(".br")
        found = [(re.search(r"relayd (\w+)", line), set(re.findall(r"--?[A-Za-z]+(?:-[A-Za-z]+)*", line))) for line in lines]
        self.assertEqual({command[1]: words for command, words in found if command and command[1] != "help"}, options())
        # What is asked of the program itself, or of each command.
        words = set().union(*(words for command, words in found if not command))
        helps = harness.run(("-h",)).out.decode()
        self.assertEqual(words, set(re.findall(r"(?m)^ +(-\w), (?=--)", helps))
                         | set(OPTION.findall(helps)))

    def test_files(self):
        for page in user_pages():
            for file in FILE.findall(text_of(page)):
                there = [os.path.exists(os.path.join(TOP, below, file)) for below in ("", "crates")]
                self.assertTrue(any(there), f"{page}: {file}")

    def test_what_may_not_return(self):
        """PROVED lists each function that calls what may wait, and no other."""
        rows = re.findall(r"^\| `(\w+)` \| ((?:`[\w:]+`(?:, )?)+) \|$", text_of("docs/PROVED.md"), re.MULTILINE)
        shown = {crate: re.findall(r"`([\w:]+)`", names) for crate, names in rows}
        self.assertEqual(shown, waits.waiting())

    def test_the_cases_of_attacks(self):
        """Each case that the page names is there, and each attack has a row."""
        text = text_of("SECURITY.md")
        named = CASE.findall(text)
        self.assertEqual(len(named), len(re.findall(r"`[\w.]*test_\w+`", text)), "a case has its subject and its suite")
        for subject, suite, case in named:
            self.assertTrue(hasattr(getattr(importlib.import_module(f"cases.{subject}"), suite), case), case)
        attacks = re.findall(r"(?m)^    def (test_\w+)", text_of(ATTACKED))
        self.assertEqual([case for case in attacks if ("hostile", "Hostile", case) not in named], [])
        self.assertGreater(len(attacks), 8)

    def test_the_logic_of_the_kit(self):
        if shutil.which("rt") is None:
            self.skipTest("rt is missing")
        kit = subprocess.run(["rt", "version"], stdout=subprocess.PIPE, timeout=harness.LIMIT, check=True).stdout
        shown = [each for page in links.pages() for each in LOGIC.findall(text_of(page))]
        self.assertEqual(set(shown), set(LOGIC.findall(kit.decode())))
