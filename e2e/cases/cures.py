"""docs/FAULTS.md: each fault with an example that has it, and its cure as the page says it, after which all is well."""

import os
import re
from typing import NamedTuple

from fixtures.configured import RULES, SETTINGS, WithFiles, encoded, ring, settings
from fixtures.harness import run
from fixtures.program import TOP

STORE = "127.0.0.1:3001"
REST = f"[rest]\ndefault = true\ndestinations = {STORE}\n"


class Cure(NamedTuple):
    """A file of a role that has a fault, and the same file cured."""

    role: str
    fault: str
    faulty: object
    cured: object


def rule(keys, rest=REST):
    """Relay rules of one section with these keys, and a default rule."""
    return f"[a]\n{keys}\n{rest}"


def setting(fault, wrong, right):
    """A setting in `[relay]` with a fault, and cured; one that is None is left out."""
    name = fault.split(":")[0]
    return Cure("config", fault, settings(**{name: wrong}), settings(**{name: right}))


LISTED = SETTINGS.replace("127.0.0.1:3001, 127.0.0.1:3002", "\n    127.0.0.1:3001,\n    127.0.0.1:3002")
ONE_LISTED = SETTINGS.replace("127.0.0.1:3001, 127.0.0.1:3002", "\n    127.0.0.1:3001")
CURES = (
    Cure("config", "not text", SETTINGS.encode() + b"# \xfc\n", SETTINGS + "# \u00fc\n"),
    Cure("config", "line 1: NoSection", SETTINGS.replace("[relay]\n", ""), SETTINGS),
    Cure("config", "line 1: NoSection", "\ufeff" + SETTINGS, SETTINGS),
    Cure("config", "line 6: DuplicateSection", SETTINGS + "[relay]\nREPLICATION_FACTOR = 1\n",
         SETTINGS + "REPLICATION_FACTOR = 1\n"),
    Cure("config", "line 1: BadLine", SETTINGS.replace("[relay]", "[relay] # note"), "# note\n" + SETTINGS),
    Cure("config", "line 6: BadLine", SETTINGS + "REPLICATION_FACTOR 1\n", SETTINGS + "REPLICATION_FACTOR = 1\n"),
    Cure("config", "line 4: DuplicateKey", LISTED, SETTINGS),
    Cure("config", "line 6: DuplicateKey", SETTINGS + "MAX_QUEUE_SIZE = 5\n", SETTINGS),
    Cure("config", "DESTINATIONS: Missing", ONE_LISTED, SETTINGS),
    Cure("config", "DESTINATIONS: Missing", SETTINGS.replace("DESTINATIONS", "destinations"), SETTINGS),
    Cure("config", "DESTINATIONS: Missing", SETTINGS.replace("[relay]", "[Relay]"), SETTINGS),
    Cure("config", "DESTINATIONS: Missing", RULES, SETTINGS),
    setting("DESTINATIONS: BadDestination", "h:1, h:2,", "h:1, h:2"),
    setting("DESTINATIONS: BadDestination", "h: 1, h:2", "h:1, h:2"),
    setting("DESTINATIONS: BadDestination", '["h:1", "h:2"]', "h:1, h:2"),
    setting("DESTINATIONS: BadDestination", "tcp://h:1, h:2", "h:1, h:2"),
    setting("DESTINATIONS: TooMany", ",".join(f"h:{n}" for n in range(1, 66)), "h:1, h:2"),
    setting("RELAY_METHOD: Method", "rules # note", "rules"),
    setting("RELAY_METHOD: Method", "Rules", "rules"),
    Cure("config", "RELAY_METHOD: DuplicateDestination", ring("h:1, h:2"), ring("h:1:a, h:2:b")),
    Cure("config", "RELAY_METHOD: DuplicateDestination", settings(DESTINATIONS="h:1, h:1, h:2"),
         settings(DESTINATIONS="h:1, h:2")),
    setting("REPLICATION_FACTOR: BadNumber", "0", "1"),
    setting("DIVERSE_REPLICAS: BadTruth", "False # note", "false"),
    setting("MAX_QUEUE_SIZE: BadNumber", "inf", "1000000"),
    setting("MAX_QUEUE_SIZE: BadNumber", "10000 # big", "10000"),
    setting("MAX_DATAPOINTS_PER_MESSAGE: BadNumber", "0", "10000"),
    setting("USE_FLOW_CONTROL: Missing", None, "false"),
    setting("USE_FLOW_CONTROL: BadTruth", "off.", "false"),
    setting("USE_FLOW_CONTROL: BadTruth", "Disabled", "false"),
    setting("USE_FLOW_CONTROL: FlowControl", "True", "false"),
    setting("DESTINATION_PROTOCOL: Missing", None, "line"),
    setting("DESTINATION_PROTOCOL: Protocol", "pickle", "line"),
    setting("LINE_RECEIVER_PORT: BadNumber", "2013 ; lines", "2013"),
    setting("PICKLE_RECEIVER_PORT: BadNumber", "65536", "0"),
    setting("ENABLE_UDP_LISTENER: BadTruth", "udp", "true"),
    setting("UDP_RECEIVER_PORT: BadNumber", "", "0"),
    Cure("rules", "not text", RULES.encode() + b"# \xfc\n", RULES + "# \u00fc\n"),
    Cure("rules", "line 1: NoSection", "pattern = x\n" + RULES, RULES),
    Cure("rules", "line 4: DuplicateSection", REST + REST.replace("default = true", "pattern = x"),
         REST + rule(f"pattern = x\ndestinations = {STORE}", "")),
    Cure("rules", "line 1: BadLine", "[all] # note\n" + RULES, RULES),
    Cure("rules", "line 3: DuplicateKey", rule(f"pattern = x\npattern = y\ndestinations = {STORE}"), RULES),
    Cure("rules", "0: NoDestinations", rule(r"pattern = ^a\."), RULES),
    Cure("rules", "0: NoDestinations", rule(f"pattern = x\nservers = {STORE}"), rule(f"pattern = x\ndestinations = {STORE}")),
    Cure("rules", "0: BadDestination", rule(f"pattern = x\ndestinations = {STORE},\n"), RULES),
    Cure("rules", "0: BadDestination", rule(f"pattern = x\ndestinations =\n    {STORE}\n"), RULES),
    Cure("rules", "0: PatternAndDefault", rule(f"pattern = x\ndefault = false\ndestinations = {STORE}"),
         rule(f"pattern = x\ndestinations = {STORE}")),
    Cure("rules", "0: BadTruth", rule(f"pattern = x\ncontinue = true # note\ndestinations = {STORE}"),
         rule(f"pattern = x\ncontinue = true\ndestinations = {STORE}")),
    Cure("rules", "1: SecondDefault", REST + rule(f"default = true\ndestinations = {STORE}", ""),
         REST + rule(f"pattern = x\ndestinations = {STORE}", "")),
    Cure("rules", "NoDefault", rule(f"pattern = x\ndestinations = {STORE}", ""), RULES),
    Cure("rules", "NoDefault", rule(f"default = false\ndestinations = {STORE}", ""),
         rule(f"default = true\ndestinations = {STORE}", "")),
    Cure("rules", "NoRules", None, RULES),
    *(Cure("rules", "0: BadPattern", rule(f"pattern = {wrong}\ndestinations = {STORE}"),
           rule(f"pattern = {right}\ndestinations = {STORE}"))
      for wrong, right in ((r"^a\.(?!b)", r"^a\.([^b]|$)"), (r"(a)\1", "aa"), (r"(?<=web)\.cpu", r"(?:web)\.cpu"), (r"(a|b)(?(1)c)", "(a|b)c"),
                           ("(?>ab)", "(?:ab)"), (r"(?a)\w", "[A-Za-z0-9_]"), (r"a\Z", "a$"), (r"a\0", r"a\x00"),
                           ("[[]", r"[\[]"), ("a{", r"a\{"), ("a{,3}", "a{0,3}"), ("a(?#note)", "a"), ("(a", r"\(a"),
                           ("[a", r"\[a"), ("*", ".*"), ("*", r"\*"), (r"\w{1000}", "[a-z0-9_]{1000}"))),
    Cure("rewrite", "not text", b"# \xfc\n", "# \u00fc\n"),
    Cure("rewrite", "line 1: NoSection", "[mid]\n", "[pre]\n"),
    Cure("rewrite", "line 2: NoSection", "[pre]\n[ab] = [c]\n", "[pre]\n(?:[ab]) = [c]\n"),
    Cure("rewrite", "line 2: NoEquals", "[pre]\n_sum$\n", "[pre]\n_sum$ =\n"),
    Cure("rewrite", "line 2: NoEquals", "[pre]\n; a comment\n", "[pre]\n# a comment\n"),
    Cure("rewrite", "line 2: BadPattern", "[pre]\n( = x\n", "[pre]\n\\( = x\n"),
    Cure("rewrite", "line 2: BadReplacement", "[pre]\n(a) = \\g<1>\n", "[pre]\n(a) = \\1\n"),
    Cure("rewrite", "line 2: BadReplacement", "[pre]\na = b # note\n", "[pre]\n# note\na = b\n"),
    Cure("rewrite", "line 2: BadReplacement", "[pre]\n^x = y # strip\n", "[pre]\n# strip\n^x = y\n"),
)


# of scripts that `replay` is given
SCRIPTS = (
    Cure("script", "not text", b"reader line\n# \xfc\n", "reader line\n# \u00fc\n"),
    Cure("script", "line 2", "reader line\npiece 0 9 0A\n", "reader line\npiece 0 9 0a\n"),
    Cure("script", "line 2", "reader line\n; a comment\n", "reader line\n# a comment\n"),
    Cure("script", "line 1", "piece 0 1 0a", "reader line\npiece 0 1 0a"),
    Cure("script", "line 3", "reader line\nup 0\nreader line\n", "reader line\nreader line\nup 0\n"),
    Cure("script", "line 2", "reader line\npiece 0 1700000000000000000 0a\n", "reader line\npiece 0 1700000000 0a\n"),
    Cure("script", "line 0", "# nothing\n", "# nothing\nreader line\n"),
)


class Cures(WithFiles):
    """Each example has its fault and no more once it is cured."""

    def test_cures(self):
        for cure in CURES:
            self.refused(f"{cure.role}: {cure.fault}", **{cure.role: cure.faulty})
            with self.subTest():
                words = ("check", *self.given({cure.role: cure.cured}))
                self.is_ok(cure, words)

    def test_cures_of_scripts(self):
        path = self.folder / "script"
        for cure in SCRIPTS:
            for content, fault in ((cure.faulty, cure.fault), (cure.cured, None)):
                path.write_bytes(encoded(content))
                with self.subTest():
                    ran = run(("replay", *self.given({}), path))
                    expected = (1, f"relayd: script: {fault}\n".encode()) if fault else (0, b"")
                    self.assertEqual((ran.status, ran.err), expected, (cure, ran))

    def is_ok(self, cure, words):
        """A case: `check` says ok."""
        ran = run(words)
        if ran.status != 0 or not ran.out.startswith(b"ok "):
            self.fail(f"{cure.role}: {cure.fault} cured as {cure.cured!r}: {ran}")

    def test_every_fault_of_the_page_has_a_cure_here(self):
        with open(os.path.join(TOP, "docs", "FAULTS.md"), encoding="utf-8") as page:
            rows = [line for line in page if line.startswith("| `relayd: ")]
        named = {found for row in rows for found in re.findall(r"`relayd: ([^`]+)`", row.split(" | ")[0])}
        elsewhere = {f"{role}: cannot read" for role in ("config", "rules", "rewrite", "script")} | {"input", "output"}
        elsewhere |= {f"spool: DIR: {it}" for it in ("cannot write: REASON", "another relay uses it")}
        elsewhere |= {f"spool: FILE: {it}" for it in ("a link", "REASON (os error N)")} | {"no descriptors", "no threads"}
        elsewhere |= {f"listen: {role}" for role in ("line", "pickle", "udp", "admin", "status")}
        here = {f"{cure.role}: " + re.sub(r"^\d+:", "SECTION:", re.sub(r"^line [1-9]\d*", "line N", cure.fault))
                for cure in (*CURES, *SCRIPTS)}
        self.assertEqual(sorted(here ^ (named - elsewhere)), [])
