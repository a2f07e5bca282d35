"""`--explain`: notes on standard error, beside the same output, fault and status as without it."""

import contextlib
import gzip
import json
import os
import pty
import re
import resource
import socket
import subprocess
import unittest
from pathlib import Path

from fixtures import notes
from fixtures.configured import REWRITE, RULES, SETTINGS, WithFiles, ring, settings
from fixtures.harness import LIMIT, Ran, Settings, Suite, one_byte_a_read, run
from fixtures.mounts import in_place
from fixtures.program import TOP
from fixtures.running import WithRelays
from fixtures.stores import free_ports

CARBON = Path("/usr/lib/python3/dist-packages/carbon/conf.py")

NOTE = b"relayd: note: "
STRIPPED = notes.STRIPPED  # the two rules for white space, as the pages have them
FAULTY = [  # a file of each kind with a fault, and words of its notes
    ({"config": "\ufeff[relay]\n"}, "the file begins with a byte order mark", "cure: delete the mark"),
    ({"config": b"[relay]\n# gr\xfcn\n"}, "line 2: byte 252 at column 5 is not UTF-8"),
    ({"config": SETTINGS.encode("utf-16")}, "the file is UTF-16", "iconv -f UTF-16"),
    ({"config": "[relay]\u00a0\n"}, "a no-break space"),
    ({"config": "[Relay]\nDESTINATIONS = h:1\n"}, "line 1:", "names of sections are case-sensitive"),
    ({"config": "[relay:a]\nDESTINATIONS = h:1\n"}, "and carbon also from [relay:NAME] for one instance"),
    ({"config": "[relay]\nDESTINATIONS = h:1,\n  g:2:a\n"}, "  DESTINATIONS = h:1,", "the next line begins with white space"),
    ({"config": "[relay]\nDESTINATIONS = h:1\n  g\n"}, "line 3:", "    g", "    ^", "the line begins with white space"),
    ({"config": settings(MAX_QUEUE_SIZE="10000 # big")}, "  MAX_QUEUE_SIZE = 10000 # big", "                   ^^^^^^^^^^^",
     "found `10000 # big`; expected: 1 to 1000000"),
    ({"config": settings(USE_FLOW_CONTROL=None)}, "USE_FLOW_CONTROL is missing"),
    ({"config": ring("h:1, h:2")}, "found `h:2`", "on a ring the port is not part of a node"),
    ({"rules": None}, "cure: give --rules FILE"),
    ({"rules": "[a]\nPattern = a\nDestinations = h:1\n"}, "section 0, counted from 0, is [a]",
     "line 3 has `Destinations`: names are case-sensitive"),
    ({"rules": "[a]\npattern = x(?!a)\ndestinations = h:1\n"}, "  pattern = x(?!a)", "             ^^^",
     "regex parse error at 1..4: look-around"),
    ({"rules": REWRITE}, "looks like a rewrite file"),
    ({"rewrite": RULES}, "looks like relay rules"),
    ({"rewrite": "[pre]\n(;host=(a)) = \\2\n"}, "relayd splits the line at its first `=`"),
    ({"rewrite": "[pre]\na = b c\n"}, "note:        ^\n", "a replacement contains no white space"),
]
LISTED = "a list and its items are written without brackets or quotes"
FAULTY += [  # what people do
    ({"config": settings(DESTINATIONS='["10.0.0.1:2003:a", "10.0.0.2:2003:a"]')}, "  DESTINATIONS = [\"10.0.0.1:2003:a\",", LISTED,
     "cure: write the items alone"),
    ({"config": settings(DESTINATIONS='"10.0.0.1:2003:a"')}, LISTED),
    ({"config": settings(DESTINATIONS="[::1]:2003")}, "relayd accepts no IPv6 address as a host"),
    ({"config": settings(DESTINATIONS="tcp://10.0.0.2:2003")}, "without a scheme such as `tcp://`"),
    ({"config": settings(USE_FLOW_CONTROL="Disabled")}, "cure: write false"),
    ({"config": ring("h:2003, h:2103")}, "on a ring in use a new instance moves metrics"),
    ({"config": RULES}, "looks like relay rules, which --rules takes"),
    ({"config": REWRITE}, "looks like a rewrite file, which --rewrite takes"),
    ({"rules": SETTINGS}, "looks like a configuration, which --config takes"),
    ({"rewrite": SETTINGS}, "looks like a configuration, which --config takes"),
    ({"rules": "[a]\npattern = a\nservers = h:1\n"}, "line 3 has `servers`, which is not a key that relayd reads"),
    ({"rules": "[a]\npattern = a\ndestinations = h:1\n[rest]\ndefault = false\ndestinations = h:1\n"},
     "line 4, section 1 [rest]: ignored, since its `default` says no", "cure: add a section with default = true"),
    ({"rules": "[a]\npattern = (?<=web)\\.cpu\ndestinations = h:1\n"}, "  pattern = (?<=web)\\.cpu", "cure: write a group instead"),
    ({"rules": "[a]\npattern = (a)\\1\ndestinations = h:1\n"}, "it does not repeat what the group found"),
    ({"rewrite": "[pre]\n^x = y # strip\n"}, "everything after the first `=` is the replacement",
     "cure: write the comment on a line of its own"),
]


C_RELAY = "cluster a forward h:1 ;\nmatch * send to a ;\n"
FAULTY += [  # what people bring from elsewhere
    ({"config": settings(RELAY_METHOD=None) + "relay_method = consistent-hashing\n", "rules": None},
     "RELAY_METHOD is missing, so it is `rules`", "has `relay_method`: names are case-sensitive", "cure: write RELAY_METHOD, in capitals"),
    ({"config": settings(RELAY_METHOD=None) + "RELAY_METHOD\u00a0= consistent-hashing\n", "rules": None},
     "has `RELAY_METHOD\\u{00a0}`; did you mean RELAY_METHOD?"),
    *(({"config": settings(RELAY_METHOD=method)}, "carbon has this method, and relayd does not",
       "cure: leave these metrics to carbon-relay")
      for method in ("aggregated-consistent-hashing", "fast-hashing", "fast-aggregated-hashing")),
    ({"config": C_RELAY}, "looks like a configuration of carbon-c-relay", "docs/MIGRATING_C_RELAY.md"),
    ({"rules": C_RELAY}, "looks like a configuration of carbon-c-relay"),
    ({"rewrite": C_RELAY}, "looks like a configuration of carbon-c-relay"),
    ({"rewrite": "[ pre ]\na = b\n"}, "the header has white space inside its brackets", "cure: write [pre] or [post]"),
    ({"config": settings(DESTINATIONS="[::1]:2003")}, "cure: write a host name that has the address"),
    ({"config": settings(DESTINATIONS="%(NET)s.1:2003", NET="10.0.0")}, "carbon replaces `%(KEY)s` by the value of that key",
     "cure: write the value itself"),
    ({"config": settings(MAX_QUEUE_SIZE="%(SIZE)s", SIZE="10")}, "carbon replaces `%(KEY)s` by the value of that key"),
    ({"config": settings(DESTINATIONS="h:2003=a")}, "carbon-c-relay writes an instance after `=`", "cure: write host:port:instance"),
    ({"config": SETTINGS.replace("\n", "\r")}, "the lines of the file end with byte 13", "tr '\\r' '\\n'"),
    ({"rewrite": "[pre]\r^a = b\r"}, "the lines of the file end with byte 13"),
    ({"rewrite": "[pre]\n(a) = \\g<1>\n"}, "`\\g` names a group in Python"),
    ({"rewrite": "[pre]\n(a) = \\_1\n"}, "carbon-c-relay changes the case or the dots of a group here"),
    ({"rewrite": "[pre]\n(a) = \\10\n"}, "the number of a group has one digit"),
    ({"rewrite": "[pre]\na = \\1\n"}, "the pattern has no group with this number", "cure: put round brackets around the part"),
    ({"rewrite": "[pre]\na = \\n\n"}, "after a backslash relayd expects a digit from 1 to 9"),
]


WHITE = "a replacement contains no white space and no control byte"
FAULTY += [  # what tired people do, and none of these has a cure of something else
    ({"config": settings(DESTINATIONS="10.0.0.[1-3]:2003")}, "a host and an instance have 1 to 255 characters"),
    ({"config": settings(DESTINATIONS="${STORE}:2003")}, "relayd replaces no variables and fills no templates",
     "cure: write the value itself"),
    ({"config": settings(DESTINATIONS="{{ stores }}")}, "relayd replaces no variables and fills no templates"),
    ({"config": settings(MAX_QUEUE_SIZE="$SIZE")}, "relayd replaces no variables and fills no templates"),
    ({"config": settings(DESTINATIONS="= h:2003")}, "the value begins with a second one", "cure: write one of the two"),
    ({"config": settings(MAX_QUEUE_SIZE="= 500")}, "the value begins with a second one", "cure: write one of the two"),
    ({"config": settings(MAX_QUEUE_SIZE="50\u00ad000")}, "a character of the value is beyond ASCII"),
    ({"config": settings(RELAY_METHOD="consistent\u2013hashing")}, "a character of the value is beyond ASCII"),
    ({"config": settings(PICKLE_RECEIVER_PORT="none")}, "expected: 0 to 65535 in decimal digits, 0 for none"),
    ({"config": "// settings\n" + SETTINGS}, "a comment is a line that begins with `#`, and this one does not", "cure: begin it with `#`"),
    ({"config": SETTINGS.replace("[relay]", "[relay]\n-- stores")}, "a comment is a line that begins with `#`"),
    *(({"config": SETTINGS.replace("[relay]", f"[{name}]")}, f"  [{name}]", "no section of just this name", "cure: write the header as [relay]")
      for name in ("[relay]", "relays", "carbon-relay")),
    *(({"config": text}, "the file is empty, or has comments alone", "cure: write sections and keys") for text in ("", "# none\n")),
    ({"config": gzip.compress(SETTINGS.encode(), mtime=0)}, "the file is compressed by gzip", "cure: unpack it: gunzip"),
    ({"rules": "[rules]\npattern = ^a\ndestinations = h:1\npattern = ^b\n"}, "cure: write a header such as [web] above this rule"),
    ({"rules": "[a]\npattern = (?P<x>a)\\k<x>\ndestinations = h:1\n"}, "it does not repeat what the group found"),
    ({"rules": "[a]\npattern = ^{web01,web02}\\.\ndestinations = h:1\n"}, "cure: write (a|b) for {a,b}"),
    ({"rules": "[a]\npattern = {a,b}\ndestinations = h:1\n"}, "cure: write (a|b) for {a,b}"),
    ({"rules": "[a]\npattern = {|b\ndestinations = h:1\n"}, "cure: write \\{ for the character itself"),
    ({"rules": "[carbon]\npattern = ^carbon\\.\nretentions = 60:90d\n"}, "the file looks like one of carbon-cache",
     "cure: give sections with pattern and destinations"),
    ({"rewrite": "// strip\n[pre]\na = b\n"}, "a comment is a line that begins with `#`"),
    ({"rewrite": "[pre]\n^a => b\n"}, "so `>` is part of the replacement", "cure: write `=` without `>`"),
    ({"rewrite": "[pre]\n^a == b\n"}, "the replacement begins with a second one", "cure: write one of the two, or \\x3d"),
    ({"rewrite": "[pre]\n^a = b\tc\n"}, WHITE, "cure: delete it"),
    ({"rewrite": "[pre]\n^a = b c\n"}, WHITE, "cure: delete it"),
]


def with_rule(pattern):
    """Relay rules of which the first has this pattern."""
    return RULES.replace("^a\\.", pattern)


GOOD = [  # a good configuration, and words of its notes: none where there is none
    ({},),
    ({"config": ring("h:1, g:1", 2), "rules": None},),
    ({"config": ring("h:1", max_queue_size=7), "rules": None}, "`max_queue_size` is not a key that relayd reads; did you mean MAX_QUEUE_SIZE?"),
    ({"config": ring("h:1, g:1", 3), "rules": None}, "REPLICATION_FACTOR is 3, and there are 2 destinations"),
    ({"config": ring("h:2004", 1), "rules": None}, "h:2004: 2004 is the port"),
    ({"config": ring("h:1:a, h:2:b", 2), "rules": None},
     "10000 of 10000 sample names have two copies on one host, since REPLICATION_FACTOR is 2 and the number of hosts is 1",
     "leaves one copy on each host"),
    ({"config": ring("h:1:a, h:2:b, g:1", 2), "rules": None}, "DIVERSE_REPLICAS = true keeps the copies of a name on different hosts"),
    ({"config": ring("h:1")}, "the relay rules are not used"),
    ({"rules": RULES + "[b]\npattern = ^a\\.b\ndestinations = 127.0.0.1:3001\n"}, "[b]: never reached: [a] above it takes every name"),
    ({"rules": RULES + "[b]\npattern = ^c\ndestinations = 127.0.0.1:3003\n"},
     "DESTINATIONS lacks 127.0.0.1:3003; on that host it has 127.0.0.1:3001"),
    ({"config": settings(DESTINATIONS="h:1:a, h:2:b, h:3"), "rules": "[d]\ndefault = true\ndestinations = h:2, h:7, h:9:a\n"},
     "DESTINATIONS lacks h:2; on that host it has h:2:b", "DESTINATIONS lacks h:7; on that host it has h:3",
     "DESTINATIONS lacks h:9:a; on that host it has h:1:a"),
    ({"rules": RULES + "[b]\ndefault = off\ndestinations = 127.0.0.1:3001\n"}, "ignored, since its `default` says no"),
    ({"rules": with_rule('"^web\\."')}, "rules line 2: the quotes are part of the pattern"),
    ({"rules": with_rule("/^web/")}, "rules line 2: the slashes are part of the pattern"),
    ({"rules": with_rule("^web\\.   # web servers")}, "rules line 2: the comment is part of the pattern"),
    ({"rewrite": '[pre]\n^collectd\\. = "servers."\n'}, "rewrite line 2: the quotes become part of the metric name"),
    ({"rewrite": "[pre]\n^collectd\\.(.) = servers.$1\n"}, "rewrite line 2: `$` and what follows it become part of the metric name"),
    ({"config": settings(LINE_RECEIVER_INTERFACE="127.0.0.1 # me")}, "LINE_RECEIVER_INTERFACE: `127.0.0.1 # me` is not an IP address"),
    ({"config": settings(PICKLE_RECEIVER_INTERFACE="localhost")}, "PICKLE_RECEIVER_INTERFACE: `localhost` is not an IP address"),
    ({"config": settings(ENABLE_UDP_LISTENER="true", UDP_RECEIVER_INTERFACE="eth0")}, "UDP_RECEIVER_INTERFACE: `eth0` is not"),
    ({"config": settings(UDP_RECEIVER_INTERFACE="eth0")},),
    ({"rules": RULES + "[b]\npattern = ^b\ndestinations = 127.0.0.1:3001\nCONTINUE = yes\n"},
     "`CONTINUE` is not a key that relayd reads; did you mean continue?"),
    ({"config": settings(RELAY_RULES="site-rules.conf")},
     "RELAY_RULES = site-rules.conf: carbon reads its relay rules from that file, and relayd from "),
    ({"config": settings(LINE_RECEIVER_PORT=2014)}, "LINE_RECEIVER_PORT and PICKLE_RECEIVER_PORT are both 2014"),
    ({"config": settings(LINE_RECEIVER_PORT=3001)}, "127.0.0.1:3001 is this relay's own LINE_RECEIVER_PORT"),
    ({"config": settings(LINE_RECEIVER_PORT=3001, LINE_RECEIVER_INTERFACE="10.0.0.1")},),
    ({"config": settings(LINE_RECEIVER_PORT=0, PICKLE_RECEIVER_PORT=0)}, "no receiver is on"),
    ({"config": settings(LINE_RECEIVER_PORT=0, PICKLE_RECEIVER_PORT=0, ENABLE_UDP_LISTENER="yes")},),
    ({"config": settings(UDP_RECEIVER_PORT=2013)}, "UDP_RECEIVER_PORT has no effect without ENABLE_UDP_LISTENER"),
    ({"config": settings(UDP_RECEIVER_PORT=2013, ENABLE_UDP_LISTENER="False")},),
    ({"config": settings(REPLICATION_FACTOR=2)}, "REPLICATION_FACTOR is 2, and has no effect"),
    ({"config": settings(DESTINATIONS="127.0.0.1:3001, 127.0.0.1:3002\n  , 10.0.0.2:2003:a")},
     "line 3, section 0 [relay]: `, 10.0.0.2` is read as a key", "so an item of a list may be missing"),
    ({"rules": with_rule("\u201c^web\u201d")}, "rules line 2: the quotes are part of the pattern"),
    ({"config": settings(ENABLE_UDP="true")}, "line 5, section 0 [relay]: `ENABLE_UDP` is not a key", "did you mean ENABLE_UDP_LISTENER?"),
]


FINDS_NOTHING = "`^` is the beginning of a name and `$` its end, so the pattern finds nothing"
SIGN = "the first sign of the replacement becomes part of the metric name"
GOOD += [  # what tired people do
    *(({"config": settings(DESTINATIONS=f"127.0.0.1:3001, 127.0.0.1:3002, {host}:2003")},
       f"{host}:2003: `{host}` is not an IP address, so it is looked up as the name of a host")
      for host in ("10.0.0.256", "10.0.1", "10.0.0.1.1")),
    ({"config": settings(LINE_RECEIVER_INTERFACE="[::]")}, "LINE_RECEIVER_INTERFACE: `[::]` is not an IP address, so run cannot listen "
     "there; write it without brackets"),
    *(({"rules": with_rule(pattern)}, FINDS_NOTHING) for pattern in ("servers^web", r"^a$b", r"servers\.^web", "a$.b")),
    *(({"rules": with_rule(pattern)},) for pattern in ("^^a", "a$$", "b*^a", "(?-i)^a", r"a\^b", "[^a]b", "b|^a")),
    *(({"rewrite": f"{STRIPPED}{rule}\n"}, SIGN) for rule in ("^a =>b", "^a ==b")),
    ({"rewrite": f"{STRIPPED}= b\n"}, "the rule has no pattern, so it puts its replacement between all letters of every name"),
    ({"rewrite": f"{STRIPPED}=\n"},),
]


# A value of each key of carbon that changes what it receives or sends, one with which it does what relayd does, and words of
# the note of the first.
EFFECTS = (
    ("USE_WHITELIST", "True", "no", "carbon drops the metrics that its whitelist lacks"),
    ("TAG_RELAY_NORMALIZED", "True", "False", "carbon sorts the tags of a name"),
    ("ROUTER_HASH_TYPE", "fnv1a_ch", "carbon_ch", "relayd has only carbon_ch"),
    ("MIN_TIMESTAMP_RESOLUTION", "60", "0", "carbon rounds the times of datapoints down"),
    ("DESTINATION_POOL_REPLICAS", "yes", "off", "whichever has the shorter queue"),
    ("DYNAMIC_ROUTER", "True", "0", "to other stores, and relayd queues them"),
    ("DESTINATION_TRANSPORT", "ssl", "none", "without TLS"),
    ("ENABLE_AMQP", "True", "False", "over AMQP"),
    ("PROTOBUF_RECEIVER_PORT", "2005", "0", "as protobuf"),
    ("PICKLE_RECEIVER_MAX_LENGTH", "2097152", "1048576", "closes the connection at one of more than 1048576"),
    ("MAX_RECEIVER_CONNECTIONS", "500", "inf", "relayd holds 1024 for each receiver"),
    ("METRIC_CLIENT_IDLE_TIMEOUT", "300", "", "relayd only with --idle SECONDS"),
)
LIMITED = ("--longest-name", "1024")


class OfFiles(WithFiles):
    """`check` and `route` with the flag."""

    def explained(self, words, files, wanted):
        """A case: with the flag the run is as without it, and has these notes more."""
        with self.subTest():
            files = self.given(files)
            plain = run((*words, *files))
            ran = run((*words, "--explain", *files))
            self.assertEqual((ran.status, ran.out), (plain.status, plain.out), files)
            self.assertTrue(ran.err.startswith(plain.err), ran.err)
            notes = ran.err[len(plain.err):].splitlines(keepends=True)
            self.assertTrue(all(line.startswith(NOTE) and line.endswith(b"\n") for line in notes), ran.err)
            for text in wanted:
                self.assertIn(text.encode(), ran.err)
            self.assertEqual(bool(notes), bool(wanted), ran.err)
            self.assertNotIn(NOTE, plain.err)

    def test_faults(self):
        for files, *wanted in FAULTY:
            self.explained(("check",), files, wanted)
            self.explained(("route", "a.b"), files, wanted)

    def test_good_configurations(self):
        for files, *wanted in GOOD:
            files = {"rewrite": STRIPPED} | files
            self.explained(("check", *LIMITED), files, wanted)
            self.explained(("route", "a.b"), files, wanted)

    def test_keys_of_carbon_with_an_effect(self):
        """Each has a note that says what moves, also with --strict, unless its value is that of relayd."""
        for key, value, usual, wanted in EFFECTS:
            for name in (key, key.lower()):
                files = self.given({"config": ring("h:1", **{name: value}), "rules": None})
                for words in (("--explain",), ("--explain", "--strict")):
                    with self.subTest():
                        ran = run(("check", *LIMITED, *words, *files))
                        self.assertEqual((ran.status, ran.out), (len(words) - 1, b"ok 1 destinations\n"))
                        self.assertRegex(ran.err, rb"\Arelayd: note: \S+ line \d+, section 0 \[relay\]: %s = %s: [^\n]*%s[^\n]*\n\Z"
                                         % (key.encode(), value.encode(), wanted.encode()))
            files = self.given({"config": ring("h:1", **{key: usual}), "rules": None})
            self.assertEqual(run(("check", "--explain", "--strict", *files)), Ran(0, b"ok 1 destinations\n", b""))
            self.assertIn(b"these keys of carbon have no effect in relayd: " + key.encode(),
                          run(("check", "--explain", *files)).err)
        files = self.given({"config": settings(ROUTER_HASH_TYPE="fnv1a_ch")})
        self.assertEqual(run(("check", "--explain", "--strict", *files)).status, 0)

    def test_a_limit_on_names(self):
        """`check` has a note without it, which is no mistake; other commands have none."""
        files = self.given({"rules": with_rule("a")})
        ran = run(("check", "--explain", *files))
        self.assertRegex(ran.err, rb"\Arelayd: note: without --longest-name [^\n]* --longest-name 1024 drops longer names\n\Z")
        self.assertEqual(run(("check", "--explain", "--strict", *files)).err, b"")
        self.assertEqual(run(("check", "--explain", *LIMITED, *files)).err, b"")
        self.assertEqual(run(("route", "a.b", "--explain", *files)).err, b"")

    def test_white_space_beyond_ascii(self):
        """Beside rewriting a pattern that begins with `^` has a note, unless a rule strips such white space."""
        note = b"does not match a name that begins with white space beyond ASCII"
        tied = {"rules": with_rule("^web")}
        for files, wanted in ((tied, False), (tied | {"rewrite": "[pre]\na = b\n"}, True),
                              (tied | {"rewrite": STRIPPED}, False), ({"rules": with_rule("web")}, False),
                              ({"rules": with_rule("web"), "rewrite": "[pre]\n^a = b\n"}, True),
                              (tied | {"rewrite": "[pre]\n\\p{White_Space} =\n"}, False)):
            with self.subTest():
                given = self.given(files)
                self.assertEqual(note in run(("check", "--explain", *given)).err, wanted, files)
                self.assertEqual(run(("check", "--explain", "--strict", *given)).err, b"")

    def test_names_with_more(self):
        """The first line that has more than a name is shown."""
        names = self.folder / "names"
        names.write_bytes(b"a.b\na.b 1 2\nc d\n")
        words = self.given({})
        plain, ran = (run(("route", "--names", str(names), *more, *words)) for more in ((), ("--explain",)))
        self.assertEqual(ran[:2], plain[:2])
        self.assertEqual(ran.err, plain.err + b"".join(NOTE + it + b"\n" for it in (
            f"{names} line 2:".encode(), b"  a.b 1 2", b"  ^^^^^^^", b"a line of a file of names has one name and nothing after it",
            b"cure: keep the first field of each line: cut -d ' ' -f 1")))

    def test_a_script_that_is_no_text(self):
        script = self.folder / "script"
        for text, cure in ((b"reader line\n\xd4\xc3\n", "cure: turn it into UTF-8"),
                           (b"reader line\n\xd4\xc3\xb2\xa1\x02\0", "cure: give the path of a text file")):
            script.write_bytes(text)
            self.explained(("replay", str(script)), {}, ["script line 2: byte 212 at column 1 is not UTF-8", cure])

    def test_names_in_utf16(self):
        names = self.folder / "names"
        names.write_bytes("a.b\n".encode("utf-16"))
        ran = run(("route", "--names", str(names), "--explain", *self.given({})))
        self.assertIn(b"relayd: note: the file is UTF-16, and must be UTF-8\nrelayd: note: cure: ", ran.err)

    def test_options_that_pass_does_not_use(self):
        note = b"relayd: note: pass reads no files: --config, --rules and --rewrite have no effect\n"
        self.assertEqual(run(("pass", "--explain", "--config", "missing"), b"a 1 2\n"), Ran(0, b"a 1 2\n", note))
        self.assertEqual(run(("pass", "--config", "missing"), b"a 1 2\n"), Ran(0, b"a 1 2\n", b""))
        self.assertEqual(run(("pass", "--explain"), b"a 1 2\n"), Ran(0, b"a 1 2\n", b""))

    def test_a_file_that_cannot_be_read(self):
        self.explained(("check",), {"config": self.folder / "missing"}, ["missing: No such file or directory"])
        self.explained(("check",), {"rules": self.folder}, ["Is a directory"])

    def test_a_name_that_is_none(self):
        self.explained(("route", "a b"), {}, [
            "found `a b`; expected: 1 to 16384 bytes, none of them white space or a control byte",
            "cure: give the name without value and time; in a shell, put a name with tags in quotes"])

    def test_strict(self):
        for files, *wanted in GOOD:
            with self.subTest():
                words = self.given({"rewrite": STRIPPED} | files)
                plain, strict = run(("check", *words)), run(("check", "--explain", "--strict", *words))
                self.assertEqual(strict.out, plain.out)
                self.assertEqual(strict.status, 1 if wanted else 0, strict.err)
        strict = run(("check", "--explain", "--strict", *self.given({"config": self.folder / "missing"})))
        self.assertEqual(strict.status, 3)

    def test_keys_of_carbon(self):
        """All that carbon reads and relayd does not have one note, and none with --strict."""
        keys = [key for key in carbon_keys() if key not in [effect[0] for effect in EFFECTS]]
        if not keys:
            self.skipTest("carbon is missing")
        values = {"RELAY_RULES": "/etc/carbon/rules"}  # a file of the same name as the one that relayd reads
        text = SETTINGS + "".join(f"{key} = {values.get(key, 1)}\n" for key in keys)
        words = (*LIMITED, *self.given({"config": text, "rules": with_rule("a")}))
        ran = run(("check", "--explain", *words))
        self.assertEqual(ran, Ran(0, b"ok 2 destinations\n", b"relayd: note: %s [relay]: these keys of carbon have no effect "
                                  b"in relayd: %s\n" % (words[3].encode(), ", ".join(keys).encode())))
        self.assertEqual(run(("check", "--explain", "--strict", *words)), Ran(0, b"ok 2 destinations\n", b""))

    def test_names_and_scripts_that_cannot_be_read(self):
        missing = str(self.folder / "missing")
        for words in (("route", "--names", missing), ("replay", missing)):
            self.explained(words, {}, ["missing: No such file or directory", "cure: give the path"])

    def test_a_file_that_is_no_script(self):
        script = self.folder / "script"
        for line, cure in (("a.b 1 2", "looks like one of lines, which --lines takes"),
                           ("reeder line", "cure: a script has a line for each reader")):
            script.write_text(f"# lines\n{line}\n", encoding="ascii")
            carets = "^" * len(line)
            self.explained(("replay", str(script)), {}, ["script line 2:", f"  {line}", f"  {carets}", cure])

    def test_strict_or_json_alone_is_a_wrong_word(self):
        for word in ("--strict", "--json"):
            ran = run(("check", word, *self.given({})))
            self.assertEqual((ran.status, ran.out), (2, b""))

    def objects(self, *words):
        """The run of `check` with notes in JSON, and the objects that it prints."""
        ran = run(("check", "--explain", "--json", *words))
        found = list(map(json.loads, ran.out.decode().split("\n")[:-1]))
        self.assertTrue(all(list(each) == ["file", "line", "text"] for each in found), found)
        return ran, found

    def test_in_json(self):
        """Each note is an object on standard output, but for what shows its line; standard error has the fault alone."""
        for files, *_ in (*FAULTY, *GOOD):
            with self.subTest():
                words = self.given({"rewrite": STRIPPED} | files)
                plain, (ran, found) = run(("check", "--explain", *words)), self.objects(*words)
                lines = plain.err.splitlines(keepends=True)
                self.assertEqual((ran.status, ran.err), (plain.status, b"".join(it for it in lines if not it.startswith(NOTE))))
                notes = [it[len(NOTE):-1].decode() for it in lines if it.startswith(NOTE)]
                notes = [it for it in notes if not it.startswith("  ") and not re.search(r" line \d+:$", it)]
                self.assertEqual(len(found), len(notes), ran.out)
                for each, note in zip(found, notes):
                    self.assertTrue(note.endswith(each["text"]), (each, note))
                    self.assertIn(each["file"], (None, *words[1::2]))
                    before = note[:-len(each["text"])]
                    if before:
                        self.assertEqual(re.sub(r"(\d)?[:,]? $", r"\1", before),
                                         each["file"] + (f" line {each['line']}" if each["line"] else ""))

    def test_places_in_json(self):
        words = self.given({"config": settings(MAX_QUEUE_SIZE="10000 # big")})
        _, found = self.objects(*words)
        self.assertEqual(found, [{"file": words[1], "line": 5, "text": text} for text in (
            "found `10000 # big`; expected: 1 to 1000000 in decimal digits",
            "everything up to the end of the line is part of the value, even after `#` or `;`",
            "cure: write a number in this range in decimal digits, and nothing after it")])
        words = self.given({"config": ring("h:1, g:1", 3, max_queue_size=7), "rules": None})
        _, found = self.objects(*LIMITED, *words)
        self.assertEqual([(each["file"], each["line"]) for each in found], [(words[1], 7), (None, None)])
        self.assertTrue(found[0]["text"].startswith("section 0 [relay]: `max_queue_size` is not a key"), found)
        self.assertEqual(run(("check", "--explain", "--json", *LIMITED, *self.given({"rules": with_rule("a")}))), Ran(0, b"", b""))

    def test_status_in_json(self):
        """As without it; an output that is full is a fault."""
        for spool, files, status in ((False, {"config": ring("h:2004", 1), "rules": None}, 1), (True, {"rules": with_rule("a")}, 1),
                                     (False, {"rules": with_rule("a")}, 0), (False, {"config": self.folder / "missing"}, 3)):
            folder = self.folder / "spool"
            folder.mkdir(exist_ok=True)
            (folder / "h:7").write_bytes(b"")
            words = (*LIMITED, "--strict", *(("--spool", os.fspath(folder)) if spool else ()), *self.given(files))
            ran, found = self.objects(*words)
            self.assertEqual(ran.status, status)
            self.assertEqual(bool(found), status > 0)
            if spool:
                self.assertEqual(found, [{"file": None, "line": None, "text":
                                          f"spool: {folder}/h:7: of no destination in DESTINATIONS, so no relay sends it"}])
        with open("/dev/full", "wb") as full:
            ran = run(("check", "--explain", "--json", *self.given({"config": ring("h:2004", 1), "rules": None})), stdout=full)
            self.assertEqual((ran.status, ran.err), (3, b"relayd: output\n"))


class OfWholeFiles(WithFiles):
    """Each note, by files in the folder of the run; a role that is None has no file."""

    def noted(self, note, config=None, rules=None, rewrite=None):
        """The status of a case, in which a note of these lines stands on standard error, or nothing if it is empty."""
        words = ["--config", "relay.conf"]
        for role, name, content in (("config", "relay.conf", config), ("rules", "rules.conf", rules),
                                    ("rewrite", "rewrite.conf", rewrite)):
            if content is not None:
                (self.folder / name).write_bytes(content if isinstance(content, bytes) else content.encode())
                words += ["--" + role, name] if role != "config" else []
        ran = run(("check", *LIMITED, "--explain", *words), cwd=self.folder)
        lines = note.encode().splitlines(keepends=True)
        self.assertIn(b"".join(NOTE + line for line in lines), ran.err, (config, rules, rewrite))
        self.assertEqual(bool(ran.err), bool(note), ran.err)
        return ran.status

    def faulty(self, note, **files):
        """A case: the files have a fault, with this note."""
        with self.subTest():
            self.assertIn(self.noted(note, **files), (1, 3), files)

    def good(self, note, **files):
        """A case: the files have no fault, and this note, or none."""
        with self.subTest():
            self.assertEqual(self.noted(note, **files), 0, files)

    def test_faults(self):
        for config, note in notes.FAULTY_CONFIGURATIONS:
            self.faulty(note, config=config)
        for rules, note in notes.FAULTY_RULES:
            self.faulty(note, config=notes.BESIDE_RULES, rules=rules)
        for rewrite, note in notes.FAULTY_REWRITING:
            self.faulty(note, config=notes.BESIDE_REWRITING, rewrite=rewrite)

    def test_good_files(self):
        for config, rules, note in notes.GOOD_CONFIGURATIONS:
            self.good(note, config=config, rules=rules, rewrite=STRIPPED)
        for rewrite, note in notes.GOOD_REWRITING:
            self.good(note, config=notes.BESIDE_REWRITING, rewrite=rewrite)

    def test_files_that_are_no_text(self):
        self.faulty("relay.conf: No such file or directory (os error 2)\ncure: give the path of a file that this user may read\n")
        self.faulty("relay.conf line 2: byte 252 at column 5 is not UTF-8\ncure: turn it into UTF-8: iconv -f LATIN1 -t UTF-8\n",
                    config=b"[relay]\n# gr\xfcn\n")
        self.faulty("relay.conf line 1: byte 255 at column 1 is not UTF-8\nthe file is UTF-16, and must be UTF-8\n"
                    "cure: turn it into UTF-8: iconv -f UTF-16 -t UTF-8\n", config=b"\xff\xfe[\0")


class AtATerminal(WithFiles):
    """A fault without the flag is one line; a terminal shows a hint as well."""

    def told(self, *words):
        """What a terminal shows of standard error."""
        ours, terminal = pty.openpty()
        try:
            subprocess.run([Settings.relayd, *words], stdin=subprocess.DEVNULL, stdout=subprocess.DEVNULL, stderr=terminal,
                           timeout=LIMIT, check=False)
            os.close(terminal)
            text = b""
            with contextlib.suppress(OSError):  # once all is read, since nobody has the terminal any more
                while more := os.read(ours, 65536):
                    text += more
            return text.replace(b"\r\n", b"\n")
        finally:
            os.close(ours)

    def test_a_hint(self):
        hint = b"relayd: note: --explain shows where the fault is, and how to cure it\n"
        for files, fault in (({"config": "[relay]\n"}, b"relayd: config: DESTINATIONS: Missing\n"),
                             ({"rules": None}, b"relayd: rules: NoRules\n"), ({"config": b"\xff"}, b"relayd: config: not text\n")):
            self.assertEqual(self.told("check", *self.given(files)), fault + hint)
        self.assertEqual(self.told("route", "a b", *self.given({})), b"relayd: name: BadName\n" + hint)
        self.assertEqual(self.told("check", *self.given({})), b"")
        self.assertNotIn(hint, self.told("check", "--explain", *self.given({"rules": None})))

    def test_a_file_that_cannot_be_read(self):
        missing = os.fspath(self.folder / "missing")
        for role, words in (("config", ("check", *self.given({"config": self.folder / "missing"}))),
                            ("rewrite", ("check", *self.given({"rewrite": self.folder / "missing"}))),
                            ("names", ("route", "--names", missing, *self.given({}))),
                            ("script", ("replay", missing, *self.given({})))):
            self.assertRegex(self.told(*words).decode(), f"^relayd: {role}: cannot read\nrelayd: note: {missing}: No such file")

    def test_no_relay(self):
        port, = free_ports(1)
        hint = b"relayd: note: ps -o args -C relayd shows the --admin and --admin-key of a running relay\n"
        for words in (("report",), ("stop",), ("reload",)):
            self.assertEqual(self.told(*words, "--admin", str(port)), b"relayd: admin: 127.0.0.1:%d: connection refused\n%s" % (port, hint))


def carbon_keys():
    """The keys that carbon of this machine has defaults for, and that relayd does not read."""
    if not CARBON.exists():
        return []
    text = CARBON.read_text(encoding="utf-8")
    defaults = text[text.index("defaults = dict("):]
    table = (Path(TOP) / "docs" / "CONFIGURATION.md").read_text(encoding="utf-8")
    read = set(re.findall(r"(?m)^\| ([A-Z_]+) \|", table))
    return [key for key in re.findall(r"(?m)^  ([A-Z_]+)=", defaults[:defaults.index("\n)\n")]) if key not in read]


class OfMemory(WithFiles):
    """`check --explain` on a machine of little memory."""

    def checked(self, kilobytes, **changed):
        """A check of a ring of two, where the system says that there is so much memory."""
        given = self.given({"config": ring("h:1, g:1", **changed), "rules": None})
        path = self.folder / "meminfo"
        path.write_text(f"MemTotal: {kilobytes} kB\n")
        try:
            return run(("check", *LIMITED, "--explain", *given), preexec_fn=in_place(path, "/proc/meminfo"))
        except subprocess.SubprocessError as fault:
            raise unittest.SkipTest("this system lets no process have a /proc/meminfo of its own") from fault

    def test_more_than_there_is(self):
        note = (b"relayd: note: the relay takes up to 257 MB with metric names of 100 bytes that do not repeat, and "
                b"102 MB are available; lower MAX_QUEUE_SIZE, or give it more memory\n")
        self.assertEqual(self.checked(100_000, MAX_QUEUE_SIZE=100_000)[1:], (b"ok 2 destinations\n", note))
        self.assertEqual(self.checked(300_000, MAX_QUEUE_SIZE=100_000)[1:], (b"ok 2 destinations\n", b""))


class OfRuns(WithRelays):
    """`run` and `restart` have the notes of `check` on the same files."""

    def test_a_run_and_a_restart(self):
        """Before it is ready, and before the relay stops; without the flag there are none."""
        ring_of_one = {"RELAY_METHOD": "consistent-hashing", "REPLICATION_FACTOR": "2", "max_queue_size": "7"}
        for more in (("--explain",), ()):
            with self.subTest(), self.relay(["127.0.0.1:2004"], options=more, **ring_of_one) as relay:
                path = self.folder / "config"
                path.write_text(relay.config, encoding="ascii")
                words = ("--config", os.fspath(path))
                notes = run(("check", *words, *more)).err
                self.assertEqual(notes.count(NOTE), 4 if more else 0, notes)
                ran = run(("restart", *words, *more, "--admin", str(relay.admin)))
                self.assertEqual(ran, Ran(0, b"ok 1 destinations\nstopping\n", notes))
                ended = relay.end()
                self.assertEqual((ended.status, ended.out), (0, b"settled\n"))
                self.assertEqual([line.partition(b" line ")[2] for line in ended.err.splitlines() if b" line " in line],
                                 [line.partition(b" line ")[2] for line in notes.splitlines() if b" line " in line])
                self.assertEqual(ended.err.count(NOTE), notes.count(NOTE))

    def test_standard_input(self):
        """A configuration that is read once has its notes too."""
        config = self.configuration(["127.0.0.1:2004"], free_ports(3), RELAY_METHOD="consistent-hashing")
        words = ("run", "--config", "-", "--admin", str(free_ports(1)[0]), "--explain")
        with self.subTest(), subprocess.Popen([Settings.relayd, *words], stdin=subprocess.PIPE, stdout=subprocess.PIPE,
                                              stderr=subprocess.PIPE) as child:
            child.stdin.write(config.encode())
            child.stdin.close()
            ready = child.stdout.readline()
            child.kill()
            self.assertEqual(ready, b"ready\n")
            self.assertIn(b"2004 is the port where carbon's stores usually receive pickles", child.stderr.read())


class OfPorts(WithRelays):
    """`run --explain` where a port cannot be bound."""

    def test_a_port_in_use(self):
        """The address and the system's reason, of each receiver and the admin port."""
        ports = free_ports(4)
        for place, role in enumerate(("line", "pickle", "udp", "admin")):
            kind = socket.SOCK_DGRAM if role == "udp" else socket.SOCK_STREAM
            with self.subTest(), socket.socket(socket.AF_INET, kind) as taken:
                taken.bind(("127.0.0.1", ports[place]))
                if role != "udp":
                    taken.listen()
                config = self.configuration(["127.0.0.1:1"], ports[:3], RELAY_METHOD="consistent-hashing")
                words = self.given({"config": config, "rules": None})
                ran = run(("run", *LIMITED, *words, "--admin", str(ports[3]), "--explain"))
                self.assertEqual((ran.status, ran.out), (3, b""))
                fault, note, cure = ran.err.splitlines()
                self.assertEqual(fault, b"relayd: listen: %s" % role.encode())
                self.assertRegex(note, rb"^relayd: note: cannot listen on 127\.0\.0\.1:%d: Address \S+ in use" % ports[place])
                self.assertTrue(cure.startswith(b"relayd: note: cure: "))

    def test_a_port_given_twice(self):
        ports = free_ports(3)
        config = self.configuration(["127.0.0.1:1"], ports, RELAY_METHOD="consistent-hashing")
        ran = run(("run", *self.given({"config": config, "rules": None}), "--admin", str(ports[0]), "--explain"))
        self.assertEqual((ran.status, ran.out), (3, b""))
        self.assertIn(b"relayd: note: the relay is to listen twice on 127.0.0.1:%d\n" % ports[0], ran.err)
        self.assertIn(b"cure: give each its own port", ran.err)

    def test_too_few_descriptors(self):
        """It names how many descriptors the relay needs, if the ports themselves are free."""
        ports = free_ports(4)
        config = self.configuration(["127.0.0.1:1"], ports[:3], RELAY_METHOD="consistent-hashing")
        words = ("run", *self.given({"config": config, "rules": None}), "--admin", str(ports[3]), "--explain")
        ran = run(words, preexec_fn=lambda: resource.setrlimit(resource.RLIMIT_NOFILE, (7, 7)))
        self.assertEqual((ran.status, ran.out), (3, b""))
        self.assertRegex(ran.err, rb"Too many open files|the relay needs \d+ file descriptors besides its ports, and \d are free")


FIELDS = "not three fields, name, value and time"


def in_all(count, why, names):
    """The note at the end of all lines with a cause."""
    return f"{count} in all: {why}; the first: {names}".encode()


class OfLines(Suite):
    """`pass` with the flag."""

    def explained(self, given, *notes):
        """A case: the output is the same, and the notes stand before those of `pass`."""
        with self.subTest():
            plain = run(("pass",), given)
            err = b"".join(NOTE + note + b"\n" for note in notes)
            self.same(given, run(("pass", "--explain"), given), Ran(plain.status, plain.out, err + plain.err))

    def test_each_field(self):
        self.explained(b"a.b 1 2\n\n  \n")
        self.explained(b"a 1 2\na 1\na.b 2 3\n", b"line 2: not three fields, name, value and time: a 1", in_all(1, FIELDS, "a"))
        self.explained(b"a\x01b 1 2\n", b"line 1: name: a control byte: a\\x01b 1 2",
                       in_all(1, "name: a control byte", "a\\x01b"))
        self.explained(b"a\xff 1 2\n", b"line 1: name: not UTF-8: a\\xff 1 2", in_all(1, "name: not UTF-8", "a\\xff"))
        self.explained(b"a\xffb 1 2\n", b"line 1: name: not UTF-8: a\\xffb 1 2", in_all(1, "name: not UTF-8", "a\\xffb"))
        self.explained(b"a x 2\n", b"line 1: value: not a number: a x 2", in_all(1, "value: not a number", "a"))
        self.explained(b"a 1e30 2\n", b"line 1: value: a number out of range: a 1e30 2",
                       in_all(1, "value: a number out of range", "a"))
        self.explained(b"a 1 x\r\n", b"line 1: time: not a number: a 1 x\\x0d", in_all(1, "time: not a number", "a"))
        self.explained(b"a 1 -7\n", b"line 1: time: a number out of range: a 1 -7",
                       in_all(1, "time: a number out of range", "a"))

    def test_bytes_that_come_one_by_one(self):
        given = b"a x 2\nb 1\nd 1 2\n"
        self.same(given, one_byte_a_read(given, ("pass", "--explain")), run(("pass", "--explain"), given))

    def test_a_sum_by_cause(self):
        """In the order in which the causes appear, with the first three names."""
        self.explained(b"a x 2\nb 1\nc y 2\nd 1 2\ne z 2\nf w 2\n", *(b"line %d: %s" % it for it in (
            (1, b"value: not a number: a x 2"), (2, FIELDS.encode() + b": b 1"), (3, b"value: not a number: c y 2"),
            (5, b"value: not a number: e z 2"), (6, b"value: not a number: f w 2"))),
            in_all(4, "value: not a number", "a, c, e"), in_all(1, FIELDS, "b"))

    def test_a_long_text_is_cut(self):
        self.explained(b"x" * 121 + b"\n", b"line 1: not three fields, name, value and time: " + b"x" * 120,
                       in_all(1, FIELDS, "x" * 60))

    def test_the_last_line(self):
        self.explained(b"a 1 2\na 1 2", b"the last line has no newline")
        self.explained(b"a 1 -7\na 1", b"line 1: time: a number out of range: a 1 -7", b"the last line has no newline",
                       in_all(1, "time: a number out of range", "a"))
        self.explained(b"", )

    def test_a_line_too_long(self):
        self.explained(b"a\n" + b"x" * 16385 + b"\na\n", b"line 1: not three fields, name, value and time: a",
                       b"line 2: more than 16384 bytes, and nothing behind it is read: " + b"x" * 120, in_all(1, FIELDS, "a"))

    def test_what_has_no_newline(self):
        for given, note in ((gzip.compress(b"a 1 2\n", mtime=0), b"the input has no newline: it is compressed by gzip"),
                            (b"\0\0\0\x07\x80\x02]q\0.", b"the input has no newline: it looks like frames of pickles, which --pickle takes"),
                            (b"a 1 2\rb 3 4\r", b"the last line has no newline, but a carriage return, which ends no line")):
            self.explained(given, note)

    def test_times_in_milliseconds(self):
        """They are passed on, and have a note at the end."""
        self.explained(b"a 1 100000000000\nb 2 100000000001\nc 3 1700000000000\n",
                       in_all(2, "time: above 100000000000, as of milliseconds, and passed as seconds", "b, c"))

    def test_many_bad_lines(self):
        notes = [b"line %d: not three fields, name, value and time: a" % n for n in range(1, 11)]
        self.explained(b"a\n" * 12, *notes, b"2 more bad lines in that second", in_all(12, FIELDS, "a, a, a"))
        self.explained(b"a\n" * 5000, *notes, b"4990 more bad lines in that second", in_all(5000, FIELDS, "a, a, a"))
