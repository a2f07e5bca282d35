"""Configuration files: which `check` takes, and the fault of those that it refuses."""

import itertools

from fixtures.configured import SETTINGS, WithFiles, numbered, ring, settings

LONG = "x" * 255
FALSE = ("0", "no", "false", "off", "No", "FALSE", "oFF")
TRUE = ("1", "yes", "true", "on", "Yes", "TRUE", "oN")
NEITHER = ("", "2", "00", "y", "n", "t", "f", "yes.", "enabled", "true # so", "true false", "\u0661", "\uff4f\uff4e")
NO_NUMBERS = ("", "x", "-1", "+1", "1.0", "1e3", "0x1", "1_0", "1 2", "inf", "12345678901", "00000000001",
              "4294967297", "18446744073709551617", "1 # one", "\u0661", "\uff11")
RANGES = {  # the least and the greatest number
    "REPLICATION_FACTOR": (1, 64),
    "MAX_QUEUE_SIZE": (1, 1000000),
    "MAX_DATAPOINTS_PER_MESSAGE": (1, 10000),
    "LINE_RECEIVER_PORT": (0, 65535),
    "PICKLE_RECEIVER_PORT": (0, 65535),
    "UDP_RECEIVER_PORT": (0, 65535),
}
FIRST_FAULTS = (  # in the order in which they are reported
    ("DESTINATIONS", "h", "BadDestination"),
    ("RELAY_METHOD", "rule", "Method"),
    ("REPLICATION_FACTOR", "0", "BadNumber"),
    ("DIVERSE_REPLICAS", "maybe", "BadTruth"),
    ("MAX_QUEUE_SIZE", "0", "BadNumber"),
    ("MAX_DATAPOINTS_PER_MESSAGE", "0", "BadNumber"),
    ("USE_FLOW_CONTROL", "true", "FlowControl"),
    ("DESTINATION_PROTOCOL", "pickle", "Protocol"),
    ("LINE_RECEIVER_PORT", "65536", "BadNumber"),
    ("PICKLE_RECEIVER_PORT", "65536", "BadNumber"),
    ("ENABLE_UDP_LISTENER", "maybe", "BadTruth"),
    ("UDP_RECEIVER_PORT", "65536", "BadNumber"),
)


class Lines(WithFiles):
    """Lines of a file, which are reported before any setting."""

    def faulty(self, fault, *texts):
        """Cases: both as a configuration and as relay rules the text has this fault."""
        for text in texts:
            self.refused(f"config: {fault}", config=text)
            self.refused(f"rules: {fault}", rules=text)

    def test_no_section(self):
        self.faulty("line 1: NoSection", "key = value\n[relay]\n", "key", "= value", "]", "\ufeff" + SETTINGS)
        self.faulty("line 4: NoSection", "# note\n\n  ; note\r\n\tkey = value\n")

    def test_a_section_again(self):
        self.faulty("line 2: DuplicateSection", "[a]\n[a]\n", "[a]\n  [a]\t\r\n", "[a] = []\n[a] = []\n")
        self.faulty("line 5: DuplicateSection", "[a]\nx = 1\n[b]\nx = 1\n[a]\nx = 1\n")

    def test_a_key_again(self):
        self.faulty("line 3: DuplicateKey", "[a]\nx = 1\nx = 1\n", "[a]\nx = 1\n x:2", "[a]\nx =\nx:")
        self.faulty("line 8: DuplicateKey", "[b]\nx = 1\n[a]\nx = 1\n\n# x = 2\ny = 1\nx = 3\nz\n")

    def test_a_bad_line(self):
        self.faulty("line 1: BadLine", "[a", "[", "[]", "[a] # note", "[a] ; note\n", "[a]x", "[a\n]")
        self.faulty("line 2: BadLine", "[a]\nword\n", "[a]\n= 1\n", "[a]\n : 1\n", "[a]\n=\n", "[a]\n]\n",
                    "[a]\n[b\nx\n[a]\n", "[a]\n\\[b]\n", "[a]\n\ufeff\n")

    def test_the_first_fault_is_reported(self):
        self.faulty("line 3: BadLine", "[a]\nx = 1\nx\nx = 2\n[a]\n")
        self.faulty("line 3: DuplicateKey", "[a]\nx = 1\nx = 2\nx\n[a]\n")
        self.faulty("line 3: DuplicateSection", "[a]\nx = 1\n[a]\nx\nx = 2\n")

    def test_only_byte_10_ends_a_line(self):
        self.faulty("line 2: BadLine", "[a]\r\nx\r\n", "# a\r# b\r\n[a", "[a]\nb\vc\fd\re\u2028f\u0085g\n")
        self.faulty("line 6: BadLine", "[a]\n\n \n\t\n\r\n[b")

    def test_the_last_line_needs_no_end(self):
        self.counts(2, config=SETTINGS.rstrip("\n"))

    def test_white_space_round_lines_and_values(self):
        for white in (" ", "\t", "\v", "\f", "\r", " \t\v\f\r "):
            lines = [line.replace(" = ", white + "=" + white) for line in SETTINGS.splitlines()]
            self.counts(2, config="".join(f"{white}{line}{white}\n" for line in lines))

    def test_other_white_space_belongs_to_a_value(self):
        for white in ("\0", "\x1c", "\x1f", "\u0085", "\u00a0", "\u2003", "\u3000"):
            self.refused("config: DESTINATION_PROTOCOL: Protocol", config=settings(DESTINATION_PROTOCOL=white + "line"))

    def test_colons_comments_and_other_sections(self):
        self.counts(2, config=SETTINGS.replace("=", ":"))
        self.counts(2, config=SETTINGS.replace(" = ", "="))
        self.counts(2, config="# [\n;x\n[]]\nDESTINATIONS = none\n" + SETTINGS + "#\n[[relay]]\nMAX_QUEUE_SIZE=0\n")
        self.counts(2, config="[Relay]\n[ relay ]\n[ ]\nx=\n[relay:b]\n" + SETTINGS)

    def test_names_observe_case(self):
        self.counts(2, config=SETTINGS + "max_queue_size = none\n")
        self.refused("config: USE_FLOW_CONTROL: Missing", config=SETTINGS.replace("USE_FLOW", "use_flow"))
        self.refused("config: DESTINATIONS: Missing", config=SETTINGS.replace("relay", "RELAY"))


class Destinations(WithFiles):
    """The list of destinations, and the method that looks at it."""

    def lists(self, fault, *lists, **changed):
        """Cases: these lists of destinations have this fault."""
        for text in lists:
            self.refused("config: " + fault, config=settings(DESTINATIONS=text, **changed))

    def test_lists_that_are_fine(self):
        for count, text in ((1, "h:1"), (1, "h:65535"), (1, "h:00001"), (2, "h:1,h:2"), (2, "h:1\t,\v h:2"),
                            (1, "a-b_c.d:1:A-Z_0.9"), (1, f"{LONG}:1:{LONG}"), (2, "h:1, H:1"), (2, "h:1, h:1:a"),
                            (1, "-:1:."), (3, "h:1:a, h:1:b, h:1:A"), (64, numbered(64))):
            self.counts(count, config=settings(DESTINATIONS=text))

    def test_no_destinations(self):
        self.lists("DESTINATIONS: Missing", None, "")
        for text in ("", "[relay]\n", "# nothing\n", "[other]\nDESTINATIONS = h:1\n"):
            self.refused("config: DESTINATIONS: Missing", config=text)

    def test_bad_destinations(self):
        self.lists("DESTINATIONS: BadDestination", "127.0.0.1", ",", "h:1,", ",h:1", "h:1,,h:2", "h", "h:", ":1",
                   "h:0", "h:00000", "h:65536", "h:99999", "h:000001", "h:x", "h:+1", "h:-1", "h:1:", "h:1:a:b",
                   "h: 1", "h :1", "h:1: a", "h 1", "h:1 h:2", "h:1;h:2", "[::1]:1", "::1:1", "h/x:1", "h@x:1",
                   "\u00e4:1", "h:1:\u00e4", "h:\u0661", f"{LONG}x:1", f"h:1:{LONG}x", "h:1 # note", "'h':1",
                   "h:1\u00a0", "h\0:1")

    def test_too_many(self):
        self.lists("DESTINATIONS: TooMany", numbered(65), numbered(1000), "h:1," * 64 + "h:1")
        self.lists("DESTINATIONS: BadDestination", numbered(65) + ", h", numbered(65) + ",")

    def test_methods(self):
        self.lists("RELAY_METHOD: Method", "h:1, h:1", RELAY_METHOD="")
        for word in ("Rules", "RULES", "rule", "consistent_hashing", "Consistent-Hashing", "consistent-hashing,",
                     "fast-hashing", "aggregated-consistent-hashing"):
            self.refused("config: RELAY_METHOD: Method", config=settings(RELAY_METHOD=word))
        for word in ("rules", "consistent-hashing"):
            self.counts(2, config=settings(DESTINATIONS="g:1, h:1", RELAY_METHOD=word))

    def test_a_destination_again(self):
        twice = "RELAY_METHOD: DuplicateDestination"
        self.lists(twice, "h:1, h:1", "h:1, h:01", "h:1:a, g:1, h:1:a")
        self.lists(twice, "h:1, h:1", "h:1, h:2", "h:1:a, g:1:a, h:2:a", RELAY_METHOD="consistent-hashing")
        for count, text in ((2, "h:1, h:1:a"), (2, "h:1:a, h:1:b"), (2, "h:1, H:1"), (2, "h:1, h:2:None")):
            self.counts(count, config=ring(text))
        self.counts(2, config=settings(DESTINATIONS="h:1, h:2", RELAY_METHOD="rules"))

    def test_diverse_replicas(self):
        for factor in (1, 2, 64):
            self.counts(2, config=ring("g:1, h:1", factor, DIVERSE_REPLICAS="yes"))
            self.counts(2, config=ring("g:1, h:1", factor, DIVERSE_REPLICAS="no"))
        self.counts(2, config=settings(REPLICATION_FACTOR=2, DIVERSE_REPLICAS="yes"))


class Values(WithFiles):
    """Numbers, truth words, the protocol and interfaces."""

    def test_numbers(self):
        for setting, (least, greatest) in RANGES.items():
            for number in (least, greatest, f"{greatest:010}"):
                self.counts(2, config=settings(**{setting: number}))
            for word in (greatest + 1, *NO_NUMBERS, *(["0"] if least else [])):
                self.refused(f"config: {setting}: BadNumber", config=settings(**{setting: word}))

    def test_truth_words(self):
        for setting in ("DIVERSE_REPLICAS", "ENABLE_UDP_LISTENER", "USE_FLOW_CONTROL"):
            for word in NEITHER:
                self.refused(f"config: {setting}: BadTruth", config=settings(**{setting: word}))
            for word in FALSE:
                self.counts(2, config=settings(**{setting: word}))
        for word in TRUE:
            self.counts(2, config=settings(DIVERSE_REPLICAS=word, ENABLE_UDP_LISTENER=word))
            self.refused("config: USE_FLOW_CONTROL: FlowControl", config=settings(USE_FLOW_CONTROL=word))

    def test_what_must_be_said(self):
        for setting in ("USE_FLOW_CONTROL", "DESTINATION_PROTOCOL"):
            self.refused(f"config: {setting}: Missing", config=settings(**{setting: None}))

    def test_protocols(self):
        for word in ("", "pickle", "Line", "LINE", "lines", "line # so", "protobuf"):
            self.refused("config: DESTINATION_PROTOCOL: Protocol", config=settings(DESTINATION_PROTOCOL=word))

    def test_interfaces_are_any_text(self):
        for kind in ("LINE", "PICKLE", "UDP"):
            for text in ("", "0.0.0.0", "::", "localhost", "no address", "\u00e4 = # ;"):
                self.counts(2, config=settings(**{kind + "_RECEIVER_INTERFACE": text}))

    def test_other_settings_are_any_text(self):
        self.counts(2, config=settings(MAX_CACHE_SIZE="inf", LOG_UPDATES="", x="= : #"))

    def test_the_first_setting_with_a_fault_is_reported(self):
        for first, second in itertools.combinations(FIRST_FAULTS, 2):
            for pair in ((first, second), (second, first)):  # as they stand in the file
                text = settings(**{setting: None for setting, _, _ in pair})
                text += "".join(f"{setting} = {value}\n" for setting, value, _ in pair)
                self.refused(f"config: {first[0]}: {first[2]}", config=text)
