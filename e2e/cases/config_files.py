"""Files of every kind where `check` and `route` are given one."""

import ctypes
import os
import socket
import threading
from pathlib import Path

from fixtures.configured import NAME, REWRITE, ROLES, RULES, SETTINGS, WithFiles, ring
from fixtures.harness import Ran, run
from fixtures.program import TOP

RIGHT = {"config": SETTINGS, "rules": RULES, "rewrite": REWRITE}
EXAMPLES = Path(TOP) / "examples"
PR_CAPBSET_DROP, CAP_DAC_OVERRIDE, CAP_DAC_READ_SEARCH = 24, 1, 2


def without_override():
    """Takes from a process of root, in the child, what lets root read every file."""
    libc = ctypes.CDLL(None)
    for capability in (CAP_DAC_OVERRIDE, CAP_DAC_READ_SEARCH):
        libc.prctl(PR_CAPBSET_DROP, capability, 0, 0, 0)


class CannotRead(WithFiles):
    """Paths that give no bytes."""

    def unread(self, path, roles=ROLES):
        """Cases: the path cannot be read, whatever it is for."""
        for role in roles:
            self.refused(f"{role}: cannot read", 3, **(RIGHT | {role: Path(path)}))

    def test_nothing_is_there(self):
        self.unread(self.folder / "missing")
        self.unread(self.folder / "missing" / "relay.conf")

    def test_a_folder(self):
        self.unread(self.folder)
        self.unread(os.sep)

    def test_a_file_in_the_place_of_a_folder(self):
        (self.folder / "file").write_text("")
        self.unread(self.folder / "file" / "relay.conf")

    def test_a_socket(self):
        with socket.socket(socket.AF_UNIX) as listener:
            listener.bind(os.fspath(self.folder / "socket"))
            self.unread(self.folder / "socket")

    def test_links_in_a_ring_and_to_nothing(self):
        (self.folder / "one").symlink_to(self.folder / "two")
        (self.folder / "two").symlink_to(self.folder / "one")
        (self.folder / "gone").symlink_to(self.folder / "missing")
        self.unread(self.folder / "one")
        self.unread(self.folder / "gone")

    def test_a_path_too_long(self):
        self.unread(self.folder / ("x" * 300))
        self.unread(self.folder / ("x/" * 5000))

    def test_a_file_that_opens_and_fails_at_a_read(self):
        self.unread("/proc/self/mem")

    def test_a_file_that_must_not_be_read(self):
        for role in ROLES:
            path = self.folder / "closed"
            path.write_text(RIGHT[role])
            path.chmod(0)
            words = ("check", *self.given(RIGHT | {role: path}))
            expected = Ran(3, b"", b"relayd: %s: cannot read\n" % role.encode())
            self.same(role, run(words, preexec_fn=without_override), expected, words)
            path.unlink()

    def test_a_word_that_names_no_file(self):
        for role in ROLES:
            with self.subTest():
                words = ("check", f"--{role}=./-", *self.given(RIGHT | {role: None}))
                expected = Ran(3, b"", b"relayd: %s: cannot read\n" % role.encode())
                self.same("./-", run(words, cwd=self.folder), expected, words)

    def test_rules_that_a_ring_does_not_use(self):
        self.refused("rules: cannot read", 3, config=ring("h:1"), rules=self.folder)


class NotText(WithFiles):
    """Files that are not UTF-8."""

    def test_bytes_that_are_not_utf_8(self):
        for text in (b"\xff", b"\x80", b"\xc3", b"\xc0\x80", b"\xe2\x82", b"\xed\xa0\x80", b"\xf4\x90\x80\x80",
                     b"\xf0\x9f\x98", b"\xff\xfe[\0r\0e\0", b"caf\xe9"):
            for role in ROLES:
                right = RIGHT[role].encode()
                for content in (right + b"# " + text, b"# " + text + b"\n" + right, text, b"word\n" + text):
                    self.refused(f"{role}: not text", **(RIGHT | {role: content}))

    def test_utf_8_in_comments_and_other_sections(self):
        for text in (b"\xc3\xa4", b"\xe2\x82\xac", b"\xf0\x9f\x98\x80", b"\xf4\x8f\xbf\xbf", b"\xed\x9f\xbf",
                     b"\xef\xbb\xbf", b"\0"):
            for role in ROLES:
                right = RIGHT[role].encode()
                self.counts(2, **(RIGHT | {role: b"# " + text + b"\n" + right + b"#" + text}))
        self.counts(2, config=SETTINGS + "[\u00e4]\n\u20ac = \u00e4\n", rules=RULES + "\u00e4 = \U0001f600\n")


class Empty(WithFiles):
    """Files without a byte."""

    def test_empty_files(self):
        for nothing in ("", Path(os.devnull)):
            self.refused("config: DESTINATIONS: Missing", config=nothing)
            self.refused("rules: NoDefault", rules=nothing)
            self.counts(2, rewrite=nothing)


class Whole(WithFiles):
    """Files that are read to their end, however they come."""

    def test_a_long_file(self):
        lines = "# a comment in a long list of comments\n" * 200000
        for role in ROLES:
            self.counts(2, **(RIGHT | {role: lines + RIGHT[role] + lines}))
            self.counts(2, **(RIGHT | {role: RIGHT[role] + lines[:-1]}))
        self.refused("config: line 200001: NoSection", config=lines + "x = 1\n")
        self.refused("rules: line 200004: BadLine", rules=RULES[:RULES.index("[rest]")] + "#" + lines + "]\n")
        self.refused("rewrite: line 200001: NoSection", rewrite=lines + "x = 1\n")

    def test_a_long_line(self):
        line = "#" + "x" * 5000000
        for role in ROLES:
            self.counts(2, **(RIGHT | {role: f"{line}\n{RIGHT[role]}{line}"}))
        self.counts(2, config=SETTINGS + f"x = {line}\n", rules=RULES + f"{line[1:]} = x\n")

    def test_many_keys_and_sections(self):
        keys = "".join(f"key{number} = {number}\n" for number in range(20000))
        sections = "".join(f"[section {number}]\nkey = {number}\n" for number in range(20000))
        self.counts(2, config=SETTINGS + keys + sections)
        self.refused("config: line 20006: DuplicateKey", config=SETTINGS + keys + "key0 = 0\n")
        self.refused("config: line 40006: DuplicateSection", config=SETTINGS + sections + "[relay]\n")

    def test_many_rules(self):
        sections = "".join(f"[{n}]\npattern = ^a\\.{n}$\ndestinations = 127.0.0.1:3001\n" for n in range(500))
        self.routes("a.499", "a.499", "127.0.0.1:3001", rules=sections + "[rest]\ndefault = 1\ndestinations = h:1\n")
        self.routes("a.500", "a.500", rules=sections + "[rest]\ndefault = 1\ndestinations = h:1\n")
        lines = "[pre]\n" + "".join(f"^a{n}$ = a{n + 1}\n" for n in range(500))
        self.routes("a0", "a500", "127.0.0.1:3002", rewrite=lines)

    def test_a_pipe_with_a_name(self):
        for role in ROLES:
            for text in (RIGHT[role], "# note\n" * 20000 + RIGHT[role]):
                path = self.folder / "pipe"
                os.mkfifo(path)
                writer = threading.Thread(target=path.write_text, args=(text,), daemon=True)
                writer.start()
                self.counts(2, **(RIGHT | {role: path}))
                os.close(os.open(path, os.O_RDONLY | os.O_NONBLOCK))  # a writer that nobody read from goes on
                writer.join()
                path.unlink()

    def test_standard_input(self):
        """It is read where it is the file, and not otherwise."""
        for role in ROLES:
            self.ends(("check",), Ran(0, b"ok 2 destinations\n", b""), RIGHT | {role: Path("/dev/stdin")},
                      given=RIGHT[role].encode())
        self.ends(("check",), Ran(0, b"ok 2 destinations\n", b""), RIGHT, given=b"[relay]\n")

    def test_links_and_relative_paths(self):
        (self.folder / "relay.conf").write_text(SETTINGS)
        (self.folder / "link").symlink_to("relay.conf")
        for path in ("relay.conf", "link", "./link", f"../{self.folder.name}/relay.conf"):
            self.ends(("check",), Ran(0, b"ok 2 destinations\n", b""), {"config": Path(path)}, cwd=self.folder)

    def test_names_of_files(self):
        for name in ("a b.conf", "\u00e4.conf", "./-", "--rules", "a=b", "#", "'\"$x\\"):
            (self.folder / name).write_text(SETTINGS)
            self.counts(2, config=self.folder / name)
            with self.subTest():
                words = ("check", f"--config={name}", *self.given({"config": None}))
                self.same(name, run(words, cwd=self.folder), Ran(0, b"ok 2 destinations\n", b""), words)

    def test_one_file_for_all(self):
        text = SETTINGS + "destinations = 127.0.0.1:3001\ndefault = yes\n"
        (self.folder / "file").write_text(text)
        path = self.folder / "file"
        self.routes(NAME, NAME, "127.0.0.1:3001", config=path, rules=path)
        self.refused("rewrite: line 1: NoSection", config=path, rules=path, rewrite=path)


class Examples(WithFiles):
    """The files in the folder `examples`."""

    CONFIG, RULES, REWRITE = (EXAMPLES / name for name in ("relay.conf", "relay-rules.conf", "rewrite-rules.conf"))

    @staticmethod
    def listed(path, key):
        """The destinations under a key of a file."""
        lines = path.read_text("utf-8").splitlines()
        lists = [line.partition(" = ")[2] for line in lines if line.startswith(key + " = ")]
        return [destination.strip() for text in lists for destination in text.split(",")]

    def test_the_example_files(self):
        number = len(self.listed(self.CONFIG, "DESTINATIONS"))
        self.counts(number, config=self.CONFIG, rules=self.RULES)
        self.counts(number, config=self.CONFIG, rules=self.RULES, rewrite=self.REWRITE)
        self.counts(2, config=ring("h:1, h:2:a"), rules=self.RULES, rewrite=self.REWRITE)

    def test_the_rules_name_destinations_of_the_configuration(self):
        there = self.listed(self.CONFIG, "DESTINATIONS")
        for destination in self.listed(self.RULES, "destinations"):
            self.assertIn(destination, there)
