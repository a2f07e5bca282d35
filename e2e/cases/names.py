"""`route --names FILE`: a line for each name of a file, and each bad name on standard error."""

import os

from fixtures.configured import REWRITE, SETTINGS, WithFiles, ring
from fixtures.harness import LIMIT, Ran, held, one_byte_a_read, run

NAMES = b"a.b\nx\ncollectd.a.b\nx y\n\n \t\r\n  a.c\r\nlast"
LINES = (b"a.b 127.0.0.1:3001\nx 127.0.0.1:3002\ncollectd.a.b a.system.b 127.0.0.1:3001\n"
         b"a.c 127.0.0.1:3001\nlast 127.0.0.1:3002\n")
NOTES = b"relayd: name: line 4: BadName\n"
LONGEST_NAME = 16384
MANY = 100_000
MANY_READS = 30_000
MORE_THAN_REMEMBERED = 300_000


class Names(WithFiles):
    """The option in place of a name."""

    def named(self, names, lines=b"", notes=b"", status=0, **files):
        """Two cases: the names in a file, and on standard input, have these lines and notes."""
        path = self.folder / "names"
        path.write_bytes(names)
        for words, given in (((os.fspath(path),), b"a.b\n"), (("-",), names)):
            with self.subTest():
                ran = run(("route", "--names", *words, *self.given(files)), given)
                self.same(names, ran, Ran(status, lines, notes), words)

    def test_lines_in_order(self):
        self.named(NAMES, LINES, NOTES, rewrite=REWRITE)

    def test_names_that_come_byte_by_byte(self):
        """A file is read to its end, however many reads that takes."""
        names = b"x\n" * (MANY_READS // 2)
        words = ("route", "--names", "-", *self.given({}))
        self.same(names, one_byte_a_read(names, words), Ran(0, b"x 127.0.0.1:3002\n" * (MANY_READS // 2), b""), words)

    def test_a_name_that_is_dropped(self):
        self.named(b"a\nb\na\n", b"a dropped\nb 127.0.0.1:3002\na dropped\n", rewrite="[pre]\n^a$ =\n")

    def test_a_name_that_a_rule_leaves_as_it_is(self):
        self.named(b"a.b\n", b"a.b 127.0.0.1:3001\n", rewrite="[pre]\na = a\n")

    def test_no_names(self):
        for names in (b"", b"\n", b"\n\n", b" \t\x0b\x0c\r\n"):
            self.named(names)

    def test_no_destination_is_left(self):
        self.named(b"a\n", b"a\n", rules="[d]\ndefault = true\ndestinations = h:1\n")

    def test_bad_names(self):
        for name in (b"a b", b"a\x00", b"\x7f", b"\xff", b"a\xc3", b"\xed\xa0\x80", b"a\tb", b"a\rb", b"x" * (LONGEST_NAME + 1)):
            self.named(b"a.b\n" + name + b"\na.c\n", b"a.b 127.0.0.1:3001\na.c 127.0.0.1:3001\n",
                       b"relayd: name: line 2: BadName\n")
        self.named(b"x" * LONGEST_NAME + b"\n", b"x" * LONGEST_NAME + b" 127.0.0.1:3002\n")

    def test_each_line_is_that_of_route(self):
        names = [b"a.b", b"servers.web1.cpu", "m\u00e9trique".encode(), b"a;t=1", b"--help"]
        for files in ({}, {"config": ring("h:1:a, h:2:b, h:3:c", 2), "rules": None}):
            lines = [run(("route", *self.given(files), "--", name)).out for name in names]
            self.named(b"\n".join(names), b"".join(lines), **files)

    def test_faults_of_files_come_first(self):
        self.named(NAMES, b"", b"relayd: rules: NoRules\n", 1, rules=None)
        self.named(NAMES, b"", b"relayd: config: DESTINATIONS: Missing\n", 1, config="[relay]\n")

    def test_names_that_cannot_be_read(self):
        for path in (self.folder / "missing", self.folder):
            with self.subTest():
                ran = run(("route", "--names", os.fspath(path), *self.given({})))
                self.same(path, ran, Ran(3, b"", b"relayd: names: cannot read\n"))
                ran = run(("route", "--names", os.fspath(path), *self.given({"rules": None})))
                self.same(path, ran, Ran(1, b"", b"relayd: rules: NoRules\n"))

    def test_a_name_and_a_file_or_neither(self):
        files = self.given({})
        for words in ((), ("a.b", "--names", "-"), ("--names", "-", "--", "a.b"), ("--names",), ("--names", "-", "--names", "-")):
            ran = run(("route", *words, *files), b"a.b\n")
            self.assertEqual((ran.status, ran.out), (2, b""), words)
            self.assertRegex(ran.err, rb"^error: ")
        self.assertEqual(run(("check", "--names", "-", *files)).status, 2)

    def test_an_output_that_is_gone(self):
        with held(("route", "--names", "-", *self.given({}))) as child:
            child.stdout.close()
            child.stdin.write(b"a.b\n" * 100_000)
            child.stdin.close()
            self.assertEqual(child.stderr.read(), b"relayd: output\n")
            self.assertEqual(child.wait(LIMIT), 3)

    def test_notes_of_the_files(self):
        config = SETTINGS + "max_queue_size = 1\n"
        plain = run(("route", "--names", "-", *self.given({"config": config})), NAMES)
        ran = run(("route", "--names", "-", "--explain", *self.given({"config": config})), NAMES)
        self.assertEqual((ran.status, ran.out), (plain.status, plain.out))
        self.assertTrue(ran.err.startswith(plain.err))
        self.assertIn(b"max_queue_size", ran.err)

    def test_names_that_come_again(self):
        """More names than a plan remembers, forwards and then backwards: each line is that of its name alone."""
        names, lines = [], {}
        for n in range(MORE_THAN_REMEMBERED):
            name = f"collectd.h{n}.cpu" if n % 3 == 0 else f"{'ab'[n % 2]}.h{n}.cpu"
            sent = f"h{n}.system.cpu" if n % 3 == 0 else name
            names.append(name)
            told = name if sent == name else f"{name} {sent}"
            lines[name] = f"{told} 127.0.0.1:{3001 if sent.startswith('a.') else 3002}"
        names += reversed(names)
        words = ("route", "--names", "-", *self.given({"rewrite": REWRITE}))
        ran = run(words, "".join(name + "\n" for name in names).encode())
        told = ran.out.decode().splitlines()
        self.assertEqual((ran.status, ran.err, len(told)), (0, b"", len(names)))
        wrong = [(name, line) for name, line in zip(names, told) if line != lines[name]]
        self.assertEqual(wrong[:3], [])

    def test_many_names_with_twenty_rules(self):
        rules = "".join(f"[r{n}]\npattern = ^servers\\.web[0-9]*{n}\\.(cpu|load)\\.\ncontinue = {n % 2}\n"
                        f"destinations = 127.0.0.1:3001\n" for n in range(20))
        rules += "[d]\ndefault = true\ndestinations = 127.0.0.1:3002\n"
        names = b"".join(b"servers.web%d.cpu.x%d\n" % (n % 999, n) for n in range(MANY))
        words = ("route", "--names", "-", *self.given({"rules": rules}))
        ran = run(words, names)
        self.assertEqual((ran.status, ran.err, ran.out.count(b"\n")), (0, b"", MANY))
