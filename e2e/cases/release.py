"""What a release needs: one version everywhere, notices of what the program links, and programs that linters pass."""

import os
import re
import shutil
import subprocess
import sys
import tempfile

from fixtures import harness
from fixtures.program import TOP

SCRIPTS = re.compile(rb"#!/bin/(?:sh|bash)\b")


def text_of(path):
    """The text of a file of the repository."""
    with open(os.path.join(TOP, path), encoding="utf-8") as file:
        return file.read()


def files():
    """The files of the repository, without what was built."""
    for place, folders, names in os.walk(TOP):
        folders[:] = [name for name in folders if name not in (".git", "bin", "crates", "data", "out")]
        yield from (os.path.join(place, name) for name in names)


def begins(path, pattern):
    """Whether a file begins so."""
    with open(path, "rb") as file:
        return pattern.match(file.read(32)) is not None


def numbers(version):
    """The three numbers of a version."""
    return [int(part) for part in version.split(".")]


class Release(harness.Suite):
    """The state in which a version can be tagged."""

    def passes(self, *words):
        """A program that must have nothing to say."""
        ran = subprocess.run(words, cwd=TOP, stdin=subprocess.DEVNULL, stdout=subprocess.PIPE,
                             stderr=subprocess.STDOUT, timeout=harness.LIMIT, text=True)
        self.assertEqual((ran.returncode, ran.stdout), (0, ""))

    def needs(self, command):
        """Skips a case where a command is not there."""
        if shutil.which(command) is None:
            self.skipTest(f"{command} is missing")

    def test_version(self):
        """The program and its man pages have one version: the newest of the changes, or a later one with `-dev`."""
        version = harness.run(("--version",)).out.decode().split()[1]
        for page in ("packaging/relayd.1", "packaging/relayd-supervised.1", "packaging/relay.conf.5"):
            shown = re.findall(r'^\.TH .*"relayd (\S+)"', text_of(page).replace("\\-", "-"), re.MULTILINE)
            self.assertEqual(shown, [version], page)
        headings = re.findall(r"^## (.*?)(?:, \d+ \w+ \d{4})?$", text_of("CHANGELOG.md"), re.MULTILINE)
        if version.endswith("-dev"):
            self.assertEqual(headings[0], "Unreleased")
            self.assertGreater(numbers(version.removesuffix("-dev")), numbers(headings[1]))
        else:
            self.assertEqual(headings[0], version)

    def test_notices(self):
        self.needs("rt")
        self.passes(sys.executable, "tools/notices.py", "--check")

    def test_shell(self):
        self.needs("shellcheck")
        scripts = [path for path in files() if path.endswith((".sh", ".bash")) or begins(path, SCRIPTS)]
        self.assertGreater(len(scripts), 3)
        self.passes("shellcheck", *scripts)

    def test_python(self):
        self.needs("pyflakes3")
        self.passes("pyflakes3", *(path for path in files() if path.endswith(".py")))


class ReleaseCheck(harness.Suite):
    """`make release-check`, in a clone of what it reads."""

    READ = ("CHANGELOG.md", "crates/command_line/src/commands.rt", "examples/kubernetes.yml", "packaging/relay.conf.5",
            "packaging/relayd-supervised.1", "packaging/relayd.1", "tools/passed.py", "tools/release_check.py")
    TESTS = ("test", "deb-test-bookworm", "deb-test-trixie", "deb-test-bullseye")

    def setUp(self):
        folder = tempfile.TemporaryDirectory(prefix="relayd-release-")
        self.addCleanup(folder.cleanup)
        self.folder = folder.name
        version = harness.run(("--version",)).out.decode().split()[1]
        self.version = version.removesuffix("-dev")
        for path in self.READ:
            text = text_of(path).replace(version.replace("-", "\\-"), self.version).replace(version, self.version)
            self.write(path, text.replace("## Unreleased", f"## {self.version}, 27 November 2026"))
        self.write(".gitignore", "bin/\n__pycache__/\n")
        self.git("init", "--quiet")
        self.commit()

    def write(self, path, text):
        """Writes a file of the clone."""
        os.makedirs(os.path.dirname(os.path.join(self.folder, path)) or self.folder, exist_ok=True)
        with open(os.path.join(self.folder, path), "w", encoding="utf-8") as file:
            file.write(text)

    def git(self, *words):
        """A command of git, which must succeed."""
        who = ["-c", "user.name=a", "-c", "user.email=a@b.c"]
        subprocess.run(["git", *who, *words], cwd=self.folder, stdout=subprocess.DEVNULL, check=True, timeout=harness.LIMIT)

    def commit(self):
        self.git("add", "--all")
        self.git("commit", "--quiet", "--allow-empty", "--message=m")

    def tool(self, *words):
        """The status of a tool, and the lines that it prints."""
        ran = subprocess.run([sys.executable, *words], cwd=self.folder, stdout=subprocess.PIPE, stderr=subprocess.STDOUT,
                             text=True, timeout=harness.LIMIT)
        return ran.returncode, ran.stdout.splitlines()

    def pass_all(self):
        for test in self.TESTS:
            self.assertEqual(self.tool("tools/passed.py", test, "true"), (0, []))

    def refused(self, *conditions):
        """The commit may not get a tag, and these conditions alone do not hold."""
        status, lines = self.tool("tools/release_check.py")
        self.assertEqual((status, lines[-1]), (1, "this commit may not get a tag"))
        self.assertEqual([line.split(": ")[1] for line in lines if line.startswith("no: ")], list(conditions))

    def test_a_release(self):
        """Once its tests have passed; those of another commit do not count, nor those that fail."""
        tests = ["make test has passed"] + [f"make deb-test SUITE={it[9:]} has passed" for it in self.TESTS[1:]]
        self.refused(*tests)
        self.assertEqual(self.tool("tools/passed.py", "test", "false"), (1, []))
        self.refused(*tests)
        self.pass_all()
        status, lines = self.tool("tools/release_check.py")
        self.assertEqual((status, lines[-1]), (0, f"this commit may get the tag v{self.version}"))
        self.commit()
        self.refused(*tests)

    def test_files_that_are_not_of_the_commit(self):
        """Tests that pass with them say nothing of the commit."""
        self.write("new", "")
        self.assertEqual(self.tool("tools/passed.py", "test", "true")[0], 0)
        os.remove(os.path.join(self.folder, "new"))
        self.assertFalse(os.path.exists(os.path.join(self.folder, "bin")))
        self.pass_all()
        self.write("new", "")
        tests = ["make test has passed"] + [f"make deb-test SUITE={it[9:]} has passed" for it in self.TESTS[1:]]
        self.refused("the files are those of a commit", *tests)

    def test_versions(self):
        """They must be one, with a day that has begun, and with no other tag."""
        for path, old, new, condition in (
                ("CHANGELOG.md", "27 November 2026", "27 November 3026", "CHANGELOG.md begins with it and a day"),
                ("packaging/relayd.1", f"relayd {self.version}", "relayd 0.0.1", "packaging/relayd.1 has it"),
                ("examples/kubernetes.yml", f"relayd:{self.version}", "relayd:1", "examples/kubernetes.yml has it")):
            with open(os.path.join(self.folder, path), encoding="utf-8") as file:
                text = file.read()
            self.write(path, text.replace(old, new, 1))
            self.commit()
            self.pass_all()
            self.refused(condition)
            self.write(path, text)
        self.git("tag", f"v{self.version}")
        self.commit()
        self.pass_all()
        self.refused(f"no other commit has the tag v{self.version}")
