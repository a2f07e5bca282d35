"""`tools/quick.py`: what it builds of a small program, and what it says."""

import os
import shutil
import signal
import subprocess
import sys
import tempfile

from fixtures import harness
from fixtures.program import TOP

SOURCE = """#![tactic(auto)]

fn main(rt: HostRuntime) -> Result<(), std::io::Error> {
    let words = ["no line", "a line"];
    let mut lines = 0;
    for line in rt.lines(rt.alloc()) {
        drop(line?);
        lines += 1;
    }
    println!(rt; "{}", words[lines])?;
    Ok(())
}
"""
NOT_PROVED = "nothing of it is proved, and `make` builds the proved program\n"


class QuickProgram(harness.Suite):
    """In a repository of its own, with one crate."""

    def setUp(self):
        if shutil.which("rt") is None:
            self.skipTest("rt is missing")
        folder = tempfile.TemporaryDirectory(prefix="relayd-quick-")
        self.addCleanup(folder.cleanup)
        self.folder = folder.name
        shutil.copytree(os.path.join(TOP, "tools"), os.path.join(self.folder, "tools"))
        os.makedirs(os.path.join(self.folder, "crates", "small", "src"))
        self.write("crates.txt", "small:\n")
        self.write("HANDLES", "Handles allowed: none.\n")

    def write(self, name, text):
        with open(os.path.join(self.folder, name), "w", encoding="utf-8") as file:
            file.write(text)

    def build(self, source):
        """What the tool prints for this source, and its status."""
        self.write("crates/small/src/main.rt", source)
        ran = subprocess.run([sys.executable, os.path.join(self.folder, "tools", "quick.py"), "small"],
                             stdout=subprocess.PIPE, stderr=subprocess.STDOUT, text=True, timeout=harness.LIMIT)
        return ran.stdout, ran.returncode

    def test_build(self):
        """It is built once, by a kit whose checks the tool knows; nothing else is left; it says that nothing is proved, and how
        far it is. An index out of range ends the program."""
        text, status = self.build(SOURCE)
        begins, *stages, built = text.splitlines(keepends=True)  # and no note
        places = []
        for stage in stages:
            self.assertRegex(stage, r"^bin/small-quick: [a-z ]+ \([1-4] of 4, \d+:\d\d so far, [a-z0-9 ]+ to go\)\n$")
            places.append(int(stage.partition("(")[2][0]))
        self.assertEqual(sorted(set(places)), [1, 2, 3, 4])  # on a busy machine one comes again each half minute
        self.assertEqual(places, sorted(places))
        self.assertEqual((begins, status), (f"bin/small-quick: about three minutes; {NOT_PROVED}", 0))
        self.assertRegex(built, rf"^bin/small-quick: built in \d+ s; {NOT_PROVED}")
        self.assertEqual(sorted(os.listdir(os.path.join(self.folder, "bin"))), ["small-quick", "small-quick.stamp"])
        self.assertEqual(os.listdir(os.path.join(self.folder, "crates", "small")), ["src"])
        program = os.path.join(self.folder, "bin", "small-quick")
        for given, prints, status in ((b"", b"no line\n", 0), (b"x\n", b"a line\n", 0), (b"x\nx\n", b"", -signal.SIGILL)):
            ran = subprocess.run([program], input=given, stdout=subprocess.PIPE)
            self.assertEqual((ran.stdout, ran.returncode), (prints, status))
        self.assertEqual(self.build(SOURCE), (f"bin/small-quick: nothing changed since it was built; {NOT_PROVED}", 0))

    def test_a_source_that_does_not_compile(self):
        """What is wrong with it is shown, by its path in the repository, and no program is there."""
        text, status = self.build(SOURCE.replace('words[lines]', 'absent'))
        self.assertEqual(status, 1, text)
        self.assertIn("\ncrates/small/src/main.rt:10:", text)
        self.assertEqual(os.listdir(os.path.join(self.folder, "bin")), [])
