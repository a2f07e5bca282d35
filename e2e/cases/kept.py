"""What the tools keep of proofs: `make`, `make check` and `make edits` share it, and the quick program takes no part.

The crates are four small ones, and `rt` is a script that notes what it is asked for and makes what the kit's would.
"""

import os
import shutil
import subprocess
import sys
import tempfile

from fixtures import harness
from fixtures.program import TOP

RT = f"""#!{sys.executable}
import os, sys
verb, name = sys.argv[1], os.path.basename(os.getcwd())
if verb == "version":
    sys.exit(print("a kit"))
with open(os.environ["ASKED"], "a") as file:
    print(verb, sys.argv[2] if verb == "must-fail" else name, file=file)
if verb == "must-fail":
    sys.exit(print(f"rt: must-fail {{sys.argv[2]}}/wrong.edit: refused, as it must be"))
os.makedirs("out/incremental", exist_ok=True)
made = {{"lib": "out/rlib/stamp", "run": f"out/{{name}}"}}.get(verb)
if made:
    os.makedirs(os.path.dirname(made), exist_ok=True)
    with open(made, "w") as file:
        file.write(open("src/lib.rt").read())
"""
CRATES = {"low": "", "middle": "low", "relayd": "middle", "tests": "low"}  # each with the one that it depends on


class Kept(harness.Suite):
    """In a repository of their own."""

    def setUp(self):
        folder = tempfile.TemporaryDirectory(prefix="relayd-kept-")
        self.addCleanup(folder.cleanup)
        self.folder = folder.name
        self.asked = os.path.join(self.folder, "asked")
        shutil.copytree(os.path.join(TOP, "tools"), self.path("tools"), ignore=shutil.ignore_patterns("__pycache__"))
        self.write("tools/gate_times.txt", "")
        self.write("HANDLES", "Handles allowed: none.\n")
        self.write("crates.txt", "".join(f"{name}: {below}\n" for name, below in CRATES.items()))
        for name in CRATES:
            self.write(f"crates/{name}/src/lib.rt", name)
        self.write("crates/middle/more-edits/wrong.edit", "")
        self.write("bin/rt", RT)
        os.chmod(self.path("bin/rt"), 0o755)

    def path(self, name):
        return os.path.join(self.folder, name)

    def write(self, name, text):
        os.makedirs(os.path.dirname(self.path(name)), exist_ok=True)
        with open(self.path(name), "w", encoding="utf-8") as file:
            file.write(text)

    def tool(self, name, *words):
        """What a tool prints, and its status."""
        paths = os.pathsep.join((self.path("bin"), os.environ["PATH"]))
        ran = subprocess.run([sys.executable, self.path(f"tools/{name}"), *words], env=os.environ | {
            "PATH": paths, "ASKED": self.asked}, stdout=subprocess.PIPE, stderr=subprocess.STDOUT, text=True)
        return ran.stdout, ran.returncode

    def asks(self, *words):
        """What `rt` is asked for by a command of tools/crates.py, which must end well."""
        self.write("asked", "")
        text, status = self.tool("crates.py", *words)
        self.assertEqual(status, 0, text)
        with open(self.asked, encoding="utf-8") as file:
            return sorted(file.read().splitlines())

    def test_a_check_after_a_build(self):
        """It does what the program does not need, and then nothing."""
        self.assertEqual(self.asks("build", "relayd"), ["lib low", "lib middle", "run relayd"])
        self.assertEqual(self.asks("check"), ["check tests"])
        self.assertEqual(self.asks("check") + self.asks("build", "relayd"), [])

    def test_a_build_after_a_check(self):
        """It builds the program, whose libraries are there."""
        self.assertEqual(self.asks("check"), ["check relayd", "check tests", "lib low", "lib middle"])
        self.assertEqual(self.asks("build", "relayd"), ["run relayd"])

    def test_edits(self):
        """They prove their crate, which is not proved again; after a build they prove nothing."""
        self.assertEqual(self.asks("edits", "middle"), ["check middle", "lib low", "must-fail middle"])
        self.assertEqual(self.asks("build", "relayd"), ["lib middle", "run relayd"])
        self.assertEqual(self.asks("edits"), ["must-fail middle"])

    def test_a_change(self):
        """The crate and those above it are looked at again, each over what it kept."""
        self.asks("build", "relayd")
        self.asks("check")
        self.write("crates/middle/src/lib.rt", "other")
        self.assertEqual(self.asks("build", "relayd"), ["lib middle", "run relayd"])
        self.write("crates/tests/src/lib.rt", "other")
        self.assertEqual(self.asks("check"), ["check tests"])

    def test_after_the_gate(self):
        """It leaves of each `out/` the libraries and what was kept, and the program that it has built."""
        self.asks("build", "relayd")
        self.asks("check")
        for name in CRATES:
            for it in os.listdir(self.path(f"crates/{name}/out")):
                if it not in ("incremental", "rlib", "relayd"):
                    os.remove(self.path(f"crates/{name}/out/{it}"))
        self.assertEqual(self.asks("check") + self.asks("build", "relayd"), [])

    def test_the_demo(self):
        """It runs the proved program only if that is built of the sources as they are, and says so."""
        shutil.copy(os.path.join(TOP, "Makefile"), self.folder)
        self.write("examples/demo.sh", 'cat "$1"\n')
        self.asks("build", "relayd")
        self.assertEqual(self.tool("demo.py"), ("relayd== this was bin/relayd, the proved program\n", 0))
        self.write("crates/low/src/lib.rt", "other")
        text, status = self.tool("demo.py")  # this `rt` has no kit that could build the quick program
        self.assertEqual((status, "this was" in text), (1, False), text)

    def test_what_is_published(self):
        """`make install` and `make deb` take the proved program, whatever the tests are to drive."""
        ran = subprocess.run(["make", "-n", "install", "deb", "PROGRAM=bin/relayd-quick"], cwd=TOP, stdout=subprocess.PIPE,
                             stderr=subprocess.STDOUT, text=True, timeout=harness.LIMIT)
        self.assertEqual((ran.returncode, "quick" in ran.stdout), (0, False), ran.stdout)
        self.assertIn("bin/relayd ", ran.stdout)
