"""`make demo`: it runs, and what it shows can be run again by hand."""

import os
import re
import shutil
import subprocess
import tempfile

from fixtures import harness
from fixtures.program import TOP
from fixtures.running import READY

BY_HAND = re.compile(r"^  (bin/relayd run .* --log)\n  (bin/relayd stop --admin \d+ --wait)$", re.MULTILINE)
SHOWN = re.compile(r"^\$ (bin/relayd (?:pass|check|route) .*)\n((?:(?!\$ |== |$).*\n)*)", re.MULTILINE)


class Demo(harness.Suite):
    """In a folder that has the examples and the program alone."""

    def setUp(self):
        if shutil.which("perl") is None:
            self.skipTest("perl is missing")
        folder = tempfile.TemporaryDirectory()
        self.addCleanup(folder.cleanup)
        self.folder = folder.name
        os.symlink(os.path.join(TOP, "examples"), os.path.join(self.folder, "examples"))
        os.mkdir(os.path.join(self.folder, "bin"))
        os.symlink(os.path.abspath(harness.Settings.relayd), os.path.join(self.folder, "bin", "relayd"))

    def sh(self, text):
        """What a command prints on standard output, and then on standard error, and its status."""
        ran = subprocess.run(["sh", "-c", text], cwd=self.folder, stdin=subprocess.DEVNULL, capture_output=True,
                             text=True, timeout=harness.LIMIT)
        return ran.stdout + ran.stderr, ran.returncode

    def test_by_hand(self):
        """The relay that ran is started and stopped by the two commands, and the others print what was shown."""
        text, status = self.sh("sh examples/demo.sh")
        self.assertEqual(status, 0, text)
        self.assertEqual(sorted(os.listdir(self.folder)), ["bin", "examples"])
        for name in ("relay.conf", "relay-rules.conf", "rewrite-rules.conf"):
            with open(os.path.join(self.folder, "bin", "demo", name), encoding="utf-8") as file:
                shown = "".join(f"  {line}" for line in file)
            self.assertIn(f"$ cat bin/demo/{name}\n{shown}", text)
        run, stop = BY_HAND.search(text).groups()
        with subprocess.Popen(f"exec {run}", shell=True, cwd=self.folder, stdout=subprocess.PIPE,
                              stderr=subprocess.DEVNULL, bufsize=0) as child:
            try:
                self.assertEqual(child.stdout.readline(), READY)
                self.assertEqual(self.sh(stop), ("stopping\n", 0))
                self.assertEqual((child.stdout.read(), child.wait(harness.LIMIT)), (b"settled\n", 0))
            finally:
                child.kill()
        shown = SHOWN.findall(text)
        self.assertEqual(len(shown), 5)
        for command, prints in shown:
            with self.subTest():
                got, status = self.sh(f"{command} 2>notes || echo '(status '$?')'; cat notes")
                self.assertEqual((prints, 0), (got, status), command)
