"""The image of `packaging/Containerfile`: what is in it, and how a relay runs there. podman keeps all in a folder."""

import contextlib
import json
import os
import re
import shlex
import shutil
import subprocess
import tempfile
import time

from fixtures import harness
from fixtures.program import TOP
from fixtures.stores import until

IMAGE = os.path.join(TOP, "packaging", "image.sh")
PROVED = os.path.join(TOP, "crates", "relayd", "out", "relayd")
NAME = "localhost/relayd:trial"
MOST_BYTES = 30_000_000
RUNTIMES = ((), ("--runtime", "runc"))  # crun does not work below each kernel's control groups
# What a container of podman may have by default is more than some machines let root have.
LIMITS = ("--ulimit", "nofile=4096:4096", "--ulimit", "nproc=4096:4096")
CONFIG = """[relay]
DESTINATIONS = localhost:2103:a{more}
RELAY_METHOD = consistent-hashing
USE_FLOW_CONTROL = false
DESTINATION_PROTOCOL = line
LINE_RECEIVER_PORT = 2003
PICKLE_RECEIVER_PORT = 2004
"""

PAGE = os.path.join(TOP, "docs", "CONTAINERS.md")
ALONE = ["unshare", "--net", "sh", "-c"]  # with a loopback interface that only the page's commands use


def commands_of_page():
    """The commands of the page after those that build the image, each with its lines."""
    with open(PAGE, encoding="utf-8") as file:
        text = file.read().partition("## Run it")[2]
    lines = "\n".join(line[4:] for line in text.splitlines() if line.startswith("    "))
    found = re.findall(r"(?ms)^(?:cat > .*?^END|(?:mkdir|podman|curl|echo)\b.*?[^\\])$", lines)
    return [it.replace(":VERSION", ":trial") for it in found]


def needs(*commands):
    """Skips all cases where a command is missing."""
    for command in commands:
        if shutil.which(command) is None:
            raise harness.unittest.SkipTest(f"{command} is missing")


class Container(harness.Suite):
    """Containers have a loopback interface of their own, and nothing else of a network."""

    @classmethod
    def setUpClass(cls):
        needs("podman", "strip", "busybox")
        cls.folder = tempfile.mkdtemp(prefix="relayd-container-")
        cls.addClassCleanup(shutil.rmtree, cls.folder, ignore_errors=True)
        at = [f"{cls.folder}/{name}" for name in ("root", "run")]
        cls.podman = ["podman", "--root", at[0], "--runroot", at[1], "--storage-driver", "vfs"]
        cls.made(["--trial", harness.Settings.relayd, *cls.podman])
        cls.addClassCleanup(cls.ran, "rm", "--all", "--force")
        tries = [cls.ran(*runtime, "run", "--rm", *LIMITS, "--network=none", "--entrypoint", "relayd", NAME, "--version")
                 for runtime in RUNTIMES]
        good = [runtime for runtime, tried in zip(RUNTIMES, tries) if tried.returncode == 0]
        if not good:
            raise harness.unittest.SkipTest(f"podman runs no container here: {tries[0].stderr.strip()}")
        cls.podman += good[0]

    @classmethod
    def made(cls, words):
        """Builds an image, which must succeed, and gives its name."""
        ran = subprocess.run([IMAGE, *words], stdout=subprocess.PIPE, stderr=subprocess.PIPE, text=True, timeout=harness.LIMIT)
        if ran.returncode != 0:
            raise AssertionError(ran.stderr)
        return ran.stdout.strip()

    @classmethod
    def ran(cls, *words):
        """A command of podman that was run."""
        return subprocess.run([*cls.podman, *words], stdin=subprocess.DEVNULL, stdout=subprocess.PIPE,
                              stderr=subprocess.PIPE, text=True, timeout=harness.LIMIT)

    def done(self, *words):
        """What a command of podman prints, which must succeed."""
        ran = self.ran(*words)
        self.assertEqual(ran.returncode, 0, ran.stderr)
        return ran.stdout.strip()

    def configured(self, text=CONFIG.format(more="")):
        """A folder with this configuration."""
        folder = tempfile.mkdtemp(dir=self.folder)
        for path in (self.folder, folder):
            os.chmod(path, 0o755)
        self.configure(folder, text)
        return folder

    def configure(self, folder, text):
        """Writes the configuration of such a folder."""
        with open(os.path.join(folder, "relay.conf"), "w", encoding="ascii") as file:
            file.write(text)

    @contextlib.contextmanager
    def relay(self, name, folder, *options):
        """A relay that runs with its root to be read only; at the end of the `with` it is gone."""
        self.done("run", "--detach", "--name", name, *LIMITS, "--network=none", "--read-only",
                  "--volume", f"{folder}:/etc/relayd:ro", *options, NAME)
        try:
            self.assertTrue(until(lambda: "ready" in self.logs(name), harness.LIMIT), self.logs(name))
            yield
        finally:
            self.ran("rm", "--force", name)

    def logs(self, name):
        """What a container has written to both streams."""
        ran = self.ran("logs", name)
        return ran.stdout + ran.stderr

    def stopped(self, name):
        """Stops a container in time, and gives its status."""
        began = time.monotonic()
        self.done("stop", "--time", "100", name)
        self.assertLess(time.monotonic() - began, 60)
        return int(self.done("inspect", "--format", "{{.State.ExitCode}}", name))

    def test_what_the_image_says(self):
        found, = json.loads(self.done("image", "inspect", NAME))
        self.assertLessEqual(found["Size"], MOST_BYTES)
        config = found["Config"]
        version = harness.run(("--version",)).out.decode().split()[1]
        labels = {name.rpartition(".")[2]: value for name, value in config["Labels"].items()}
        self.assertEqual((labels["version"], labels["licenses"]), (f"{version}-trial", "Apache-2.0"))
        self.assertEqual((config["User"], config["StopSignal"], config["Entrypoint"]),
                         ("65532:65532", "SIGTERM", ["/usr/bin/relayd-supervised"]))
        self.assertEqual(set(config["Volumes"]), {"/etc/relayd", "/var/lib/relayd"})
        self.assertIn("GLIBC_TUNABLES=glibc.malloc.tcache_count=127", config["Env"])
        self.assertIn("http://127.0.0.1:8080/healthz", found["Healthcheck"]["Test"])

    def test_two_builds(self):
        """They have the same layers, to the byte."""
        first, = json.loads(self.done("image", "inspect", NAME))
        self.made(["--trial", harness.Settings.relayd, *self.podman[:7]])
        second, = json.loads(self.done("image", "inspect", NAME))
        self.assertEqual(first["RootFS"], second["RootFS"])

    def test_a_program_that_is_not_proved_is_refused(self):
        """Also one that differs from the proved one in a byte alone."""
        program = os.path.join(self.folder, "relayd")
        shutil.copy(harness.Settings.relayd, program)
        with open(program, "ab") as file:
            file.write(b"\0")
        ran = subprocess.run([IMAGE, program, *self.podman], stdout=subprocess.PIPE, stderr=subprocess.PIPE, text=True,
                             timeout=harness.LIMIT)
        self.assertEqual((ran.returncode, ran.stdout), (1, ""))
        self.assertIn("is not the program that was proved", ran.stderr)

    def test_a_relay(self):
        """It takes lines, is healthy, reads its files again, and keeps what it did not send on a volume."""
        folder = self.configured()
        with self.relay("first", folder, "--volume", "spool:/var/lib/relayd"):
            self.done("exec", "first", "sh", "-c", "printf 'a 1 1\\nb 2 2\\n' | nc -w 1 127.0.0.1 2003")
            report = "destination localhost:2103:a queued 2 offered 2 kept 2 dropped 0 taken 0"
            self.assertTrue(until(lambda: self.done("exec", "first", "relayd", "report", "--admin", "2015") == report,
                                  harness.LIMIT), self.logs("first"))
            self.done("healthcheck", "run", "first")
            self.assertIn("relayd_destination_queued", self.done("exec", "first", "wget", "-q", "-O", "-", "http://127.0.0.1:8080/metrics"))
            self.configure(folder, CONFIG.format(more=", 127.0.0.1:2203:b"))
            self.done("kill", "--signal", "HUP", "first")
            self.assertTrue(until(lambda: "relay reloaded: destination 127.0.0.1:2203:b added" in self.logs("first"),
                                  harness.LIMIT), self.logs("first"))
            self.assertEqual(self.stopped("first"), 0)
            self.assertIn("settled", self.logs("first"))
        self.addCleanup(self.ran, "volume", "rm", "--force", "spool")
        with self.relay("second", folder, "--volume", "spool:/var/lib/relayd", "--env", "RELAYD_WATCH_SECONDS=1"):
            self.done("exec", "--detach", "second", "sh", "-c", "sleep 1000 | nc -l -p 2103 >/tmp/got")  # a store sends no end
            self.assertTrue(until(lambda: self.ran("exec", "second", "cat", "/tmp/got").stdout == "a 1 1\nb 2 2\n", harness.LIMIT),
                            self.logs("second"))
            self.configure(folder, CONFIG.format(more=""))
            self.assertTrue(until(lambda: "127.0.0.1:2203:b gone" in self.logs("second"), harness.LIMIT), self.logs("second"))
            self.assertEqual(self.stopped("second"), 0)

    def test_a_faulty_configuration(self):
        """The status is that of the relay, and the log has the fault and its cure."""
        folder = self.configured("[relay]\n")
        ran = self.ran("run", "--rm", *LIMITS, "--network=none", "--volume", f"{folder}:/etc/relayd:ro", NAME)
        self.assertEqual(ran.returncode, 1)
        self.assertIn("relayd: config: DESTINATIONS: Missing", ran.stderr)
        self.assertIn("cure:", ran.stderr)

    def test_the_page(self):
        """All that the page has one type, from the first line to the last, in one folder."""
        if subprocess.run([*ALONE, "ip link set lo up"], stderr=subprocess.DEVNULL).returncode != 0:
            self.skipTest("no network of its own can be made here")
        folder = tempfile.mkdtemp(dir=self.folder)
        os.chmod(folder, 0o755)
        wrapper = os.path.join(folder, "podman")
        with open(wrapper, "w", encoding="utf-8") as file:
            file.write(f"""#!/bin/sh
if [ "$1" = run ]; then shift; set -- run {shlex.join(LIMITS)} "$@"; fi
exec {shlex.join([shutil.which("podman"), *self.podman[1:]])} "$@"
""")
        os.chmod(wrapper, 0o755)
        # What is not ready yet is asked again.
        again = "for turn in $(seq 100); do if {0}\nthen break; fi; sleep 0.5; done"
        commands = commands_of_page()
        script = "\n".join(it if it.startswith(("cat", "mkdir", "podman run", "podman stop")) else again.format(it) for it in commands)
        self.addCleanup(self.ran, "rm", "--force", "relayd")
        ran = subprocess.run([*ALONE, f"set -e; ip link set lo up; {script}"], cwd=folder, stdin=subprocess.DEVNULL,
                             stdout=subprocess.PIPE, stderr=subprocess.PIPE, text=True, timeout=harness.LIMIT,
                             env=os.environ | {"PATH": f"{folder}{os.pathsep}{os.environ['PATH']}"})
        self.assertEqual(ran.returncode, 0, ran.stderr)
        for said in ("healthy\n", "destination 127.0.0.1:2203:b queued", "reloaded: "):
            self.assertIn(said, ran.stdout, ran.stderr)
        self.assertEqual(len(commands), 11, commands)
