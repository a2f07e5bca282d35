#!/usr/bin/env python3
"""Installs the Debian package of relayd on a clean Debian, looks at what it brought, and purges it again; and does so
with systemd booted there, to try its service.

    python3 packaging/clean_machine.py PACKAGE [--suite SUITE] [--machine FOLDER]

SUITE is a Debian such as bookworm, bullseye or trixie. FOLDER has such a Debian that `debootstrap` has made; without it
one is made below the folder for temporary files, and removed at the end. On a Debian whose C library is too old, the
package must be refused. It has to be run as root, with Debian's debootstrap, and takes two or three
minutes; the ports 2013, 2014 and 2015 have to be free. Where systemd cannot be booted, as without Debian's
systemd-container, a line says so, and the other checks count. A line is printed for each check; the last one is
`N passed, M failed`.
"""

import argparse
import contextlib
import os
import re
import shutil
import socket
import subprocess
import sys
import tempfile
import threading
import time

sys.dont_write_bytecode = True  # the folder stays as it was checked out

import booted_machine

OLDEST_LIBRARY = (2, 34)  # of glibc, as the package says
OTHERS = "systemd,man-db,bash-completion,netcat-openbsd,python3"  # what is asked here, beside the smallest Debian
LIMIT = 60
CONFIGURATION = ["/etc/relayd/relay.conf", "/etc/relayd/relay-rules.conf", "/etc/relayd/rewrite-rules.conf"]
UNIT = "/lib/systemd/system/relayd.service"
METRICS = ["/lib/systemd/system/relayd-metrics.service", "/lib/systemd/system/relayd-metrics.timer"]
OF_INSTANCES = [f"/lib/systemd/system/{name}" for name in ("relayd@.service", "relayd-metrics@.service", "relayd-metrics@.timer")]
LINK = "/etc/systemd/system/multi-user.target.wants/relayd.service"
MAN_PAGES = ["/usr/share/man/man1/relayd.1.gz", "/usr/share/man/man1/relayd-supervised.1.gz", "/usr/share/man/man5/relay.conf.5.gz"]
FILES = [*CONFIGURATION, UNIT, *METRICS, *OF_INSTANCES, "/usr/share/relayd/report_to_graphite.py", "/usr/bin/relayd", "/usr/bin/relayd-supervised",
         "/usr/share/bash-completion/completions/relayd", "/usr/share/bash-completion/completions/relayd-supervised",
         "/usr/share/zsh/vendor-completions/_relayd", "/usr/share/fish/vendor_completions.d/relayd.fish",
         "/usr/share/fish/vendor_completions.d/relayd-supervised.fish", *MAN_PAGES]
DOC = "/usr/share/doc/relayd/"
STATE = "/var/lib/relayd"  # as systemd names it by StateDirectory
NOBODY = 65534
SPOKEN_OF = ["docs/FAULTS.md", "docs/CONFIGURATION.md", "docs/ROUTING.md", "docs/REWRITING.md", "examples/haproxy.cfg",
             "examples/two-relays/ring.conf", "examples/compare_with_carbon.py"]
MOST_EXPOSED = 20  # tenths, of 100, by `systemd-analyze security`
NOT_OURS = ("/root", "/var/log", "/var/cache")
ADMIN = ("127.0.0.1", 2015)  # as in the unit
KEY = "/etc/relayd/admin.key"
GROUP = "relayd-admin"       # whose members may read it
# The last lines of its log, and its closing line.
SETTLED = "relay stopped, 0 datapoints spooled\nrelay stopped, 0 datapoints not sent\nsettled\n"


class Machine:
    """A Debian in a folder, with the words that a command begins with to be run there."""

    def __init__(self, folder, enter=()):
        self.folder = folder
        self.enter = enter or ["chroot", folder]

    def path(self, name):
        """Where a path of the machine is."""
        return os.path.join(self.folder, name.lstrip("/"))

    def run(self, *words, **variables):
        """A command on it: its status, and what it prints."""
        env = {"PATH": "/usr/sbin:/usr/bin:/sbin:/bin", "DEBIAN_FRONTEND": "noninteractive", "LC_ALL": "C.UTF-8",
               **variables}
        try:
            ran = subprocess.run([*self.enter, *words], env=env, stdin=subprocess.DEVNULL,
                                 stdout=subprocess.PIPE, stderr=subprocess.STDOUT, timeout=LIMIT)
        except subprocess.TimeoutExpired:
            return 124, f"it took more than {LIMIT} s"
        return ran.returncode, ran.stdout.decode(errors="replace")

    def install(self, package):
        """Installs a package file, as who has copied it to the machine does."""
        place = shutil.copy(package, self.path("/root"))
        return self.run("apt-get", "install", "-y", "/root/" + os.path.basename(place))

    def files(self):
        """The files that the package has brought."""
        return sorted(path for path in self.run("dpkg", "-L", "relayd")[1].split("\n")
                      if path and not os.path.isdir(self.path(path)))

    def named(self):
        """The paths of files and folders that are named for the package."""
        found = self.run("find", "/", "-xdev", "-name", "*relayd*")[1].split()
        return [path for path in found if not path.startswith(NOT_OURS)]

    def words_of(self, key):
        """What a key of the unit says; a dollar is written twice there."""
        with open(self.path(UNIT), encoding="utf-8") as file:
            found = re.findall(rf"^{key}=(.*)$", file.read(), re.MULTILINE)
        return found[0].replace("$$", "$") if len(found) == 1 else ""

    def variables(self):
        """The variables of the unit's commands: those that it sets, and the folder that systemd makes for its state."""
        with open(self.path(UNIT), encoding="utf-8") as file:
            found = re.findall(r'^Environment="?(\w+)=([^"\n]*)"?$', file.read(), re.MULTILINE)
        return {**dict(found), "STATE_DIRECTORY": STATE}

    def make_state(self):
        """Makes the folder of its state, as systemd does before a start."""
        os.makedirs(self.path(STATE), exist_ok=True)
        os.chown(self.path(STATE), NOBODY, NOBODY)


class Checks:
    """Prints a line for each check, and counts them."""

    def __init__(self):
        self.passed = self.failed = 0

    def that(self, what, holds, seen=""):
        """A check."""
        self.passed, self.failed = self.passed + bool(holds), self.failed + (not holds)
        print(f"{'ok' if holds else 'FAIL'}: {what}" + ("" if holds else f": {seen}"), flush=True)

    def run(self, what, ran, pattern=""):
        """A check of a command that was run: its status is 0 and its output matches all of a pattern."""
        status, text = ran
        self.that(what, status == 0 and re.fullmatch(pattern, text, re.DOTALL), f"status {status}, {text.strip()}")


@contextlib.contextmanager
def machine(folder, suite):
    """The machine of a folder, or a new one."""
    if os.geteuid() != 0:
        sys.exit("clean_machine: only root can make a machine in a folder")
    if folder is not None:
        yield Machine(folder)
        return
    if shutil.which("debootstrap") is None:
        sys.exit("clean_machine: debootstrap is missing: the Debian package debootstrap has it")
    with tempfile.TemporaryDirectory(prefix="relayd-machine-") as folder:
        os.chmod(folder, 0o755)  # for users without rights
        words = ["debootstrap", "--variant=minbase", f"--include={OTHERS}", suite, folder]
        made = subprocess.run(words, stdout=subprocess.PIPE, stderr=subprocess.STDOUT, text=True)
        if made.returncode != 0:
            sys.exit(f"clean_machine: debootstrap could not make a machine:\n{made.stdout[-1000:]}")
        yield Machine(folder)


@contextlib.contextmanager
def processes_of_here(to):
    """A machine that is not booted has the /proc of this one."""
    subprocess.run(["mount", "-t", "proc", "proc", to.path("/proc")], check=True)
    try:
        yield
    finally:
        subprocess.run(["umount", to.path("/proc")])


def newer(package, folder):
    """The same package with a higher version, and with another text of one of its examples."""
    root = os.path.join(folder, "newer")
    subprocess.run(["dpkg-deb", "-R", package, root], check=True)
    control = os.path.join(root, "DEBIAN", "control")
    with open(control, encoding="utf-8") as file:
        text = file.read()
    with open(control, "w", encoding="utf-8") as file:
        file.write(re.sub(r"(?m)^Version: (.*)$", r"Version: \1+1", text))
    with open(root + CONFIGURATION[1], "a", encoding="utf-8") as file:
        file.write("# An example that a later version has changed.\n")
    path = os.path.join(folder, "newer.deb")
    subprocess.run(["dpkg-deb", "--root-owner-group", "--build", root, path], check=True, stdout=subprocess.DEVNULL)
    return path


def library_of(to):
    """The version of a machine's C library."""
    version = to.run("dpkg-query", "--show", "--showformat=${Version}", "libc6")[1]
    return tuple(int(number) for number in re.match(r"(\d+)\.(\d+)", version).groups())


def is_refused(ran, to, checks):
    """A machine whose C library is too old does not take it, and apt says why."""
    needs = "libc6 (>= " + ".".join(map(str, OLDEST_LIBRARY)) + ")"
    checks.that(f"it is refused, since it needs {needs}", ran[0] != 0 and needs in ran[1], ran)
    checks.that("nothing of it is there", to.named() == [], to.named())


def looks_right(to, checks):
    """What the package brought."""
    found = [path for path in to.files() if not path.startswith(DOC)]
    checks.that("it brings these files and no others", found == sorted(FILES), found)
    checks.that("it brings its pages and examples", set(to.files()) >= {DOC + path for path in SPOKEN_OF}, to.files())
    to.make_state()
    checks.run("its configuration has no fault, and nothing is noted of it",
               to.run("/bin/sh", "-c", "relayd check --config /etc/relayd/relay.conf $FILES --longest-name 1024 --explain",
                      **to.variables()), "ok 3 destinations\n")
    for path in CONFIGURATION:
        with open(to.path(path), encoding="utf-8") as file:
            checks.that(f"{path} begins with a comment", file.read(2) == "# ")
    checks.run("systemd finds nothing wrong in the units",
               to.run("systemd-analyze", "verify", "--man=no", UNIT, *METRICS))
    for unit in (UNIT, METRICS[0], *OF_INSTANCES[:2]):
        checks.run(f"{os.path.basename(unit)} is exposed at most {MOST_EXPOSED / 10} of 10",
                   to.run("systemd-analyze", "security", "--offline=true", f"--threshold={MOST_EXPOSED}", unit), ".*")
    checks.that("the unit has a user of its own", to.words_of("DynamicUser") == "yes" and
                to.words_of("User") == "relayd")
    for page in MAN_PAGES:
        checks.run(f"{page} is formatted without a warning",
                   to.run("/bin/sh", "-c", f"man --warnings -l {page} 2>&1 >/dev/null"))
    checks.run("bash completes its commands",
               to.run("bash", "-c", ". /usr/share/bash-completion/bash_completion; _completion_loader relayd; "
                      "COMP_WORDS=(relayd re); COMP_CWORD=1; _relayd; echo $COMPREPLY"), "replay\n")


def pleases_lintian(package, checks):
    """Debian's own check of packages, where it is there."""
    if shutil.which("lintian") is None:
        print("not tried: lintian, which the Debian package lintian has", flush=True)
        return
    with open(package, "rb") as file, tempfile.TemporaryDirectory() as folder:
        os.chmod(folder, 0o755)
        place = os.path.join(folder, os.path.basename(package))
        with open(place, "wb") as copy:
            shutil.copyfileobj(file, copy)
        words = ["setpriv", f"--reuid={NOBODY}", f"--regid={NOBODY}", "--clear-groups", "lintian", "--fail-on", "error", place]
        ran = subprocess.run(words, cwd=folder, stdin=subprocess.DEVNULL, stdout=subprocess.PIPE, stderr=subprocess.STDOUT, text=True)
    checks.that("lintian finds no error in it", ran.returncode == 0, ran.stdout)


def group_of(to, name):
    """The number of a group there."""
    with open(to.path("/etc/group"), encoding="ascii") as file:
        return next(line.split(":")[2] for line in file if line.startswith(name + ":"))


def answer(to, command):
    """What the admin port answers who knows its key."""
    with open(to.path(KEY), "rb") as file:
        key = file.readline()
    with socket.create_connection(ADMIN, LIMIT) as stream:
        stream.sendall(b"key " + key + command + b"\n")
        text = b""
        while more := stream.recv(65536):
            text += more
    return text


def runs_as_its_unit_says(to, checks):
    """The commands of the unit start it, as a user without rights, and stop it."""
    key = os.stat(to.path(KEY))
    checks.that("root and a group of its own may read the key", key.st_mode & 0o777 == 0o640 and key.st_gid == int(group_of(to, GROUP)))
    start = ["chroot", f"--userspec={NOBODY}:{NOBODY}", f"--groups={group_of(to, GROUP)}", to.folder, "/bin/sh", "-c", "exec " + to.words_of("ExecStart")]
    variables = to.variables()
    with subprocess.Popen(start, env={**os.environ, **variables}, stdin=subprocess.DEVNULL, stdout=subprocess.PIPE,
                          stderr=subprocess.STDOUT, text=True) as child:
        try:
            ready = child.stdout.readline()
            checks.that("it starts", ready == "ready\n", ready)
            if ready == "ready\n":
                threading.Thread(target=child.wait, daemon=True).start()  # as systemd does, so that its number goes
                checks.that("it reports", answer(to, b"report").count(b"\n") == 3)
                variables["MAINPID"] = str(child.pid)
                checks.run("its ExecStartPost finds it ready",
                           to.run("/bin/sh", "-c", to.words_of("ExecStartPost"), **variables))
                stop = ["/bin/sh", "-c", to.words_of("ExecStop")]
                checks.run("it stops", to.run(*stop, **variables), "stopping\n")
                ended = child.poll()
                rest = child.stdout.read() if ended is not None else ""
                checks.that("once its ExecStop has ended it has settled", (ended, rest) == (0, SETTLED),
                            (ended, rest))
                checks.run("once it has ended by itself there is nothing to stop", to.run(*stop))
        finally:
            if child.poll() is None:
                child.kill()


def keeps_what_was_changed(to, checks, package):
    """An upgrade leaves the configuration as the operator wrote it."""
    own = "\n# A line of the operator.\n"
    with open(to.path(CONFIGURATION[0]), "a", encoding="utf-8") as file:
        file.write(own)
    with tempfile.TemporaryDirectory() as folder:
        upgraded = to.install(newer(package, folder))
    checks.that("it is upgraded", upgraded[0] == 0, upgraded)
    with open(to.path(CONFIGURATION[0]), encoding="utf-8") as file:
        checks.that("a configuration file that was changed is kept", file.read().endswith(own))
    with open(to.path(CONFIGURATION[1]), encoding="utf-8") as file:
        checks.that("one that was not is the new version's", file.read().endswith("has changed.\n"))


def goes(to, checks):
    """Removed it leaves its configuration, purged nothing."""
    checks.that("the service is enabled", to.run("systemctl", "enable", "relayd")[0] == 0 and
                os.path.islink(to.path(LINK)))
    checks.that("it is removed", to.run("apt-get", "remove", "-y", "relayd")[0] == 0)
    checks.that("its configuration is left", all(os.path.exists(to.path(path)) for path in CONFIGURATION))
    checks.that("it is purged", to.run("apt-get", "purge", "-y", "relayd")[0] == 0)
    checks.that("nothing of it is left", to.named() == [], to.named())


def runs_under_systemd(to, checks, package):
    """The service, where systemd is booted on the machine; where it can't be, that is said."""
    with tempfile.TemporaryDirectory() as folder:
        try:
            with booted_machine.boot(to.folder) as enter:
                booted_machine.serves(Machine(to.folder, enter), checks, package, newer(package, folder))
        except booted_machine.NotBooted as why:
            print(f"not tried: the service under systemd, which could not be booted: {why}", flush=True)
            return
    try:
        with booted_machine.boot(to.folder) as enter:
            booted_machine.comes_back(Machine(to.folder, enter), checks)
    except booted_machine.NotBooted as why:
        checks.that("systemd boots again with the service enabled", False, why)


def main():
    """Installs, looks, upgrades and purges, and does so with systemd."""
    parser = argparse.ArgumentParser(description=__doc__.partition("\n\n")[0])
    parser.add_argument("package", metavar="PACKAGE", type=os.path.abspath)
    parser.add_argument("--suite", default="bookworm", help="the Debian that is made (default: %(default)s)")
    parser.add_argument("--machine", metavar="FOLDER", help="a Debian that was made already")
    words = parser.parse_args()
    package = words.package
    checks, began = Checks(), time.monotonic()
    pleases_lintian(package, checks)
    with machine(words.machine, words.suite) as to:
        with processes_of_here(to):
            installed = to.install(package)
            if library_of(to) < OLDEST_LIBRARY:
                is_refused(installed, to, checks)
            else:
                checks.that("it is installed by apt-get", installed[0] == 0, installed)
            if installed[0] == 0:
                looks_right(to, checks)
                runs_as_its_unit_says(to, checks)
                keeps_what_was_changed(to, checks, package)
                goes(to, checks)
        if installed[0] == 0:
            runs_under_systemd(to, checks, package)
    print(f"{time.monotonic() - began:.0f} s")
    print(f"{checks.passed} passed, {checks.failed} failed")
    return 0 if checks.failed == 0 else 1


if __name__ == "__main__":
    sys.exit(main())
