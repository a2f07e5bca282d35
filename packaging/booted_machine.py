"""The booted part of clean_machine.py: the service of the package under a systemd that is the first process.

`boot` boots the Debian of a folder in a container of systemd-nspawn (Debian's package systemd-container), with a
network of its own that has a loopback alone; `NotBooted` says why it could not be. `serves` and `comes_back` look at
the service there, with the words that docs/OPERATING.md has for it.
"""

import contextlib
import glob
import os
import re
import shutil
import signal
import subprocess
import tempfile
import time

LIMIT = 60  # seconds for a boot, and for what is waited for
NSPAWN = ["setpriv", "--pdeathsig=TERM",  # shuts the machine down where this program is killed
          "systemd-nspawn", "--quiet", "--console=pipe", "--register=no", "--private-network", "--link-journal=no"]
NOISE = "Attempted to remove disk file system"
DYNAMIC_USERS = range(61184, 65520)  # the numbers that systemd gives to users of DynamicUser
STORES = {"a": 2103, "b": 2203}  # as in the examples; nothing listens for the third
LINES = "servers.web1.cpu 1 1700000000\nstats.counters.hits 2 1700000001\n"


class NotBooted(Exception):
    """Why systemd could not be booted."""


def children(process):
    """The numbers of its children."""
    with open(f"/proc/{process}/task/{process}/children", encoding="ascii") as file:
        return file.read().split()


def first_process(nspawn, folder):
    """The first process of a container, once it is in its folder and has process numbers of its own."""
    for child in children(nspawn):
        own = os.readlink(f"/proc/{child}/ns/pid") != os.readlink("/proc/self/ns/pid")
        if own and os.path.samefile(f"/proc/{child}/root", folder):
            return child
    return None


def cgroups():
    """The cgroups of containers that run in no unit: systemd-nspawn leaves them behind."""
    return {path for name in ("payload", "supervisor")
            for path in glob.glob(f"/sys/fs/cgroup/**/{name}/", recursive=True)}


def last_words(console):
    """The last line of a machine's console, less one with which systemd-nspawn may end, that says nothing."""
    console.seek(0)
    lines = console.read().decode(errors="replace").split("\n")
    return next((line.strip() for line in reversed(lines) if line.strip() and not line.startswith(NOISE)), "")


def up(container, folder, console):
    """Waits until systemd has started all, and gives the words that enter the machine."""
    end = time.monotonic() + LIMIT
    while time.monotonic() < end:
        if container.poll() is not None:
            raise NotBooted(last_words(console) or f"systemd-nspawn ended with status {container.returncode}")
        with contextlib.suppress(OSError, subprocess.TimeoutExpired):
            if child := first_process(container.pid, folder):
                enter = ["nsenter", "-t", child, "-a"]
                ran = subprocess.run([*enter, "systemctl", "is-system-running"], stdout=subprocess.PIPE,
                                     stderr=subprocess.DEVNULL, timeout=LIMIT, text=True)
                if ran.stdout.strip() in ("running", "degraded"):
                    return enter
        time.sleep(0.1)
    raise NotBooted(f"it was not up within {LIMIT} s")


def shut_down(container):
    """Ends a machine, by force where it does not shut down: it would go on where systemd-nspawn alone is killed."""
    container.terminate()
    try:
        container.wait(LIMIT)
    except subprocess.TimeoutExpired:
        for child in children(container.pid):
            os.kill(int(child), signal.SIGKILL)
        container.kill()
        container.wait()


@contextlib.contextmanager
def boot(folder):
    """Boots a folder, gives the words that a command begins with to be run there, and shuts it down."""
    if shutil.which("systemd-nspawn") is None:
        raise NotBooted("systemd-nspawn is missing: the Debian package systemd-container has it")
    if os.path.ismount(os.path.join(folder, "proc")):  # systemd-nspawn would leave it there
        raise NotBooted(f"{folder}/proc is mounted: the machine would have the processes and variables of this one")
    unit = [] if os.path.isdir("/run/systemd/system") else ["--keep-unit"]  # no systemd here would make one
    env = {**os.environ, "SYSTEMD_NSPAWN_UNIFIED_HIERARCHY": "1"}
    before = cgroups()
    with tempfile.TemporaryFile() as console:
        container = subprocess.Popen([*NSPAWN, *unit, "-D", folder, "-b"], env=env, stdin=subprocess.DEVNULL,
                                     stdout=console, stderr=subprocess.STDOUT)
        try:
            enter = up(container, folder, console)
            yield enter
        finally:
            shut_down(container)
            for path in cgroups() - before:
                for place, _, _ in os.walk(path, topdown=False):
                    with contextlib.suppress(OSError):
                        os.rmdir(place)


class Service:
    """The service on a machine that is booted."""

    def __init__(self, machine, checks):
        self.machine = machine
        self.checks = checks

    def systemctl(self, *words):
        """The status of a command of systemctl."""
        return self.machine.run("systemctl", *words)[0]

    def state(self, *names):
        """What systemd says of it."""
        text = self.machine.run("systemctl", "show", "relayd", "-p", ",".join(names))[1]
        found = dict(line.split("=", 1) for line in text.splitlines() if "=" in line)
        return tuple(found.get(name) for name in names)

    def lines(self, *words):
        """What it has written to the journal, in its last run or as the words say."""
        self.machine.run("journalctl", "--sync")
        words = words or [f"_SYSTEMD_INVOCATION_ID={self.state('InvocationID')[0]}"]
        return self.machine.run("journalctl", "-q", "-o", "cat", "-t", "relayd", *words)[1].splitlines()

    def report(self):
        """How many lines it answers `report` with, as the operator asks."""
        return self.shell("relayd report --admin 2015 --admin-key /etc/relayd/admin.key").count("destination ")

    def shell(self, text):
        """What a line of a shell prints."""
        return self.machine.run("/bin/sh", "-c", text)[1]

    def until(self, condition):
        """Waits until a condition holds, and says whether it does."""
        end = time.monotonic() + LIMIT
        while not condition() and time.monotonic() < end:
            time.sleep(0.1)
        return condition()

    def begin(self):
        """Starts it anew, whatever was before: systemd refuses a sixth start in ten seconds else."""
        self.systemctl("reset-failed", "relayd")
        return self.systemctl("restart", "relayd")

    def ended(self, what):
        """It has ended by itself or was stopped, it settled before that, and systemd sees no failure."""
        seen = (*self.state("ActiveState", "Result", "ExecMainCode", "ExecMainStatus"), *self.lines()[-1:])
        self.checks.that(what, seen == ("inactive", "success", "1", "0", "settled"), seen)


def has_its_rights_and_limits(service, checks):
    """The user and the limits that its process has."""
    process = service.state("MainPID")[0]
    status = service.shell(f"cat /proc/{process}/status")
    user = re.search(r"^Uid:\t(\d+)\t\1\t\1\t\1$", status, re.MULTILINE)
    checks.that("it runs as a user that systemd has made for it", user and int(user[1]) in DYNAMIC_USERS, status)
    checks.that("it has no capability, and can gain none", "CapEff:\t0000000000000000\n" in status and
                "NoNewPrivs:\t1\n" in status, status)
    limits = service.shell(f"cat /proc/{process}/limits")
    descriptors = re.search(r"^Max open files +(\d+) +(\d+) ", limits, re.MULTILINE)
    checks.that("it may have 8192 descriptors", descriptors and descriptors.groups() == ("8192", "8192"), limits)
    limits = service.state("LimitNOFILE", "MemoryMax", "TimeoutStopUSec", "Restart")
    checks.that("systemd has its limits", limits == ("8192", str(2 << 30), "45s", "always"), limits)


def relays(service, checks):
    """What comes to its port goes to its stores, and the journal has the lines of its log."""
    for name, port in STORES.items():
        service.shell(f"systemd-run -q -p StandardOutput=file:/root/{name} nc -lk 127.0.0.1 {port}")
    wanted = {f"destination 127.0.0.1:{port}:{name} connected" for name, port in STORES.items()}
    checks.that("the journal has the lines of --log", service.until(lambda: wanted <= set(service.lines())),
                service.lines())
    service.shell(f"printf '{LINES}' | nc -N 127.0.0.1 2013")
    came = service.until(lambda: service.shell("cat /root/a /root/b") == LINES)
    checks.that("lines go to their stores", came, service.shell("cat /root/a /root/b"))


def reports_its_metrics(service, checks):
    """The timer is off until it is enabled; then the counts come to the relay as datapoints, and go to their store."""
    checks.that("the timer of its metrics is neither enabled nor started",
                service.systemctl("is-enabled", "relayd-metrics.timer") != 0 and
                service.systemctl("is-active", "relayd-metrics.timer") != 0)
    checks.that("its metrics are sent", service.systemctl("start", "relayd-metrics") == 0 and
                service.systemctl("start", "relayd-metrics") == 0,
                service.shell("journalctl -q -o cat -u relayd-metrics"))
    name = re.escape("127_0_0_1:2103:a")
    line = re.compile(rf"^carbon\.relays\.[^. ]+\.destinations\.{name}\.(\w+) \d+ \d+$", re.MULTILINE)
    wanted = {"attemptedRelays", "sent", "fullQueueDrops", "queued", "relayMaxQueueLength"}
    came = service.until(lambda: wanted <= set(line.findall(service.shell("cat /root/a /root/b"))))
    checks.that("they have carbon's names, and reach a store", came, service.shell("cat /root/a /root/b"))
    checks.that("the timer is enabled", service.systemctl("enable", "--now", "relayd-metrics.timer") == 0 and
                service.systemctl("is-active", "relayd-metrics.timer") == 0)
    service.systemctl("stop", "relayd")
    checks.that("without a relay its metrics are no failure", service.systemctl("start", "relayd-metrics") == 0,
                service.shell("journalctl -q -o cat -u relayd-metrics"))
    service.begin()


INSTANCES = {"a": (2115, 2113, "--rewrite /etc/relayd/a/rewrite-rules.conf"),
             "b": (2215, 2213, "--rules /etc/relayd/b/relay-rules.conf --rewrite /etc/relayd/b/rewrite-rules.conf")}


def runs_instances(service, checks):
    """Two instances with files, ports and users of their own run beside each other: one has a ring, and no relay rules."""
    for name, (admin, port, files) in INSTANCES.items():
        service.shell(f"mkdir /etc/relayd/{name} && cd /etc/relayd && cp rewrite-rules.conf relay-rules.conf {name}/ && "
                      f"sed 's/^LINE_RECEIVER_PORT.*/LINE_RECEIVER_PORT = {port}/; s/^PICKLE_RECEIVER_PORT.*/PICKLE_RECEIVER_PORT = 0/' "
                      f"relay.conf >{name}/relay.conf && printf 'ADMIN={admin}\nSTATUS=--status {port + 3}\nTO=127.0.0.1:{port + 1}\nFILES={files}\n' >{name}/environment")
        service.shell(f"systemd-run -q -p StandardOutput=file:/root/metrics-{name} nc -lk 127.0.0.1 {port + 1}")
    service.shell("sed -i s/^RELAY_METHOD.*/RELAY_METHOD=consistent-hashing/ /etc/relayd/a/relay.conf; rm /etc/relayd/a/relay-rules.conf")
    units = [f"relayd@{name}" for name in INSTANCES]
    checks.that("two instances are started", service.systemctl("start", *units) == 0,
                service.shell("journalctl -q -o cat -u 'relayd@*' | tail -n 8"))
    reports = [service.shell(f"relayd report --admin {admin} --admin-key /etc/relayd/admin.key").count("destination ") for admin, _, _ in INSTANCES.values()]
    checks.that("each answers at its own port, beside the relay without an instance", reports == [3, 3] and service.report() == 3,
                reports)
    users = {service.shell(f"stat -c %u /proc/$(systemctl show -p MainPID --value {unit})").strip() for unit in units}
    checks.that("each has a user of its own", len(users) == 2 and "" not in users, users)
    for name in INSTANCES:
        sent = [service.systemctl("start", f"relayd-metrics@{name}") for _ in range(2)]
        lines = [re.compile(rf"^carbon\.relays\.[^. ]+-{name}\.{row} \d+ \d+$", re.MULTILINE)
                 for row in (r"destinations\.127_0_0_1:\d+:\w\.\w+", r"receivers\.line\.open")]
        came = service.until(lambda lines=lines, name=name: all(
            line.search(service.shell(f"cat /root/metrics-{name}")) for line in lines))
        checks.that(f"the metrics of {name} have its name, and those of its status page come too", sent == [0, 0] and came,
                    service.shell(f"journalctl -q -o cat -u relayd-metrics@{name}"))
    checks.that("they are stopped", service.systemctl("stop", *units) == 0)
    ends = [service.shell(f"journalctl -q -o cat -t relayd -u {unit}").splitlines()[-1:] for unit in units]
    checks.that("each has settled", ends == [["settled"], ["settled"]], ends)
    service.shell("rm -r /etc/relayd/a /etc/relayd/b")


def stops(service, checks):
    """By systemctl it settles, at once after its start too; stopped at its admin port it starts again."""
    checks.that("systemctl stops it", service.systemctl("stop", "relayd") == 0)
    service.ended("it has settled then")
    checks.that("it can be stopped as soon as it is started", service.begin() == 0 and
                service.systemctl("stop", "relayd") == 0)
    service.ended("it has settled then too")
    checks.that("it is started again", service.begin() == 0)
    before = service.state("MainPID")
    service.shell("relayd stop --admin 2015 --admin-key /etc/relayd/admin.key")
    # For a moment it has no process, and systemd still says that it runs.
    back = service.until(lambda: service.state("SubState") == ("running",) and service.state("MainPID") not in (before, ("0",)))
    checks.that("stopped at its admin port it is started again", back and service.report() == 3, service.state("SubState", "MainPID"))


def reloads(service, checks):
    """With good files the same process goes on by them, with what it had queued; with a fault it goes on as it was."""
    service.systemctl("stop", "run-*.service")  # the stores
    service.begin()
    before = service.state("MainPID")
    service.shell("seq 1 50 | sed 's/.*/kept.& & 1700000000/' | nc -N 127.0.0.1 2013")
    checks.that("systemctl reloads it", service.systemctl("reload", "relayd") == 0)
    checks.that("the same relay runs", service.state("SubState", "MainPID") == ("running", *before) and service.report() == 3,
                service.state("SubState", "MainPID"))
    checks.that("the journal says so", any(line.startswith("relay reloaded:") for line in service.lines("-b")),
                service.lines("-b")[-5:])
    for name, port in STORES.items():
        service.shell(f"systemd-run -q -p StandardOutput=append:/root/{name} nc -lk 127.0.0.1 {port}")
    came = service.until(lambda: service.shell("cat /root/a /root/b | grep -c ^kept").strip() == "50")
    checks.that("it sends what was queued", came, service.shell("cat /root/a /root/b"))
    service.shell("cp /etc/relayd/relay.conf /root && sed -i s/^DESTINATIONS/#/ /etc/relayd/relay.conf")
    checks.that("a fault is no reload", service.systemctl("reload", "relayd") != 0 and service.state("MainPID") == before)
    service.shell("cp /root/relay.conf /etc/relayd/relay.conf")
    service.systemctl("stop", "relayd")


def stops_before_it_is_ready(service, checks):
    """A stop while `systemctl start` still waits for it is no failure."""
    service.shell("mkdir -p /run/systemd/system/relayd.service.d && printf '[Service]\\nExecStart=\\n"
                  "ExecStart=/bin/sleep 60\\n' >/run/systemd/system/relayd.service.d/slow.conf; systemctl daemon-reload")
    service.systemctl("reset-failed", "relayd")
    service.systemctl("start", "--no-block", "relayd")
    waits = service.until(lambda: service.state("SubState") == ("start-post",))
    stopped = service.systemctl("stop", "relayd") == 0
    seen = service.state("ActiveState", "Result")
    checks.that("stopped before it is ready it has not failed", waits and stopped and seen == ("inactive", "success"),
                (waits, stopped, seen))
    service.shell("rm -r /run/systemd/system/relayd.service.d; systemctl daemon-reload")


def is_restarted(service, checks):
    """After a failure, once."""
    started = service.begin() == 0
    before = service.state("MainPID")
    service.systemctl("kill", "--kill-who=main", "--signal=KILL", "relayd")
    back = service.until(lambda: service.state("NRestarts", "SubState") == ("1", "running"))
    checks.that("killed it is restarted", started and back and service.state("MainPID") != before and
                service.report() == 3, service.state("NRestarts", "SubState", "MainPID"))
    service.systemctl("stop", "relayd")


def fails(service, checks, what, fault):
    """It cannot be started, and the journal says why."""
    checks.that(f"{what}: it is not started", service.begin() != 0)
    checks.that(f"{what}: the journal has the fault", service.until(lambda: fault in service.lines("-b")),
                service.lines("-b")[-5:])


def refuses(service, checks):
    """A configuration with a fault, and a port that another has."""
    service.shell("cp /etc/relayd/relay.conf /root && sed -i s/^DESTINATIONS/#/ /etc/relayd/relay.conf")
    fails(service, checks, "a configuration with a fault", "relayd: config: DESTINATIONS: Missing")
    lines = service.lines("-b")
    checks.that("the journal has its cure", any("cure" in line for line in lines), lines[-5:])
    service.shell("cp /root/relay.conf /etc/relayd/relay.conf")
    service.shell("systemd-run -q --unit=taker nc -lk 0.0.0.0 2013")
    fails(service, checks, "a port that another has", "relayd: listen: line")
    lines = service.lines("-b")
    checks.that("the journal has the address and the reason", any("cannot listen on 0.0.0.0:2013: Address" in line for line in lines),
                lines[-5:])
    service.systemctl("stop", "taker")


def serves(machine, checks, package, newer):
    """The package is installed where systemd runs, and its service started, used, stopped and upgraded."""
    service = Service(machine, checks)
    installed = machine.install(package)
    checks.that("it is installed where systemd runs", installed[0] == 0, installed)
    checks.that("it is neither enabled nor started", service.systemctl("is-enabled", "relayd") != 0 and
                service.systemctl("is-active", "relayd") != 0)
    checks.that("systemctl enables and starts it", service.systemctl("enable", "--now", "relayd") == 0,
                service.lines())
    checks.that("it answers as soon as it is started", service.report() == 3)
    has_its_rights_and_limits(service, checks)
    relays(service, checks)
    reports_its_metrics(service, checks)
    runs_instances(service, checks)
    stops(service, checks)
    reloads(service, checks)
    stops_before_it_is_ready(service, checks)
    is_restarted(service, checks)
    refuses(service, checks)
    checks.that("it starts again once the faults are mended", service.begin() == 0, service.lines())
    before = service.state("MainPID")
    checks.that("an upgrade leaves it as it runs", machine.install(newer)[0] == 0 and
                service.state("MainPID") == before and service.report() == 3, before)


def comes_back(machine, checks):
    """After `serves` and another boot."""
    service = Service(machine, checks)
    checks.that("it settled when the machine was shut down", service.lines("-b", "-1")[-1:] == ["settled"],
                service.lines("-b", "-1")[-5:])
    checks.that("it is started at boot", service.state("SubState") == ("running",) and service.report() == 3,
                service.state("ActiveState", "SubState"))
    process = service.state("MainPID")[0]
    checks.that("removed it is stopped", machine.run("apt-get", "purge", "-y", "relayd")[0] == 0 and
                service.lines("-b")[-1:] == ["settled"] and service.shell(f"ls -d /proc/{process} 2>/dev/null") == "",
                service.lines("-b")[-5:])
    checks.that("purged systemd knows nothing of it", service.state("LoadState") == ("not-found",),
                service.state("LoadState"))
