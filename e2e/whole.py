#!/usr/bin/env python3
"""The whole test: the gate `rt ci`, the end-to-end suite, every growth of memory refused once, the comparisons with
carbon, and runs between real programs.

The last line is `N passed, M failed`, the sum of what these counted; the
status is 0 only where all ended well and M is 0. The programs are those that
the gate has left in `out/` of their crates. The Debian packages that the tests need (`missing_peers`) are installed
where they are missing.
"""

import os
import re
import shutil
import subprocess
import sys

TOP = os.path.dirname(os.path.dirname(os.path.abspath(__file__)))
DEBIAN_PYTHON = "/usr/bin/python3"  # the one that Debian's packages are installed for
SUMMARY = re.compile(r"(\d+) passed, (\d+) failed")
LARGEST_PROOF = 5.5e9  # bytes of memory: what the largest crate takes while it is proved


def counts_of(words):
    """Runs a command, shows what it prints, and gives its counts of passed and failed."""
    print("+", *words, flush=True)
    passed, failed = 0, 0
    with subprocess.Popen(words, cwd=TOP, stdout=subprocess.PIPE, text=True, errors="replace") as run:
        for line in run.stdout:
            print(line, end="", flush=True)
            if summary := SUMMARY.fullmatch(line.strip()):
                passed, failed = int(summary[1]), int(summary[2])
    if run.returncode != 0 or passed == 0:
        failed = max(failed, 1)
    return passed, failed


def gate():
    """The gate's command. RT_JOBS is how many tasks `rt` runs at a time: one for each processor, as far as there is memory
    for the largest in each. Without it, `rt` reserves more than twice what a crate takes, and leaves processors idle."""
    memory = os.sysconf("SC_PAGE_SIZE") * os.sysconf("SC_PHYS_PAGES")
    tasks = max(1, min(len(os.sched_getaffinity(0)), int(memory / LARGEST_PROOF)))
    return ["env", f"RT_JOBS={tasks}", "rt", "ci"]


def has(modules):
    """Whether Debian's Python has these modules."""
    words = [DEBIAN_PYTHON, "-c", f"import {modules}"]
    return subprocess.run(words, stderr=subprocess.DEVNULL).returncode == 0


def has_carbon():
    """Whether carbon's own ring and routers can be asked."""
    return has("carbon.hashing, carbon.routers")


def missing_peers():
    """The Debian packages that are not there: relays to compare with, programs round a relay, shells, containers and
    linters."""
    peers = {
        "graphite-carbon": has_carbon(),
        "python3-whisper": has("whisper"),
        "carbon-c-relay": shutil.which("carbon-c-relay") is not None,
        "graphite-web": os.path.exists("/usr/bin/graphite-manage"),
        "collectd-core": os.path.exists("/usr/sbin/collectd"),
        "haproxy": os.path.exists("/usr/sbin/haproxy"),
        "netcat-openbsd": os.path.exists("/bin/nc.openbsd"),
        "fish": shutil.which("fish") is not None,
        "zsh": shutil.which("zsh") is not None,
        "runit": shutil.which("runsv") is not None,
        "tini": shutil.which("tini") is not None,
        "openssl": shutil.which("openssl") is not None,
        "nftables": os.path.exists("/usr/sbin/nft"),
        "iproute2": shutil.which("ip") is not None,
        "prometheus": shutil.which("promtool") is not None,
        "chromium": shutil.which("chromium") is not None,
        "gnuplot-nox": shutil.which("gnuplot") is not None,
        "lintian": shutil.which("lintian") is not None,
        "python3-yaml": has("yaml"),
        "podman": shutil.which("podman") is not None,
        "runc": shutil.which("runc") is not None,
        "busybox-static": os.path.exists("/bin/busybox"),
        "gcc": shutil.which("cc") is not None,
        "pyflakes3": shutil.which("pyflakes3") is not None,
        "shellcheck": shutil.which("shellcheck") is not None,
        "strace": shutil.which("strace") is not None,
    }
    return [package for package, there in peers.items() if not there]


def install_peers():
    """Installs these packages where they are missing, and says how many are missing still."""
    noninteractive = dict(os.environ, DEBIAN_FRONTEND="noninteractive")
    if missing := missing_peers():
        for words in (["apt-get", "update"], ["apt-get", "install", "-y", *missing]):
            print("+", *words, flush=True)
            subprocess.run(words, env=noninteractive, stdin=subprocess.DEVNULL)
    missing = missing_peers()
    for package in missing:
        print(f"{package} is missing, and could not be installed: nothing can be compared with it", flush=True)
    return len(missing)


def main():
    """Runs all, also where the gate failed, and prints the sum."""
    counts = [counts_of(gate()), (0, install_peers()), counts_of([sys.executable, "e2e/run.py", "--complete"]),
              counts_of([sys.executable, "e2e/refusals.py"])]
    for what in ("ring", "routes", "values"):
        if has_carbon():
            counts.append(counts_of([DEBIAN_PYTHON, f"e2e/beside/{what}.py"]))
    if not missing_peers():
        counts.append(counts_of([DEBIAN_PYTHON, "e2e/field/run.py"]))
    passed, failed = (sum(column) for column in zip(*counts))
    print(f"{passed} passed, {failed} failed")
    return 0 if failed == 0 else 1


if __name__ == "__main__":
    sys.exit(main())
