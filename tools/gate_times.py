#!/usr/bin/env python3
"""Runs a command, the gate by default, and says what it took: minutes of processor of the prover, crate by crate.

    gate_times.py [COMMAND ..]    without COMMAND: bash .ci/run

The prover's processes are looked at twice a second, so what a process took after the last look is missing. The table
goes to standard error, as gate_times.txt has it, once the command has ended; the status is the command's.
"""

import os
import subprocess
import sys
import time
from collections import defaultdict

from rooms import PREFIX, TOP, rows

TICKS = os.sysconf("SC_CLK_TCK")
PARTS = ("Proof", "Tests", "Edits")
NAMED = "/rt-copy-"  # in the path of the copy in which `rt ci NAME` works


def processes(session):
    """Each process of the prover in a session, with its crate, the part of the gate it serves, and its seconds so far."""
    for pid in filter(str.isdigit, os.listdir("/proc")):
        try:
            with open(f"/proc/{pid}/cmdline", "rb") as file:
                words = file.read().decode(errors="replace").split("\0")
            if not words[0].endswith("/rattle") or "--crate-name" not in words:
                continue
            crate = words[words.index("--crate-name") + 1]
            folder = os.readlink(f"/proc/{pid}/cwd")
            with open(f"/proc/{pid}/stat", encoding="utf-8") as file:
                fields = file.read().rpartition(")")[2].split()
        except (OSError, ValueError, IndexError):
            continue
        if int(fields[3]) == session:
            yield (pid, fields[19]), crate, part_of(crate, folder), (int(fields[11]) + int(fields[12])) / TICKS


def part_of(crate, folder):
    """An edit is tried in a copy of the crate; `rt ci NAME` works in one of all crates; a crate of tests is proved for its
    tests."""
    if not folder.startswith(TOP) and PREFIX not in folder and NAMED not in folder:
        return "Edits"
    return "Tests" if crate.endswith("_tests") else "Proof"


def table(seconds):
    """The rows of the table, with a last one of the sums, and the sum of all."""
    sums = defaultdict(float)
    for (crate, part), spent in seconds.items():
        sums[part] += spent
    table_rows = [(f"`{crate}`", {part: seconds.get((crate, part), 0.0) for part in PARTS}) for crate in rows()]
    table_rows.append(("all", sums))
    yield "| Crate | " + " | ".join(PARTS) + " |"
    yield "|---|---|---|---|"
    for name, spent in table_rows:
        cells = [f"{spent[part] / 60:.1f}" if spent[part] >= 3 else "" for part in PARTS]
        yield f"| {name} | {' | '.join(cells)} |"
    yield ""
    yield f"Together {sum(sums.values()) / 60:.1f}."


def main():
    command = sys.argv[1:] or ["bash", os.path.join(TOP, ".ci", "run")]
    began = time.monotonic()
    running = subprocess.Popen(command, cwd=TOP, start_new_session=True)
    last = {}
    while running.poll() is None:
        for key, crate, part, spent in processes(running.pid):
            last[key] = crate, part, spent
        time.sleep(0.5)
    seconds = defaultdict(float)
    for crate, part, spent in last.values():
        seconds[crate, part] += spent
    print(*table(seconds), sep="\n", file=sys.stderr)
    print(f"\n{(time.monotonic() - began) / 60:.0f} minutes by the clock", file=sys.stderr)
    return running.returncode


if __name__ == "__main__":
    sys.exit(main())
