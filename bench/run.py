#!/usr/bin/env python3
"""The benchmark: `relayd pass`, a C program of the same work, and `cat`, in turn in one run.

    python3 bench/run.py [--relayd PATH] [--rounds N]

Each reads the same file and writes to /dev/null. That is fair to all three:
the file is in memory after the first round, the reads and writes are made and
counted as usual, and what a reader of the output would cost is not mixed in,
which would make the three look more alike than they are.
"""

import os
import shutil
import statistics
import subprocess
import sys
import time

from shared import DATA, HERE, adopt_orphans, demand, missing, options

LINES = os.path.join(DATA, "lines.txt")
FRACTIONS = os.path.join(DATA, "fractions.txt")  # the same, where half of the values have a fraction
TENTH = os.path.join(DATA, "tenth.txt")
C_PROGRAM = os.path.join(DATA, "pass")
BAR_MEMORY = 16 * 1024  # KB


def prepare(relayd):
    """Builds the C program and makes the two files where they are missing."""
    demand(relayd)
    os.makedirs(DATA, exist_ok=True)
    gcc = shutil.which("gcc")
    if gcc is None:
        print("bench: gcc is missing, so the C program and the ratio to it are left out")
    else:
        source = os.path.join(HERE, "pass.c")
        if subprocess.run([gcc, "-std=c11", "-O2", "-o", C_PROGRAM, source]).returncode:
            missing("gcc could not build bench/pass.c")
    for path, words in ((LINES, ()), (FRACTIONS, ("--fractions",))):
        if not os.path.exists(path):
            print("making the lines, once ..", flush=True)
            subprocess.run([sys.executable, os.path.join(HERE, "lines.py"), path, *words], check=True)
    count = 0
    with open(LINES, "rb") as file:
        while block := file.read(1 << 20):
            count += block.count(b"\n")
    with open(LINES, "rb") as file, open(TENTH, "wb") as tenth:
        for _ in range(count // 10):
            tenth.write(file.readline())
    return gcc is not None, count


def same_output(words, others, path):
    """Whether two programs write the same bytes for the lines of a file, and no notes."""
    outs = []
    for each in (words, others):
        with open(path, "rb") as file:
            outs.append(subprocess.Popen(each, stdin=file, stdout=subprocess.PIPE,
                                         stderr=subprocess.PIPE))
    while True:
        blocks = [out.stdout.read(1 << 20) for out in outs]
        if blocks[0] != blocks[1]:
            for out in outs:
                out.kill()
                out.wait()
            return False
        if not blocks[0]:
            return all(out.communicate()[1] == b"" and out.returncode == 0 for out in outs)


def measured(words, path):
    """Seconds and peak memory in KB of a program that reads the file.

    Peak memory of a process counts what it was before it became the program,
    and a child of this one begins as large as Python. So a small shell starts
    the program and leaves, and the program, now a child of this process, is
    waited for with `os.wait4`, which reports what it alone has used.
    """
    began = time.perf_counter()
    shell = subprocess.run(
        ["/bin/sh", "-c", 'file=$1; shift; "$@" <"$file" >/dev/null & echo $!', "sh", path, *words],
        stdout=subprocess.PIPE, check=True)
    _, status, used = os.wait4(int(shell.stdout), 0)
    seconds = time.perf_counter() - began
    if status:
        missing(f"{words[0]} ended with status {os.waitstatus_to_exitcode(status)}")
    return seconds, used.ru_maxrss


def table(names, runs, lines, small):
    """Prints what was measured of one file, and gives the medians."""
    medians = {name: statistics.median(seconds for seconds, _ in runs[name]) for name in names}
    print(f"{'':12} {'median s':>9} {'lines/s':>12} {'ratio to C':>11} {'peak memory':>12} "
          f"{'on a tenth':>11}")
    for name in names:
        ratio = f"{medians['C']/medians[name]:.2f}" if "C" in medians else "no gcc"
        peak = max(memory for _, memory in runs[name])
        tenth = f"{small} KB" if name == "relayd pass" else ""
        print(f"{name:12} {medians[name]:9.3f} {lines/medians[name]:12,.0f} {ratio:>11} "
              f"{f'{peak} KB':>12} {tenth:>11}")
    print("all seconds:", "; ".join(
        f"{name} " + " ".join(f"{seconds:.3f}" for seconds, _ in runs[name]) for name in names))
    return medians


def says_held(bar, holds):
    """Prints whether a bar is held."""
    print(f"{bar}:", "held" if holds else "NOT HELD")


def measure(programs, path, lines, rounds):
    """Runs the programs on a file in turn, and prints a table: the medians, and the peak memory of relayd."""
    relayd = programs["relayd pass"]
    if "C" in programs and not same_output(relayd, programs["C"], path):
        missing("relayd pass and the C program do not write the same bytes")
    runs = {name: [] for name in programs}
    for _ in range(rounds):
        for name, words in programs.items():
            runs[name].append(measured(words, path))
    small = max(measured(relayd, TENTH)[1] for _ in range(rounds))
    print(f"{os.path.basename(path)}: {lines:,} lines, {os.path.getsize(path):,} bytes, {rounds} rounds, "
          f"output to /dev/null" + (", same bytes from relayd and C" if "C" in programs else ""))
    medians = table(list(programs), runs, lines, small)
    return medians, max(memory for _, memory in runs["relayd pass"])


def main():
    """Prepares, measures in turn, prints."""
    given = options("The benchmark of relayd pass.", "--relayd", "relayd").parse_args()
    adopt_orphans()
    has_c, lines = prepare(given.relayd)

    programs = {"relayd pass": [given.relayd, "pass"]}
    if has_c:
        programs["C"] = [C_PROGRAM]
    programs["cat"] = ["cat"]
    whole, peak = measure(programs, LINES, lines, given.rounds)
    fractions, _ = measure(programs, FRACTIONS, lines, given.rounds)
    if has_c:
        says_held("at least a third of the C program's lines per second", 3 * whole["C"] >= whole["relayd pass"])
        says_held("at least half of them where half of the values have a fraction",
                  2 * fractions["C"] >= fractions["relayd pass"])
    says_held("peak memory under 16 MB", peak < BAR_MEMORY)


if __name__ == "__main__":
    main()
