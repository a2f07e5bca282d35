#!/usr/bin/env python3
"""Runs the demo with the proved program where that is built of the sources as they are, or else with the quick one.

The last line says which it was, and how to get the proved one.
"""

import subprocess
import sys

import quick
from crates import crates_below, is_built, time_to_build
from rooms import TOP

PROGRAM = "relayd"


def main():
    below = crates_below()
    is_proved = is_built(PROGRAM, below)
    if is_proved:
        subprocess.run(["make", "-s", f"bin/{PROGRAM}"], cwd=TOP, check=True)
    elif not quick.build(PROGRAM):
        return 1
    name = f"bin/{PROGRAM}" if is_proved else f"bin/{PROGRAM}-quick"
    status = subprocess.run(["sh", "examples/demo.sh", name], cwd=TOP).returncode
    if is_proved:
        print(f"== this was {name}, the proved program")
    else:
        print(f"== this was {name}, of which nothing is proved; `make` proves and builds bin/{PROGRAM}, "
              f"which takes {time_to_build(PROGRAM, below)}")
    return status


if __name__ == "__main__":
    sys.exit(main())
