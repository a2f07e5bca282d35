#!/usr/bin/env python3
"""Says which sources are not as `rt fmt` lays them out; the status is 0 only where all are."""

import os
import subprocess
import sys
from concurrent.futures import ThreadPoolExecutor

from pace import LANES
from quick import kit_folder
from rooms import PARTS, TOP, folder_of, rows


def sources(name):
    """The files of a crate that have a layout."""
    return [os.path.relpath(os.path.join(at, file), TOP)
            for part in PARTS for at, _, files in os.walk(os.path.join(folder_of(name), part))
            for file in sorted(files) if file.endswith((".rt", ".antt"))]


def main():
    formatter, files = os.path.join(kit_folder(), "bin", "rattle"), [sources(name) for name in rows()]

    def look_at(of_crate):
        return subprocess.run([formatter, "fmt", "--check", *of_crate], cwd=TOP, stdin=subprocess.DEVNULL,
                              stdout=subprocess.PIPE, stderr=subprocess.STDOUT, text=True)

    with ThreadPoolExecutor(LANES) as pool:
        ran = list(pool.map(look_at, files))
    failed = [it for it in ran if it.returncode != 0]
    for it in failed:
        print(it.stdout, end="")
    print("layout: run `rt fmt` in the folders of these crates" if failed
          else f"layout: all {sum(map(len, files))} sources are laid out")
    return 1 if failed else 0


if __name__ == "__main__":
    sys.exit(main())
