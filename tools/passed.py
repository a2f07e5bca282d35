#!/usr/bin/env python3
"""Which tests a commit has passed: each leaves a file in bin/passed with the commit, for tools/release_check.py.

    passed.py WHAT COMMAND ..    runs a command, and notes WHAT where it succeeds

Nothing is noted where files differ from the commit, or where the commit is another one at the end.
"""

import os
import subprocess
import sys

TOP = os.path.dirname(os.path.dirname(os.path.abspath(__file__)))
NOTES = os.path.join(TOP, "bin", "passed")


def git(*words):
    """What git prints; nothing where this is no clone."""
    ran = subprocess.run(["git", *words], cwd=TOP, stdin=subprocess.DEVNULL, stdout=subprocess.PIPE,
                         stderr=subprocess.DEVNULL, text=True)
    return ran.stdout.strip() if ran.returncode == 0 else ""


def commit():
    """The commit whose files are there; none where a file differs from it, or is not of it."""
    return "" if git("status", "--porcelain") else git("rev-parse", "HEAD")


def noted(what):
    """The commit that has passed this test last."""
    try:
        with open(os.path.join(NOTES, what), encoding="ascii") as file:
            return file.read().strip()
    except OSError:
        return ""


def main():
    what, command, began = sys.argv[1], sys.argv[2:], commit()
    status = subprocess.run(command).returncode
    if status == 0 and began and commit() == began:
        os.makedirs(NOTES, exist_ok=True)
        with open(os.path.join(NOTES, what), "w", encoding="ascii") as file:
            file.write(began + "\n")
    elif status == 0:
        print(f"passed: {what} is not noted: files differ from the commit", file=sys.stderr)
    return status


if __name__ == "__main__":
    sys.exit(main())
