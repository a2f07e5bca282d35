"""The processes of `rt` that a tool runs, which an interruption ends."""

import subprocess
import sys
import threading

RUNNING = set()
STOPPED = threading.Event()  # once this run was interrupted


def rt(words, folder, at_line=None):
    """Runs `rt` in a folder, if this run goes on; gives its status and what it said. `at_line` gets each line as it comes."""
    if STOPPED.is_set():
        return 1, ""
    said = []
    with subprocess.Popen(["rt", *words], cwd=folder, stdin=subprocess.DEVNULL, stdout=subprocess.PIPE,
                          stderr=subprocess.STDOUT, text=True, errors="replace") as ran:
        RUNNING.add(ran)
        for line in ran.stdout:
            said.append(line)
            if at_line:
                at_line(line)
        RUNNING.discard(ran)
    return ran.returncode, "".join(said)


def interrupt(number, _):
    """Ends what runs; each room then gives back what it has kept."""
    STOPPED.set()
    for ran in list(RUNNING):
        ran.terminate()
    sys.exit(128 + number)
