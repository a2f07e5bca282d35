#!/usr/bin/env python3
"""How long builds take: in a clone where nothing is built yet, and from a one-line change of a body.

    build_times.py [--changes]    with --changes only the second, where `make check` finds nothing to do

The changes mean the same as what they replace. They stay until the end, so that each is measured over what the one before
it left. For each there are three times: of the quick program, of the check of that crate, and of that of all others after
it. Each row of the two tables is printed on standard error as soon as it is known. Nothing else should run on the machine,
and the kit should have kept nothing of other clones on it.
"""

import argparse
import itertools
import os
import subprocess
import sys
import time

from rooms import TOP, folder_of

FIRST = ("make quick", "make demo", "make quick-test", "make", "make check", "make demo", "make e2e", "make hostile",
         "python3 e2e/refusals.py", "/usr/bin/python3 e2e/field/run.py")  # in this order
CHANGES = {  # a file of the crate, a line of it, and what is written there
    "line_text": ("src/line_end.rt", "    FirstLine {\n        text: &text[..place],\n        rest: &text[place + 1..],\n",
                  "    let after = place + 1;\n    FirstLine {\n        text: &text[..place],\n        rest: &text[after..],\n"),
    "router": ("src/recent_routes.rt", "        self.routes.len()\n", "        let held = self.routes.len();\n        held\n"),
    "mio_loops": ("src/stop_flag.rt", "        self.load(Ordering::SeqCst)\n",
                  "        let is_set = self.load(Ordering::SeqCst);\n        is_set\n"),
    "relayd": ("src/memory_there.rt", "    machine_memory(utf8_text(bytes.as_slice())?)\n",
               "    let text = utf8_text(bytes.as_slice())?;\n    machine_memory(text)\n"),
}


def change(name):
    """Makes the change of a crate, and gives what undoes it: the path and the text that was there."""
    file, old, new = CHANGES[name]
    path = os.path.join(folder_of(name), file)
    with open(path, encoding="utf-8") as it:
        text = it.read()
    if text.count(old) != 1:
        sys.exit(f"{name}: {file} has the line that is to change {text.count(old)} times: give tools/build_times.py another")
    with open(path, "w", encoding="utf-8") as it:
        it.write(text.replace(old, new))
    return path, text


def seconds(*words):
    """How long a command takes, or None where it fails."""
    began = time.monotonic()
    ended = subprocess.run(words, cwd=TOP).returncode
    return time.monotonic() - began if ended == 0 else None


def tool(name, *words):
    """How long a tool takes."""
    return seconds(sys.executable, os.path.join(TOP, "tools", name), *words)


def spoken(time_taken):
    """A time in minutes and seconds."""
    return "failed" if time_taken is None else "{}:{:02}".format(*divmod(round(time_taken), 60))


def after_changes():
    """For each crate the times that follow its change."""
    undone = []
    try:
        for name in CHANGES:
            undone.append(change(name))
            yield f"`{name}`", [tool("quick.py"), tool("crates.py", "check", name), tool("crates.py", "check")]
    finally:
        for path, text in undone:
            with open(path, "w", encoding="utf-8") as it:
                it.write(text)


def main():
    parser = argparse.ArgumentParser(description=__doc__.partition("\n")[0])
    parser.add_argument("--changes", action="store_true")
    first = () if parser.parse_args().changes else ((f"`{words}`", [seconds(*words.split())]) for words in FIRST)
    for name, times in itertools.chain(first, after_changes()):
        print(f"| {name} | {' | '.join(map(spoken, times))} |", file=sys.stderr, flush=True)


if __name__ == "__main__":
    sys.exit(main())
