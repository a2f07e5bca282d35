#!/usr/bin/env python3
"""Prints which parts of a crate's proof took longest, by when the files in its out/incremental were written.

    proof_times.py CRATE [COUNT]    the COUNT dearest modules, 40 without COUNT, and before them the sum of each kind

It is meant for a crate that `rt check --jobs 1` has just proved from nothing: a module's time is then that between its
file and the one before. `F.Lts` is the meaning of the code of a function F, `F.Proof` the search for the answers to its
goals, `F.Answers` those that are written in proofs/F, and `F.Tie`, `F.Layout`, `F.Kinds` and `F.Reads` are the borrow
checker's.
"""

import os
import sys
from collections import Counter

from rooms import folder_of

KINDS = 15  # how many kinds are listed


def modules(crate):
    """The modules that are kept of a crate, in the order in which they were written, with the time in seconds."""
    before = f"Rattle-{crate}-"
    found = []
    for folder, _, names in os.walk(os.path.join(folder_of(crate), "out", "incremental")):
        for name in names:
            if name.startswith(before) and name.endswith(".oantt") and not name.endswith(".decls.oantt"):
                written = os.stat(os.path.join(folder, name)).st_mtime_ns / 1e9
                found.append((written, name[len(before):-len(".oantt")]))
    return sorted(found)


def main():
    if len(sys.argv) not in (2, 3):
        sys.exit(__doc__)
    found = modules(sys.argv[1])
    took = [(after - before, name) for (before, _), (after, name) in zip(found, found[1:])]
    kinds = Counter()
    for seconds, name in took:
        kinds[name.rpartition(".")[2]] += seconds
    for kind, seconds in kinds.most_common(KINDS):
        print(f"{seconds:8.1f} {kind}")
    print()
    for seconds, name in sorted(took, reverse=True)[:int(sys.argv[2]) if len(sys.argv) == 3 else 40]:
        print(f"{seconds:8.1f} {name}")


if __name__ == "__main__":
    main()
