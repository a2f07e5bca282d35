"""What was done of each crate, noted beside what was kept of it, with a checksum of all that it was made from.

The checksum is that of the kit, of the crate's sources, and of the crates below it. So what did not change is not done
again, and that nothing changed is known in a second.
"""

import contextlib
import functools
import hashlib
import json
import os
import subprocess

from rooms import PARTS, TOP, folder_of, rows

NOTE = "out/incremental/done.json"  # in a crate's folder, where the gate puts it back


def text_of(path):
    """What a file holds; nothing where it is not there."""
    with contextlib.suppress(OSError), open(path, "rb") as file:
        return file.read()
    return b""


@functools.cache
def kit():
    """The one line that says which kit `rt` is of."""
    return subprocess.run(["rt", "version"], stdout=subprocess.PIPE, check=True).stdout


def sums(names, below, top=TOP):
    """A checksum for each of these crates, and of those below them, in the repository or in a room."""
    row_of, known = rows(top), {}

    def of(name):
        if name not in known:
            made = hashlib.sha256(kit() + text_of(os.path.join(top, "HANDLES")) + row_of[name].encode())
            for part in PARTS:
                for at, folders, files in os.walk(os.path.join(folder_of(name, top), part)):
                    folders.sort()
                    for path in (os.path.join(at, file) for file in sorted(files)):
                        content = text_of(path)
                        made.update(f" {os.path.relpath(path, top)} {len(content)} ".encode() + content)
            for it in below[name]:
                made.update(of(it).encode())
            known[name] = made.hexdigest()
        return known[name]

    return {name: of(name) for name in names}


def made_by(name, verb):
    """A checksum of what a command of `rt` made of a crate: of the stamp of a library, or of a program."""
    file = {"lib": "out/rlib/stamp", "run": f"out/{name}"}.get(verb, "")
    return hashlib.sha256(text_of(os.path.join(folder_of(name), file))).hexdigest()


def noted(name):
    """What is noted of a crate: for each command of `rt` the checksums of what it was made from, and of what was made."""
    with contextlib.suppress(ValueError):
        return json.loads(text_of(os.path.join(folder_of(name), NOTE)))
    return {}


def is_done(name, verb, total):
    """Whether this was done of these sources, and what it made is still there. What was built was checked, too."""
    found = noted(name)
    if verb == "check":
        return total in (it for it, _ in found.values())
    return found.get(verb) == [total, made_by(name, verb)]


def note(name, verb, total):
    """Notes that it was done."""
    found = noted(name) | {verb: [total, made_by(name, verb)]}
    os.makedirs(os.path.dirname(os.path.join(folder_of(name), NOTE)), exist_ok=True)
    with open(os.path.join(folder_of(name), NOTE), "w", encoding="utf-8") as file:
        json.dump(found, file)
