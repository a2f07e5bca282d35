"""Rooms: copies of the repository in each of which `rt` works on one crate.

`rt` locks each crate below the one that it works on, so in one checkout two checks over the same library wait for each
other. A room has the sources of a crate and of all below it, what was built of those below, and what earlier checks
kept of the crate itself. Rooms lie outside the repository, since `rt ci` refuses another crates.txt in it.
"""

import contextlib
import fcntl
import os
import shutil
import tempfile
import threading
from collections import defaultdict

TOP = os.path.dirname(os.path.dirname(os.path.abspath(__file__)))
PREFIX = "relayd-room-"
PARTS = ("src", "specs", "proofs")
HELD_HERE = defaultdict(threading.Lock)  # for each crate, which thread of this process has its folder


def folder_of(name, top=TOP):
    """The folder of a crate, in the repository or in a room."""
    return os.path.join(top, "crates", name)


def rows(top=TOP):
    """The row of crates.txt of each crate, in its order."""
    with open(os.path.join(top, "crates.txt"), encoding="utf-8") as file:
        lines = [line.partition("#")[0].strip() for line in file]
    return {line.partition(":")[0].split()[0]: line for line in lines if line}


@contextlib.contextmanager
def locked(name):
    """Keeps `rt` out of a crate's folder, as `rt` keeps others out."""
    with HELD_HERE[name]:
        held = os.open(folder_of(name), os.O_RDONLY)
        try:
            with contextlib.suppress(OSError):  # some file systems have no locks
                try:
                    fcntl.flock(held, fcntl.LOCK_EX | fcntl.LOCK_NB)
                except BlockingIOError:
                    print(f"waiting for another rt to finish in crates/{name}", flush=True)
                    fcntl.flock(held, fcntl.LOCK_EX)
            yield
        finally:
            os.close(held)


def link_or_copy(one, other):
    """Links what `rt` replaces and never writes into, which is a library or a checked module, and copies the rest."""
    if "/out/rlib/" in one or one.endswith(".oantt"):
        with contextlib.suppress(OSError):
            return os.link(one, other)
    return shutil.copy2(one, other)


def copy(name, part, room):
    """Copies a folder of a crate to the room, where the crate has it."""
    here = os.path.join(folder_of(name), part)
    if os.path.isdir(here):
        shutil.copytree(here, os.path.join(folder_of(name, room), part), copy_function=link_or_copy)


def place():
    """The folder for rooms: one on the disk of the repository, where files can be linked, if there is one."""
    for folder in (tempfile.gettempdir(), "/var/tmp", os.path.dirname(TOP)):
        if os.access(folder, os.W_OK) and os.stat(folder).st_dev == os.stat(TOP).st_dev:
            return folder
    return None


@contextlib.contextmanager
def room_of(name, names, prefix=PREFIX):
    """A room for a crate; `names` are its name and those of all crates below it."""
    with tempfile.TemporaryDirectory(prefix=prefix, dir=place(), ignore_cleanup_errors=True) as room:
        with open(os.path.join(room, "crates.txt"), "w", encoding="utf-8") as file:
            file.writelines(row + "\n" for it, row in rows().items() if it in names)
        shutil.copy(os.path.join(TOP, "HANDLES"), room)
        os.mkdir(os.path.join(room, ".git"))  # for rt, the top of a repository
        for it in names:
            with locked(it):
                for part in (*PARTS, "out" if it == name else "out/rlib"):
                    copy(it, part, room)
        yield room


def bring_back(name, room):
    """Puts what a room has made and kept of its crate in the place of the crate's `out/`."""
    made, here = os.path.join(folder_of(name, room), "out"), os.path.join(folder_of(name), "out")
    if os.path.isdir(made):
        if os.path.isdir(here):
            shutil.move(here, os.path.join(room, "before"))
        shutil.move(made, here)
