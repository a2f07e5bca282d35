"""What a relay writes at its end is on the disk before anything rests on it."""

import contextlib
import os
import re
import shutil
import subprocess
import unittest

from fixtures.harness import LIMIT
from fixtures.reloading import numbered, text_of
from fixtures.spooling import ALL, WithSpool
from fixtures.stores import free_ports

CALL = re.compile(r"(?m)^\d+ +(\w+)\((.*)$")
CALLS = "write,pwrite64,fsync,fdatasync,rename,renameat,renameat2"


@unittest.skipUnless(shutil.which("strace"), "strace is missing")
class Synced(WithSpool):
    """The order of the calls that write, sync and rename."""

    @contextlib.contextmanager
    def traced(self, relay):
        """The list of these calls of a relay that ends meanwhile, in the order in which they begin: each with its words."""
        path = os.path.join(self.folder, "calls")
        words = ["strace", "-f", "-y", "-s", "1", "-o", path, "-p", str(relay.child.pid), "-e", f"trace={CALLS}"]
        calls = []
        with subprocess.Popen(words, stderr=subprocess.PIPE) as tracer:
            tracer.stderr.readline()
            yield calls
            tracer.communicate(timeout=LIMIT)
        with open(path, encoding="utf-8") as file:
            calls += CALL.findall(file.read())

    def places(self, calls, names, path):
        """Where the calls of these names stand that have to do with a path."""
        return [place for place, (name, words) in enumerate(calls) if name in names and (f"<{path}>" in words or f'"{path}"' in words)]

    def is_synced(self, calls, path):
        """What was written to a file is synced behind its last write. Gives where."""
        written = self.places(calls, ("write", "pwrite64"), path)
        synced = self.places(calls, ("fsync", "fdatasync"), path)
        self.assertTrue(written and synced, calls)
        self.assertLess(written[-1], synced[-1], calls)
        return synced[-1]

    def test_a_file_of_the_spool(self):
        """Its lines, and then its name in the folder, before the relay ends; also behind those of an earlier file."""
        dest = f"127.0.0.1:{free_ports(1)[0]}"
        for earlier in (b"", text_of(numbered(10, b"old"))):
            with self.subTest(earlier=bool(earlier)):
                if earlier:
                    self.write(dest, earlier)
                with self.spooling([dest]) as relay:
                    self.queued(relay, numbered(10))
                    with self.traced(relay) as calls:
                        self.ends(relay)
                synced = self.is_synced(calls, self.path(dest))
                folder = self.places(calls, ("fsync", "fdatasync"), self.dir)
                self.assertTrue(folder, calls)
                self.assertLess(synced, folder[-1], calls)
                os.remove(self.path(dest))

    def test_a_record(self):
        """It is whole on the disk before it gets the name of the record."""
        store, = self.stores(1)
        dest = f"127.0.0.1:{store.port}"
        record = os.path.join(self.folder, "record")
        with self.relay([dest], ALL.format(dest), options=("--record", record)) as relay:
            relay.lines(b"a 1 1\n")
            self.wait_for(lambda: store.lines() == [b"a 1 1"], "the line has come")
            with self.traced(relay) as calls:
                self.ends(relay)
        synced = self.is_synced(calls, record + ".part")
        named = self.places(calls, ("rename", "renameat", "renameat2"), record)
        self.assertEqual(len(named), 1, calls)
        self.assertLess(synced, named[0], calls)
