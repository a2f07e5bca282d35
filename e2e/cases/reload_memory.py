"""`relayd reload` where memory is short."""

import collections
import contextlib
import os
import random
import subprocess
import tempfile

from fixtures import refused
from fixtures.harness import LIMIT, Ran, Settings
from fixtures.reloading import RELOADED, Reloads, numbered, text_of
from fixtures.stores import free_ports


class Memory(Reloads):
    """A reload in which one growth of memory is refused."""

    COUNT = 50  # lines that are queued
    TRIES = 40  # of the growths

    def test_each_growth(self):
        """The relay goes on as it was, or by the new files, or it ends with status 4: what it held is in its file then, and it says so."""
        library = refused.compiled(os.fspath(self.folder))
        growths, tried = self.growths(library), 0
        self.assertGreater(growths, 0)
        step = 1 if Settings.longer else max(growths // self.TRIES, 1)
        ends = collections.Counter()
        for growth in range(1 + random.randrange(step), growths + 1, step):
            with self.subTest(growth=growth):
                ends[self.tried(library, growth)] += 1
                tried += 1
        print(f"\nof {growths} growths {tried} were refused: {dict(ends)}", flush=True)

    def growths(self, library):
        """How many growths a reload has, about."""
        least, most = 1, 1 << 14
        while least < most:
            middle = (least + most) // 2
            if self.tried(library, middle) == "nothing":
                most = middle
            else:
                least = middle + 1
        return least - 1

    def tried(self, library, growth):
        """What became of a reload in which this growth was refused, or `nothing` if there was no such growth."""
        port, = free_ports(1)
        dests = [f"127.0.0.1:{port}"]
        lines = numbered(self.COUNT)
        with tempfile.TemporaryDirectory() as folder:
            start = os.path.join(folder, "~start")

            def before():
                os.environ.update({"LD_PRELOAD": library, "REFUSE_GROWTH": str(growth), "REFUSE_FROM": start})

            spool = os.path.join(folder, "spool")
            os.mkdir(spool)
            with self.running(dests, options=("--spool", spool), before=before) as relay:
                relay.lines(text_of(lines))
                self.wait_for(lambda: relay.totals()["queued"] == self.COUNT, "all lines are queued")
                with open(start, "wb"):
                    pass
                ran = self.reload(relay, *self.files(relay, dests))
                os.remove(start)
                end = self.end_of(relay, ran)
            held_lines = os.path.join(spool, dests[0])
            self.assertTrue(os.path.exists(held_lines), f"growth {growth}, {end}: nothing is in the file")
            with open(held_lines, "rb") as file:
                self.assertEqual(file.read(), text_of(lines), (growth, end))
            return end if b"refused\n" in relay.log.lines else "nothing"

    def end_of(self, relay, ran):
        """How the relay went on behind a reload that ended so."""
        if ran.status == 3:  # its connection was closed without an answer
            with contextlib.suppress(subprocess.TimeoutExpired):
                self.assertEqual(relay.child.wait(1), 4)
                relay.log.thread.join(LIMIT)
                self.assertIn(b"relayd: no memory\n", relay.log.lines)
                said = b"relay stopped, %d datapoints spooled\n" % self.COUNT
                self.assertTrue({said, b"relayd: " + said} & set(relay.log.lines), relay.log.lines)
                return "ended"
        else:
            self.assertIn(ran, (RELOADED, Ran(4, b"", b"relayd: no memory\n")))
        self.assertEqual(relay.totals()["queued"], self.COUNT)
        self.stops(relay)
        return {0: "reloaded", 3: "no answer", 4: "as it was"}[ran.status]
