"""`relayd run` with little memory: it is `ready` only where each receiver and each sender has what it needs to begin."""

import contextlib
import os
import re
import resource
import shutil
import signal

from fixtures import refused
from fixtures.harness import LIMIT, held
from fixtures.running import READY, Relay, WithRelays
from fixtures.stores import free_ports

ALL = "[all]\ndefault = true\ndestinations = {}\n"
STARVED = b"relayd: no memory\n"
STEPS = 24
MOST_GROWTHS = 2_000
STRIDE = 9  # one growth of so many is refused
ENDED = re.compile(rb"(receiver (?:line|pickle|udp)|sender 0) ended: out of memory\n")


class StarvedStart(WithRelays):
    """Limits of memory from next to nothing to what a whole relay takes."""

    def started(self, dests, limit=None):
        """A relay under a limit of its address space, in bytes."""
        *listening, admin = free_ports(4)
        files = self.given({"config": self.configuration(dests, listening), "rules": ALL.format(*dests), "rewrite": None})

        def limited():
            if limit is not None:
                resource.setrlimit(resource.RLIMIT_AS, (limit, limit))

        words = ("run", *files, "--admin", str(admin), "--senders", "2", "--line-receivers", "2")
        return held(words, bufsize=0, preexec_fn=limited), listening, admin

    def needed(self, dests):
        """How much address space a relay takes that is ready."""
        child, listening, admin = self.started(dests)
        with child as process:
            relay = Relay(process, *listening, admin)
            self.assertTrue(relay.is_ready())
            with open(f"/proc/{process.pid}/status", encoding="ascii") as file:
                size = next(int(line.split()[1]) for line in file if line.startswith("VmPeak"))
            self.settles(relay)
            return size * 1024

    def test_it_is_ready_with_all_threads_or_not_at_all(self):
        """Each limit gives a relay that is ready and has all its threads, or one line and status 4."""
        store, = self.stores(1)
        dests = [f"127.0.0.1:{store.port}"]
        needed = self.needed(dests)
        seen = set()
        for step in range(1, STEPS + 1):
            limit = needed * step // STEPS
            child, listening, admin = self.started(dests, limit)
            with child as process, self.subTest(limit=limit):
                relay = Relay(process, *listening, admin)
                if relay.is_ready():
                    seen.add("ready")
                    names = relay.thread_names()
                    for name in ("line 0", "line 1", "pickle", "udp", "sender 0", "sender 1"):
                        self.assertIn(name, names)
                    with contextlib.suppress(ProcessLookupError):
                        os.kill(process.pid, signal.SIGKILL)
                    continue
                out, err = process.communicate(timeout=LIMIT)
                if process.returncode == 4:
                    seen.add("starved")
                    self.assertEqual((out, err), (b"", STARVED))
        self.assertEqual(seen, {"ready", "starved"}, READY)


class StarvedThreads(WithRelays):
    """One growth is refused while a relay starts."""

    def said(self, library, dests, growth):
        """What a relay says that does not start; nothing of one that does."""
        *listening, admin = free_ports(4)
        files = self.given({"config": self.configuration(dests, listening), "rules": ALL.format(*dests), "rewrite": None})
        child = held(("run", *files, "--admin", str(admin), "--log"), bufsize=0, env=refused.surroundings(library, growth))
        with child as process:
            relay = Relay(process, *listening, admin)
            if relay.is_ready():
                relay.stop()
                return b""
            out, err = process.communicate(timeout=LIMIT)
            self.assertEqual((process.returncode, out, err[-len(STARVED):]), (4, b"", STARVED))
            return err.removesuffix(STARVED).replace(b"refused\n", b"", 1)

    def test_the_log_says_which_thread_ended(self):
        """Where a thread has not the memory to begin, the log names it, and the relay does not start."""
        if shutil.which("cc") is None:
            self.skipTest("cc is missing")
        library = refused.compiled(self.folder)
        store, = self.stores(1)
        named = []
        for growth in range(1, MOST_GROWTHS, STRIDE):
            said = self.said(library, [f"127.0.0.1:{store.port}"], growth)
            self.assertEqual(ENDED.sub(b"", said), b"")
            named += ENDED.findall(said)
            if any(name.startswith(b"receiver ") for name in named):
                return
        self.fail(f"no receiver is named: {named}")
