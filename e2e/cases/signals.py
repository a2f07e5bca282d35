"""What a signal does to `relayd run`."""

import os
import signal
import subprocess

from fixtures.harness import LIMIT, Ran, Settings
from fixtures.running import Relay, WithRelays
from fixtures.stores import free_ports

ENDING = (signal.SIGTERM, signal.SIGINT, signal.SIGHUP)


def take_signals():
    """Signals do what they do to a program that says nothing of them, also where whoever runs the tests ignores some."""
    for number in ENDING:
        signal.signal(number, signal.SIG_DFL)


class Signals(WithRelays):
    """A relay with a destination at which nobody listens, and a datapoint that waits for it."""

    def waiting(self):
        """Such a relay, for a `with`."""
        dest = f"127.0.0.1:{free_ports(1)[0]}"
        return self.relay([dest], f"[all]\ndefault = true\ndestinations = {dest}\n", before=take_signals)

    def test_it_ends_at_once(self):
        """With the status of the signal, without a closing line, and without a word on standard error."""
        for number in ENDING:
            with self.subTest(), self.waiting() as relay:
                relay.lines(b"a 1 1\n")
                self.wait_for(lambda: relay.totals()["queued"] == 1, "the datapoint is queued")
                relay.child.send_signal(number)
                self.same(number.name, relay.end(), Ran(-number, b"", b""), ("run",))

    def test_as_process_1(self):
        """The first process of a container gets none of them, since the kernel gives it no default action."""
        inside = ["unshare", "--pid", "--fork", "--kill-child", "--map-root-user", "--user"]
        if subprocess.run([*inside, "true"], stderr=subprocess.DEVNULL).returncode != 0:
            self.skipTest("no namespace of processes can be made here")
        *listening, admin = free_ports(4)
        config = self.configuration(["127.0.0.1:1"], listening, RELAY_METHOD="consistent-hashing")
        words = ["run", *self.given({"config": config, "rules": None}), "--admin", str(admin)]
        with subprocess.Popen([*inside, os.path.abspath(Settings.relayd), *words], stdout=subprocess.PIPE,
                              stderr=subprocess.PIPE, bufsize=0, preexec_fn=take_signals) as child:
            self.addCleanup(child.kill)
            relay = Relay(child, *listening, admin)
            self.assertTrue(relay.is_ready())
            with open(f"/proc/{child.pid}/task/{child.pid}/children", encoding="ascii") as file:
                first = int(file.read())
            for number in ENDING:
                os.kill(first, number)
            relay.lines(b"a 1 1\n")
            self.wait_for(lambda: relay.totals()["queued"] == 1, "it goes on", LIMIT)
            self.settles(relay)

    def test_a_broken_pipe_does_nothing(self):
        with self.waiting() as relay:
            relay.child.send_signal(signal.SIGPIPE)
            relay.lines(b"a 1 1\n")
            self.wait_for(lambda: relay.totals()["queued"] == 1, "the datapoint is queued", LIMIT)
            self.settles(relay)
