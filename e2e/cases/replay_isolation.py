"""Isolation by `relayd replay`: what a destination gets and counts depends on its own steps and datapoints alone."""

import random
from typing import NamedTuple

from cases import replay
from fixtures.configured import settings
from fixtures.harness import Ran, Settings, run
from fixtures.replay_pairs import NAME, pair
from fixtures.replay_reference import replay as reference
from fixtures.replay_routes import Plan

PAIRS = 50  # that are generated, over all seeds


class One(NamedTuple):
    """A replay written by hand."""

    config: str
    rules: str
    rewrite: str
    script: str


# Both send a.x and a.y to the destination 1, by readers 0 and 1, and all else differs: the other destinations and their
# number, the rules, a rewriting, the kinds of the readers and a third one, what else they read, the cuts and moments,
# what happens at the other destinations, and a refused event.
PLAIN = One(
    settings(DESTINATIONS="10.0.0.1:2003, 10.0.0.9:2003:kept", MAX_QUEUE_SIZE=1),
    "[a]\npattern = ^a\\.\ndestinations = 10.0.0.9:2003:kept\n[rest]\ndefault = true\ndestinations = 10.0.0.1:2003\n",
    None,
    """reader line
reader line
up 1
piece 0 9 612e78203120350a612e79203220350a
piece 1 9 612e78203320350a
offer 0
offer 0
take 1
offer 1
wrote 1 5
down 1
up 1
wrote 1 8
""")
CROWDED = One(
    settings(DESTINATIONS="10.0.7.1:1, 10.0.0.9:2003:kept, 10.0.7.2:2", MAX_QUEUE_SIZE=1),
    "[copy]\npattern = y$\ncontinue = yes\ndestinations = 10.0.7.2:2\n"
    "[all]\ndefault = true\ndestinations = 10.0.7.1:1\n"
    "[a]\npattern = ^A\ndestinations = 10.0.0.9:2003:kept\n",
    "[pre]\n^old\\. = a.\n",
    # the pickle is Python's, of [('a.x', (5, 3))] in protocol 2
    """reader datagram
reader pickle
reader line
piece 2 1 7a203120310a7a203220310a
up 0
offer 2
take 0
offer 2
up 1
piece 0 77 6f6c642e7820312e3020350d0a6f6c642e79203220350d0a
offer 0
wrote 0 3
piece 1 8 0000001b8002
piece 1 8 5d7100580300000061
piece 1 8 2e7871014b054b0386710286710361
offer 0
offer 0
down 0
take 1
take 1
piece 1 8 2e
offer 1
up 2
take 2
wrote 1 5
up 0
down 1
wrote 2 2
up 1
wrote 1 8
end 2
""")


class Isolation(replay.WithScript):
    """Two replays that agree at one destination, and differ in all else."""

    def prints(self, each):
        """What the program prints of a replay, as the reference does, in lines."""
        files = dict(zip(("config", "rules", "rewrite"), each))
        out = reference(Plan(*files.values()), each.script)
        words = ("replay", *self.given(files), self.script(each.script))
        self.same(each.script, run(words), Ran(0, out, b""), words)
        return out.decode().splitlines()

    @staticmethod
    def of_destination(lines, place):
        """The lines of a destination."""
        return [line for line in lines if line.startswith((f"handed {place} ", f"destination {NAME} "))]

    def agree(self, place, replays):
        """A case: the replays print the same of the destination at this place; gives its lines."""
        with self.subTest():
            one, other = map(self.prints, replays)
            self.assertEqual(self.of_destination(one, place), self.of_destination(other, place))
            self.assertNotEqual(one, other)
        return self.of_destination(one, place)

    def test_by_hand(self):
        lines = self.agree(1, (PLAIN, CROWDED))
        self.assertEqual(lines, [
            f"handed 1 0 {b'a.x 1'.hex()}", f"handed 1 1 {b'a.x 1 5'.hex()}0a",
            f"destination {NAME} queued 1 offered 3 kept 2 dropped 1 taken 1"])

    def test_generated(self):
        met = []
        for seed in Settings.seeds:
            source = random.Random(seed)
            for _ in range(PAIRS // len(Settings.seeds)):
                met.append(self.agree(*pair(source)))
        with self.subTest():
            self.assertTrue(any(" dropped 0 " not in lines[-1] for lines in met), "no queue was ever full")
            self.assertTrue(any(len(lines) > 2 for lines in met), "no connection was ever lost")

    def test_what_a_destination_depends_on(self):
        """Its own steps and datapoints do count: without one of them its lines are others."""
        lines = self.of_destination(self.prints(PLAIN), 1)
        for step in ("offer 1\n", "take 1\n", "wrote 1 5\n", "down 1\nup 1\n"):
            without = PLAIN._replace(script=PLAIN.script.replace(step, "", 1))
            with self.subTest():
                self.assertNotEqual(self.of_destination(self.prints(without), 1), lines, step)
