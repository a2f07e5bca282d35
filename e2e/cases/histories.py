"""Random histories of a relay beside a small model (`e2e/histories.py`). `make hostile` plays more of them."""

import random

from fixtures import harness
from fixtures.harness import Settings
from fixtures.histories import play_all

SEEDS = (*range(2, 10), 11, 13, 1_100_183)  # the last one reloads while lines that had no room in files are sent
MORE = 200
AT_ONCE = 10


class Histories(harness.Suite):
    """Sends, lost stores, reloads, stops and kills by chance."""

    def test_random_histories(self):
        """Each line comes to each of its stores once, in order, or stays in a file, or is counted."""
        seeds = SEEDS
        if Settings.longer:
            first = random.SystemRandom().randrange(1_000_000)
            seeds = range(first, first + MORE)
        for said in play_all(Settings.relayd, seeds, AT_ONCE):
            with self.subTest():
                self.fail(said)
