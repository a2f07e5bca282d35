#!/usr/bin/env python3
"""What more receivers of lines and more senders bring, in turn in one run.

    python3 bench/receivers.py [--relayd PATH] [--rounds N] [--times N]

Eight producers send through `relayd run --line-receivers R --senders S` to a
ring of four stores, for R from 1 to 3 and S from 1 to 2, one after the other
in each round. For each it prints the median of the datapoints that arrived a
second, of the relay's processor seconds for a million, of the processors that
the producers and stores kept busy and that all did together, and how many were
lost; then the bar: two receivers with two senders against one with one, as the
median over rounds. Producers and stores share the machine with the relay, so
the sum says whether it had any processor left to give.
"""

import os
import resource
import statistics

from peers import Relayd
from relaying import STORES, Plan, Scene, build, measure
from shared import demand, missing, options

RECEIVERS, SENDERS = (1, 2, 3), (1, 2)
BAR = 1.6  # times what one receiver and one sender make


def relay_with(receivers, count):
    """A relay with these numbers of receivers of lines and of senders."""

    class Shared(Relayd):
        """Relayd with more threads."""

        senders = count

        def words(self):
            return [*super().words(), "--line-receivers", str(receivers)]

    return Shared


def measure_with_others(scene, kind):
    """One round, and the processors that the producers and stores kept busy and that all did, while datapoints came."""
    before = resource.getrusage(resource.RUSAGE_CHILDREN)
    row = measure(scene, kind)
    if isinstance(row, str):
        return row
    after = resource.getrusage(resource.RUSAGE_CHILDREN)
    rate, used, _, lost = row
    lines = scene.sent() - lost
    seconds, relay = lines / rate, used * lines / 1e6
    spent = after.ru_utime + after.ru_stime - before.ru_utime - before.ru_stime
    return (*row, max(spent - relay, 0) / seconds, spent / seconds)


def main():
    """Measures, and prints the medians."""
    parser = options(__doc__.split("\n", 1)[0], "--relayd", "relayd")
    parser.add_argument("--times", metavar="N", type=int, default=30,
                        help="each producer sends 20,000 datapoints so often a round")
    given = parser.parse_args()
    demand(given.relayd)
    Relayd.program = given.relayd
    build()
    scene = Scene("eight producers, a ring of four", Plan(STORES, replicas=1, queue=1_000_000), given.times, 8)
    print(f"{scene.text}; {scene.sent():,} datapoints sent, {given.rounds} rounds of each, {os.cpu_count()} processors",
          flush=True)
    kinds = {(receivers, senders): relay_with(receivers, senders) for senders in SENDERS for receivers in RECEIVERS}
    rows = {key: [] for key in kinds}
    for i in range(given.rounds):
        for key in kinds if i % 2 == 0 else reversed(kinds):
            row = measure_with_others(scene, kinds[key])
            if isinstance(row, str):
                missing(f"{key[0]} receivers, {key[1]} senders: the relay {row}")
            rows[key].append(row)
    for (receivers, senders), found in rows.items():
        rate, used, _, lost, others, busy = (statistics.median(column) for column in zip(*found))
        print(f"  receivers {receivers}, senders {senders} {rate:12,.0f} /s  {used:6.2f} s CPU a million  "
              f"{others:4.1f} processors for producers and stores, {busy:4.1f} in all  {lost:,.0f} lost", flush=True)
    gain = statistics.median(many[0] / one[0] for many, one in zip(rows[2, 2], rows[1, 1]))
    print(f"  two receivers and two senders beside one of each: {gain:.2f} times the datapoints a second, at least "
          f"{BAR}: {'held' if gain >= BAR else 'missed'}")


if __name__ == "__main__":
    main()
