#!/usr/bin/env python3
"""Bursts into carbon's usual queue of 10,000, in turn in one run: how many datapoints are lost.

    python3 bench/bursts.py [--relayd PATH] [--beside PATH] [--rounds N]

Two million datapoints come as fast as a producer sends them, and as fast as
eight do, for a store that reads; and for one beside a store that takes nothing.
--beside names another build of the relay, measured in turn. For each are
printed how many rounds lost nothing at the stores that read, the most that one
lost, and the medians of what arrived a second and of the processor seconds for
a million. To see it with two processors, run it under `taskset -c 0,1`.
"""

import os
import statistics

from peers import Plan, Relayd
from relaying import NAMES, STORES, Scene, build, measure
from shared import demand, options

BURST = 2_000_000
QUEUE = 10_000
SCENES = ("one producer", STORES[:1], 1, ()), ("eight producers", STORES[:1], 8, ()), (
    "one producer, beside a store that takes nothing", STORES[:2], 1, STORES[1:2])


def scene_of(text, stores, connections, stalled):
    """A burst for some stores."""
    times = -(-BURST // (NAMES * connections))
    scene = Scene(text, Plan(stores, queue=QUEUE), times, connections, stalled=stalled)
    scene.plan.room = 0
    return scene


def relays(beside):
    """The relays that are measured in turn."""
    yield Relayd
    if beside:
        class Beside(Relayd):
            """Another build."""

            name = "the other build"

        Beside.program = beside
        yield Beside


def show(name, rows):
    """A relay's rounds in one line."""
    for trouble in (row for row in rows if isinstance(row, str)):
        print(f"  {name:16} {trouble}, and was ended", flush=True)
    rows = [row for row in rows if not isinstance(row, str)]
    if rows:
        rate, used, _, _ = (statistics.median(column) for column in zip(*rows))
        lost = [row[3] for row in rows]
        print(f"  {name:16} {sum(not it for it in lost)} of {len(lost)} rounds lost nothing, at most {max(lost):,}; "
              f"{rate:,.0f} /s, {used:.2f} s CPU a million", flush=True)


def main():
    """Measures, and prints a line for each relay and scene."""
    parser = options(__doc__.split("\n", 1)[0], "--relayd", "relayd")
    parser.add_argument("--beside", metavar="PATH", type=os.path.abspath, help="another build, measured in turn")
    parser.set_defaults(rounds=10)
    told = parser.parse_args()
    demand(told.relayd)
    Relayd.program = told.relayd
    build()
    for row in SCENES:
        scene = scene_of(*row)
        print(f"\n{scene.text}", flush=True)
        kinds = list(relays(told.beside))
        rows = {kind.name: [] for kind in kinds}
        for _ in range(told.rounds):
            for kind in kinds:
                rows[kind.name].append(measure(scene, kind))
        for name, found in rows.items():
            show(name, found)


if __name__ == "__main__":
    main()
