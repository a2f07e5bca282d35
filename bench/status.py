#!/usr/bin/env python3
"""What the status server costs the running relay, in turn in one run.

    python3 bench/status.py [--relayd PATH] [--rounds N] [--times N]

One producer sends the same datapoints to `relayd run --status`, and its store
takes them. In every other round a client asks the status server ten times a
second, for the page, the JSON and the metrics in turn. For both it prints the
median of the datapoints that arrived a second and of the relay's processor
seconds for a million, and then the median ratios over pairs of neighbouring
rounds. Other work on the machine changes these by more than the server costs.
So the bar is for what the server's own thread takes of the processor: at most
one hundredth of one processor when it answers ten times a second.
"""

import http.client
import os
import statistics
import threading

from peers import HOST, Relayd
from relaying import STORES, Plan, Scene, build, measure
from shared import demand, missing, options

STATUS_PORT = 22007
PATHS = ("/", "/status.json", "/metrics")
PAUSE = 0.1  # seconds from a request to the next
BAR = 0.01  # of one processor


class Unasked(Relayd):
    """A relay whose status server nobody asks."""

    name = "without a client"

    def words(self):
        return [*super().words(), "--status", str(STATUS_PORT)]

    def threads(self):
        """The nanoseconds of processor that each thread has used, under its name."""
        folder = f"/proc/{self.process.pid}/task"
        for thread in os.listdir(folder):
            with open(f"{folder}/{thread}/comm", encoding="ascii") as name, \
                    open(f"{folder}/{thread}/schedstat", encoding="ascii") as used:
                yield name.read().strip(), int(used.read().split()[0])

    def processor_seconds(self):
        return sum(used for _, used in self.threads()) / 1e9


class Asked(Unasked):
    """A relay whose status server a client asks ten times a second."""

    name = "asked ten times a second"
    answers = 0  # of all rounds
    answering = 0  # nanoseconds that the status server's thread has used in all rounds

    def __enter__(self):
        super().__enter__()
        self.ended = threading.Event()
        self.client = threading.Thread(target=self.ask)
        self.client.start()
        return self

    def end(self):
        self.ended.set()
        self.client.join()
        Asked.answering += sum(used for name, used in self.threads() if name == "status")
        super().end()

    def ask(self):
        """Asks until the relay is to end."""
        while not self.ended.wait(PAUSE):
            client = http.client.HTTPConnection(HOST, STATUS_PORT, timeout=10)
            client.request("GET", PATHS[Asked.answers % len(PATHS)])
            answer = client.getresponse()
            if answer.status != 200 or not answer.read():
                raise RuntimeError(f"the status server answered {answer.status}")
            client.close()
            Asked.answers += 1


def main():
    """Measures, and prints the medians."""
    parser = options(__doc__.split("\n", 1)[0], "--relayd", "relayd")
    parser.add_argument("--times", metavar="N", type=int, default=100, help="sends 20,000 datapoints so often a round")
    given = parser.parse_args()
    demand(given.relayd)
    Relayd.program = given.relayd
    build()
    scene = Scene("one producer, one store, relayd run --status", Plan(STORES[:1], queue=1_000_000), given.times)
    print(f"{scene.text}; {scene.sent():,} datapoints sent, {given.rounds} rounds of each", flush=True)
    kinds = (Unasked, Asked)
    rows = {kind: [] for kind in kinds}
    for i in range(given.rounds):
        for kind in kinds if i % 2 == 0 else reversed(kinds):
            row = measure(scene, kind)
            if isinstance(row, str):
                missing(f"{kind.name}: the relay {row}")
            rows[kind].append(row)
    for kind in kinds:
        rate, used, _, lost = (statistics.median(column) for column in zip(*rows[kind]))
        print(f"  {kind.name:25} {rate:12,.0f} /s  {used:7.3f} s CPU a million  {lost:,.0f} lost")
    rate, used = (statistics.median(asked[i] / unasked[i] for unasked, asked in zip(rows[Unasked], rows[Asked]))
                  for i in range(2))
    print(f"  asked beside not asked: {rate:.3f} times the datapoints a second, {used:.3f} times the processor time")
    answer = Asked.answering / max(Asked.answers, 1) / 1e9
    share = answer / PAUSE
    print(f"  {Asked.answers:,} answers, {answer * 1e6:,.0f} us of processor each: {share:.2%} of one processor at ten a "
          f"second, at most {BAR:.0%}: {'held' if share <= BAR else 'missed'}")


if __name__ == "__main__":
    main()
