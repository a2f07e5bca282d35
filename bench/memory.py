#!/usr/bin/env python3
"""How much memory a running relay takes whose queues and histories are full, beside the sum of docs/OPERATING.md.

    python3 bench/memory.py [--relayd PATH] [ROW ..]

Each row is a relay of some destinations on a ring, none of which is there. It is sent lines until each queue is full and
each history was full once. In most rows each name occurs once, which takes the most memory. Without a ROW, by number,
all are measured; some take minutes.
"""

import re
import socket
import time

from peers import ADMIN_PORT, HOST, LINE_PORT, Plan, Relayd
from shared import demand, options

HISTORY = 65_536   # steps
CHUNK = 1 << 20    # bytes that are sent between two looks at the clock
REST = 0.5         # seconds between two looks at the relay
STORE = 24000      # the first port at which no store is
ROWS = [           # destinations, MAX_QUEUE_SIZE, bytes of a name, and how many names there are: 0 where each occurs once
    (1, 10_000, 30, 0), (4, 10_000, 30, 0), (4, 10_000, 100, 0), (4, 10_000, 400, 0), (4, 1_000_000, 30, 0),
    (16, 100_000, 100, 0), (64, 10_000, 100, 0), (1, 10_000, 16_300, 0), (64, 10_000, 400, 50_000),
]


def most_memory(dests, size, length):
    """The most bytes that a relay with one receiver takes, as `relayd check --explain` computes them."""
    datapoints = (size + HISTORY) * dests + HISTORY
    return 20_000_000 + 60_000_000 + (6_000_000 + 64 * size) * dests + (100 + length) * datapoints


def lines(length, names):
    """Lines without end, in pieces, whose names have this length and come again after this number."""
    number, tail = 0, "x" * length
    while True:
        piece = []
        for _ in range(max(CHUNK // (length + 5), 1)):
            head = f"n{number % names if names else number};dc=a;host="
            piece.append((head + tail)[:length] + " 1 1\n")
            number += 1
        yield "".join(piece).encode()


class Dead(Relayd):
    """A relay whose memory is looked at."""

    def resident(self):
        """Its resident memory, and the most that it was, in bytes."""
        with open(f"/proc/{self.process.pid}/status", encoding="ascii") as file:
            text = file.read()
        return [1024 * int(re.search(rf"{key}:\s+(\d+) kB", text)[1]) for key in ("VmRSS", "VmHWM")]

    def least_offered(self):
        """How many datapoints were offered to the destination that got the fewest."""
        with socket.create_connection((HOST, ADMIN_PORT)) as admin:
            admin.sendall(b"report\n")
            text = b"".join(iter(lambda: admin.recv(65_536), b""))
        return min(map(int, re.findall(rb" offered (\d+)", text)))


def measured(dests, size, length, names):
    """The most memory that a relay took, in bytes."""
    plan = Plan([STORE + number for number in range(dests)], replicas=1, queue=size)
    with Dead(plan) as relay, socket.create_connection((HOST, LINE_PORT)) as stream:
        wanted, looked = max(size, HISTORY) + HISTORY, time.monotonic()
        for piece in lines(length, names):
            stream.sendall(piece)
            if time.monotonic() > looked + REST:
                if relay.least_offered() >= wanted:
                    break
                looked = time.monotonic()
        return relay.resident()[1]


def main():
    """Measures the rows and prints them."""
    parser = options(__doc__.splitlines()[0], "--relayd", "relayd")
    parser.add_argument("rows", metavar="ROW", nargs="*", type=int)
    given = parser.parse_args()
    demand(given.relayd)
    Relayd.program = given.relayd
    print("| Destinations | MAX_QUEUE_SIZE | Names | The most | Measured |\n|---|---|---|---|---|", flush=True)
    for number, (dests, size, length, names) in enumerate(ROWS):
        if not given.rows or number in given.rows:
            took = measured(dests, size, length, names)
            most = f"{most_memory(dests, size, length) // 1_000_000:,} MB" if not names else ""
            what = f"{length:,} bytes" + (f", {names:,} names" if names else "")
            print(f"| {dests} | {size:,} | {what} | {most} | {took // 1_000_000:,} MB |", flush=True)


if __name__ == "__main__":
    main()
