#!/usr/bin/env python3
"""What the costliest pickles cost a running relay beside an ordinary one of the same length.

    python3 bench/pickles.py [--relayd PATH] [--rounds N]

Each frame is as long as a frame may be, 1,048,576 bytes. `relayd run` reads it and offers its datapoints to one queue,
whose store is not there. The times are of the processor. A frame of shared rows has many times the rows of an ordinary one,
so what counts is a row. The last lines say whether one of the costliest frame takes at most 1.5 times an ordinary one's,
and whether the memory that the relay takes for each frame is under 64 bytes for each of its bytes.
"""

import pickle
import random
import socket
import statistics
import struct

from peers import HOST, PICKLE_PORT, Plan, Relayd
from shared import demand, missing, options

LONGEST = 1_048_576
BAR_ROW = 1.5
BAR_BYTES = 64
FRAMES = 16      # read one after the other, where the time is measured
SLOW = 1.0       # seconds of the processor; what a frame takes above it is measured with this one alone
PLAN = Plan([22101], replicas=1, queue=1000)
PATIENCE = 60    # seconds within which the relay is to read what is sent
BEGIN = b"\x80\x02]"


def filled(head, unit, tail=b""):
    """The head, as many units as there is room for, and the tail."""
    return head + unit * ((LONGEST - len(head) - len(tail)) // len(unit)) + tail


def numbered(units):
    """A list begun, and then these units as far as there is room."""
    data = bytearray(BEGIN + b"K\x01")
    for unit in units:
        if len(data) + len(unit) > LONGEST:
            break
        data += unit
    return bytes(data)


def put(number):
    return b"r" + struct.pack("<L", number)


def text(content):
    return b"X" + struct.pack("<L", len(content)) + content


def ordinary(protocol):
    """The longest list of rows, with a name of its own in each, that fits."""
    rows = [(f"servers.web{i % 97:03d}.cpu{i}.load.average", (1700000000 + i % 60, i * 7)) for i in range(30000)]
    few, many = 1, len(rows)
    while many - few > 1:
        middle = (few + many) // 2
        if len(pickle.dumps(rows[:middle], protocol=protocol)) <= LONGEST:
            few = middle
        else:
            many = middle
    return pickle.dumps(rows[:few], protocol=protocol)


def costly():
    """Pickles that cost much, by name."""
    rng = random.Random(1)
    row = b"U\x01aK\x01K\x01\x86\x86"
    name = text(b"a" * 16384)
    no_name = text(b"a" * 16383 + b" ")
    digits = text(b"1" * 500_000)
    return {
        "numbers of one byte": filled(BEGIN, b"K\x01"),
        "NONE": filled(BEGIN, b"N"),
        "marks": filled(BEGIN, b"("),
        "empty texts": filled(BEGIN, b"U\x00"),
        "texts that are names": filled(BEGIN, b"U\x01a"),
        "pairs of NONE": filled(BEGIN, b"NN\x86"),
        "rows that give no datapoint": filled(BEGIN + b"(", b"U\x01aNN\x86\x86", b"e."),
        "rows of a shared pair": filled(
            BEGIN + b"(U\x01aK\x01K\x01\x86q\x00\x86", b"U\x01ah\x00\x86", b"e."),
        "MEMOIZE": filled(b"\x80\x04]K\x01", b"\x94"),
        "texts that are stored": filled(BEGIN, b"U\x01a\x94"),
        "one number of the memo": filled(BEGIN + b"K\x01", b"q\x00"),
        "memo numbers upwards": numbered(put(i * 20_479) for i in range(2**32 // 20_479)),
        "memo numbers downwards": numbered(put(2**32 - 1 - i * 20_479) for i in range(2**32 // 20_479)),
        "memo numbers at random": numbered(put(rng.randrange(2**32)) for _ in range(LONGEST)),
        "a list appended to from many marks": filled(BEGIN, b"(e", b"."),
        "the same with a shared row": filled(BEGIN + b"(" + row + b"q\x00e", b"(h\x00e", b"."),
        "a shared row, appended one by one": filled(BEGIN + row + b"q\x00a", b"h\x00a", b"."),
        "a shared row": filled(BEGIN + b"(" + row + b"q\x00", b"h\x00", b"e."),
        "a shared row of the longest name": filled(
            BEGIN + b"(" + name + b"K\x01K\x01\x86\x86q\x00", b"h\x00", b"e."),
        "the longest name, shared by rows": filled(
            BEGIN + b"(" + name + b"q\x01K\x01K\x01\x86q\x02\x86", b"h\x01h\x02\x86", b"e."),
        "a long text that is no name, shared by rows": filled(
            BEGIN + b"(" + no_name + b"q\x01K\x01K\x01\x86q\x02\x86", b"h\x01h\x02\x86", b"e."),
        "a long text as a value, shared by rows": filled(
            BEGIN + b"(U\x01aq\x01K\x01" + digits + b"\x86q\x02\x86", b"h\x01h\x02\x86", b"e."),
    }


def send(frames):
    """Sends frames to the relay on a connection of their own, and waits until it has read them and ends it."""
    with socket.create_connection((HOST, PICKLE_PORT), PATIENCE) as connection:
        connection.sendall(frames)
        connection.shutdown(socket.SHUT_WR)
        if connection.recv(1):
            missing("the relay writes to a connection of pickles")


def rows_of(name, pickled):
    """How many rows a frame of rows has, as Python reads it, and 1 for any other, which Python may not even read."""
    return len(pickle.loads(pickled)) if "row" in name else 1


def cost_of(pickled, rounds):
    """Seconds of the processor for one frame, and the bytes of memory that a relay takes for its first."""
    if len(pickled) > LONGEST or len(pickled) < LONGEST - 100:
        missing(f"a pickle of {len(pickled)} bytes is not of the longest")
    frame = struct.pack("!L", len(pickled)) + pickled
    with Relayd(PLAN) as relay:
        before, began = relay.peak_memory(), relay.processor_seconds()
        send(frame)
        memory = (relay.peak_memory() - before) * 1024
        first = relay.processor_seconds() - began
        if first > SLOW:
            return first, memory
        runs = []
        for _ in range(rounds):
            used = relay.processor_seconds()
            send(frame * FRAMES)
            runs.append(relay.processor_seconds() - used)
    return statistics.median(runs) / FRAMES, memory


def main():
    """Makes each frame, measures and prints."""
    given = options("The benchmark of costly pickles.", "--relayd", "relayd").parse_args()
    demand(given.relayd)
    Relayd.program = given.relayd

    pickles = {f"ordinary rows, protocol {protocol}": ordinary(protocol) for protocol in (2, 4)} | costly()
    costs = {name: cost_of(pickled, given.rounds) for name, pickled in pickles.items()}
    usual, *_ = costs.values()
    print(f"{LONGEST:,} bytes each, {given.rounds} rounds of {FRAMES} frames")
    print(f"{'':45} {'ms a frame':>10} {'times':>6} {'us a row':>9} {'memory':>12} {'bytes a byte':>13}")
    for name, (seconds, memory) in costs.items():
        rows = rows_of(name, pickles[name])
        row = f"{seconds / rows * 1e6:9.2f}" if rows > 1 else f"{'':9}"
        print(f"{name:45} {seconds * 1000:10.1f} {seconds / usual[0]:6.1f} {row} {memory // 1024:9} KB {memory / LONGEST:13.1f}")
    ordinary_row, costliest = (costs[name][0] / rows_of(name, pickles[name]) for name in (next(iter(costs)), max(costs, key=costs.get)))
    peak = max(memory for _, memory in costs.values())
    print(f"a row of the costliest at most {BAR_ROW} times an ordinary one: "
          f"{'held' if costliest <= BAR_ROW * ordinary_row else 'NOT HELD'}")
    print(f"under {BAR_BYTES} bytes for each byte of the frame: {'held' if peak < BAR_BYTES * LONGEST else 'NOT HELD'}")


if __name__ == "__main__":
    main()
