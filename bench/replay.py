#!/usr/bin/env python3
"""What reading and running a script costs: `relayd replay` of 10,000 events and of 100,000.

    python3 bench/replay.py [--relayd PATH] [--rounds N]

Each script is of one shape: what comes in and goes out as usual, and shapes in which one thing is done very often (a
line of bytes that come one by one, a frame of many pieces, a batch of which each byte is taken by itself, ..). The
times are of the processor, by the median of the rounds. Bars: a script of 100,000 events takes at most a second, and
at most 15 times what one of 10,000 does.
"""

import argparse
import os
import statistics
import sys

from rewriting import DATA, seconds
from shared import demand

HERE = os.path.dirname(os.path.abspath(__file__))
FEW, MANY = 10_000, 100_000
MOST_SECONDS, MOST_TIMES = 1.0, 15
STORES = 8
BATCH = 500
CONFIG = os.path.join(DATA, "replay.conf")
RULES = os.path.join(DATA, "replay-rules.conf")
SETTINGS = f"""[relay]
DESTINATIONS = {", ".join(f"127.0.0.1:{3000 + store}" for store in range(STORES))}
MAX_QUEUE_SIZE = 1000
MAX_DATAPOINTS_PER_MESSAGE = {BATCH}
USE_FLOW_CONTROL = false
DESTINATION_PROTOCOL = line
"""
RULE = "[{0}]\npattern = \\.store{0}\\.\ndestinations = 127.0.0.1:{1}, 127.0.0.1:3000\n"


def line(number, store=0):
    """A line as it is printed; all have the same length."""
    value, time = 1000 + number % 9000, 1_700_000_000 + number
    return b"collectd.store%d.host%05d.cpu.load %d %d\n" % (store, number % 100_000, value, time)


LENGTH = len(line(0))


def one_by_one():
    """A line comes in, is offered, taken and written."""
    yield from ("reader line", "up 0")
    number = 0
    while True:
        number += 1
        yield from (f"piece 0 9 {line(number).hex()}", "offer 0", "take 0", f"wrote 0 {LENGTH}")


def many():
    """Eight readers get ten lines a piece, each for two stores; one of these loses its connection at times."""
    yield from ["reader line"] * STORES
    yield from (f"up {store}" for store in range(STORES))
    number = 0
    while True:
        number += 1
        reader = store = number % (STORES - 1) + 1
        yield f"piece {reader} 9 {b''.join(line(number, store) for _ in range(10)).hex()}"
        yield from [f"offer {reader}"] * 20
        if number % 5 == 0:
            yield from ("take 0", f"wrote 0 {LENGTH * 3 + 7}", "down 0", "up 0", f"wrote 0 {LENGTH * 47}")
        yield from (f"take {store}", f"wrote {store} {LENGTH * 10}")


def datagrams():
    """Datagrams of three lines, which fill a queue that nobody takes from."""
    yield "reader datagram"
    number = 0
    while True:
        number += 1
        yield f"piece 0 9 {(line(number) * 3).hex()}"
        yield from ["offer 0"] * 3


def frame(text, rows):
    """The bytes of a frame with this number of rows of a path."""
    row = b"X" + len(text).to_bytes(4, "little") + text + b"K\x07K\x05\x86\x86"
    pickle = b"\x80\x02](" + row * rows + b"e."
    return len(pickle).to_bytes(4, "big") + pickle


def pickles():
    """Frames of ten rows come in."""
    yield from ("reader pickle", "up 0")
    while True:
        yield f"piece 0 9 {frame(b'collectd.store0.load', 10).hex()}"
        yield from ["offer 0"] * 10
        yield from ("take 0", f"wrote 0 {len('collectd.store0.load 5 7') * 10 + 10}")


def byte_by_byte():
    """A line comes in byte by byte, of the greatest length."""
    yield "reader line"
    while True:
        yield from ["piece 0 9 78"] * 16_384
        yield "end 0"


def pieces_of_a_frame():
    """A frame of the greatest length comes in, in pieces of ten bytes."""
    yield "reader pickle"
    stream = (1_048_576).to_bytes(4, "big") + b"x" * 1_048_576
    while True:
        for place in range(0, len(stream), 10):
            yield f"piece 0 9 {stream[place:place + 10].hex()}"


def byte_after_byte():
    """A batch of 500 lines is written byte by byte."""
    yield from ("reader line", "up 0")
    while True:
        yield f"piece 0 9 {b''.join(map(line, range(BATCH))).hex()}"
        yield from ["offer 0"] * BATCH
        yield "take 0"
        yield from ["wrote 0 1"] * (BATCH * LENGTH)


def offers_of_a_piece():
    """One piece has as many lines as the script has events."""
    yield "reader line"
    yield f"piece 0 9 {b''.join(map(line, range(MANY))).hex()}"
    while True:
        yield "offer 0"


def connections():
    """A connection comes and is lost again and again."""
    yield "reader line"
    while True:
        yield from ("up 0", "down 0")


def refused():
    """No event is allowed."""
    yield "reader line"
    while True:
        yield "take 0"


SHAPES = (one_by_one, many, datagrams, pickles, byte_by_byte, pieces_of_a_frame, byte_after_byte, offers_of_a_piece,
          connections, refused)


def write(shape, events):
    """Writes a script of this many events, and returns its path."""
    path = os.path.join(DATA, f"replay-{shape.__name__}-{events}.script")
    with open(path, "w", encoding="ascii") as file:
        for text in shape():
            file.write(text + "\n")
            events -= not text.startswith("reader")
            if not events:
                return path


def main():
    """Prepares, measures, prints."""
    parser = argparse.ArgumentParser(description="What replaying a script costs.")
    parser.add_argument("--relayd", default=os.path.join(os.path.dirname(HERE), "bin", "relayd"))
    parser.add_argument("--rounds", type=int, default=3)
    given = parser.parse_args()
    relayd = os.path.abspath(given.relayd)
    demand(relayd)
    os.makedirs(DATA, exist_ok=True)
    with open(CONFIG, "w", encoding="ascii") as file:
        file.write(SETTINGS)
    with open(RULES, "w", encoding="ascii") as file:
        file.write("".join(RULE.format(store, 3000 + store) for store in range(1, STORES)))
        file.write("[rest]\ndefault = true\ndestinations = 127.0.0.1:3000\n")
    print(f"seconds of processor, {given.rounds} rounds")
    print(f"{'':20}{FEW:>10,}{MANY:>10,}{'times':>8}{'us an event':>13}{'script':>12}")
    held = True
    for shape in SHAPES:
        paths = [write(shape, events) for events in (FEW, MANY)]
        words = [relayd, "replay", "--config", CONFIG, "--rules", RULES]
        few, all_events = (statistics.median(seconds([*words, path]) for _ in range(given.rounds)) for path in paths)
        held = held and all_events <= MOST_SECONDS and all_events <= MOST_TIMES * max(few, 0.01)
        print(f"{shape.__name__.replace('_', ' '):20}{few:10.3f}{all_events:10.3f}{all_events / max(few, 0.001):8.1f}"
              f"{all_events / MANY * 1e6:13.2f}{os.path.getsize(paths[1]) // 1024:>9,} KB", flush=True)
        for path in paths:
            os.remove(path)
    print(f"{MANY:,} events in at most {MOST_SECONDS:.0f} s, and {MOST_TIMES} times what {FEW:,} take:",
          "held" if held else "NOT HELD")


if __name__ == "__main__":
    sys.exit(main())
