#!/usr/bin/env python3
"""An outage of a store, beside three others that notice nothing: with --spool-size it gets all in order, once.

    python3 e2e/outage.py --relayd PATH [--rate N] [--away SECONDS] [--queue N] [--kill]

Lines come at a rate while one of four stores is away for so long, and until it has them all. With --kill the relay is killed in
the middle, and started again: then at most a piece may come twice, and what was in memory is missing. The status is 0 only where
each store has what it is to have. It prints how long the return took, the median way of a line to the others before and during the
outage, and the memory and the processor time of the relay.
"""

import argparse
import contextlib
import os
import signal
import socket
import statistics
import subprocess
import sys
import tempfile
import threading
import time

sys.dont_write_bytecode = True

from fixtures.running import Relay
from fixtures.stores import free_ports, until

PIECE = 65_536        # bytes of a file that are sent at once
IN_MEMORY = 600_000   # bytes that a kill loses beside the queue
BETWEEN = 0.01        # seconds between two writes of the producer
LINE = b"outage.%012d 1 1700000000\n"
LENGTH = len(LINE % 0)
MARK = 25_000         # each so many lines one is timed


class Counter:
    """A store that checks the numbers of lines as they come: how many are in order, missing or there twice."""

    def __init__(self, port):
        self.port, self.next, self.missing, self.twice, self.begun = port, 0, 0, 0, {}
        self.came = {}  # when marks came
        self.listener, self.lock, self.open = None, threading.Lock(), []

    def stop(self):
        """It goes away, with all that it was sent read."""
        for stream in [self.listener, *self.open]:
            with contextlib.suppress(OSError):
                stream.shutdown(socket.SHUT_RDWR)
            stream.close()

    def start(self):
        self.listener = socket.create_server(("127.0.0.1", self.port))
        threading.Thread(target=self.take, args=(self.listener,), daemon=True).start()

    def take(self, listener):
        with contextlib.suppress(OSError):
            while True:
                stream, _ = listener.accept()
                self.open.append(stream)
                threading.Thread(target=self.read, args=(stream,), daemon=True).start()

    def read(self, stream):
        rest = b""
        with contextlib.suppress(OSError):
            while more := stream.recv(1 << 18):
                rest += more
                whole = len(rest) // LENGTH * LENGTH
                with self.lock:
                    self.check(rest[:whole])
                rest = rest[whole:]
        stream.close()

    def check(self, text):
        """Counts lines: where they are those that are next, all at once."""
        now = time.monotonic()
        while text:
            count = min(len(text) // LENGTH, 4_096)
            if text[:count * LENGTH] == b"".join(LINE % number for number in range(self.next, self.next + count)):
                for mark in range(-(-self.next // MARK) * MARK, self.next + count, MARK):
                    self.came[mark] = now
                self.next += count
            else:
                for place in range(count):
                    self.one(int(text[place * LENGTH + 7:][:12]))
            text = text[count * LENGTH:]

    def one(self, number):
        if number < self.next:
            self.twice += 1
        else:
            self.missing += number - self.next
            self.next = number + 1


class Producer:
    """Lines at a rate, over one connection after another."""

    def __init__(self, rate):
        self.rate, self.sent, self.port, self.at, self.ends, self.rests = rate, 0, None, {}, False, False

    def run(self):
        each = int(self.rate * BETWEEN)
        while not self.ends:
            with contextlib.suppress(OSError), socket.create_connection(("127.0.0.1", self.port)) as stream:
                due = time.monotonic()
                while not self.ends:
                    while self.rests:
                        due = time.monotonic()
                        time.sleep(BETWEEN)
                    text = b"".join(LINE % number for number in range(self.sent, self.sent + each))
                    for mark in range(-(-self.sent // MARK) * MARK, self.sent + each, MARK):
                        self.at[mark] = time.monotonic()
                    stream.sendall(text)
                    self.sent += each
                    due += BETWEEN
                    time.sleep(max(due - time.monotonic(), 0))
            time.sleep(0.05)


def begin(given, folder, ports, dests):
    """Starts the relay."""
    line, pickle, udp, admin = ports
    with open(os.path.join(folder, "relay.conf"), "w", encoding="ascii") as file:
        file.write(f"[relay]\nDESTINATIONS = {', '.join(dests)}\nRELAY_METHOD = rules\nUSE_FLOW_CONTROL = False\n"
                   f"DESTINATION_PROTOCOL = line\nMAX_QUEUE_SIZE = {given.queue}\nLINE_RECEIVER_INTERFACE = 127.0.0.1\n"
                   f"LINE_RECEIVER_PORT = {line}\nPICKLE_RECEIVER_PORT = {pickle}\nUDP_RECEIVER_PORT = {udp}\n")
    with open(os.path.join(folder, "rules.conf"), "w", encoding="ascii") as file:
        file.write(f"[all]\ndefault = true\ndestinations = {', '.join(dests)}\n")
    words = ["run", "--config", f"{folder}/relay.conf", "--rules", f"{folder}/rules.conf", "--admin", str(admin),
             "--spool", f"{folder}/spool", "--spool-size", str(given.size)]
    child = subprocess.Popen([given.relayd, *words], stdout=subprocess.PIPE)
    relay = Relay(child, line, pickle, udp, admin)
    if not relay.is_ready():
        sys.exit("the relay is not ready")
    return relay


def way(producer, store, since, until_):
    """The median milliseconds of marks on their way to a store."""
    ways = [store.came[mark] - at for mark, at in producer.at.items() if since <= at < until_ and mark in store.came]
    return statistics.median(ways) * 1_000 if ways else float("nan")


def main():
    parser = argparse.ArgumentParser(description=__doc__.partition("\n")[0])
    parser.add_argument("--relayd", type=os.path.abspath, required=True)
    parser.add_argument("--rate", type=int, default=50_000)
    parser.add_argument("--away", type=int, default=600)
    parser.add_argument("--queue", type=int, default=10_000)
    parser.add_argument("--size", type=int, default=16 << 30)
    parser.add_argument("--kill", action="store_true")
    given = parser.parse_args()
    stores = [Counter(port) for port in free_ports(4)]
    dests = [f"127.0.0.1:{it.port}" for it in stores]
    ports = free_ports(4)
    with tempfile.TemporaryDirectory() as folder:
        os.mkdir(f"{folder}/spool")
        for it in stores:
            it.start()
        relay = begin(given, folder, ports, dests)
        producer = Producer(given.rate)
        producer.port = relay.line
        thread = threading.Thread(target=producer.run)
        thread.start()
        began = time.monotonic()
        time.sleep(5)
        gone = stores[0]
        producer.rests = True
        until(lambda: gone.next == producer.sent, 20)
        gone.stop()
        stores[0] = Counter(gone.port)
        producer.rests = False
        away_at = time.monotonic()
        print(f"the store is away; until then it had {gone.next:,} lines", flush=True)
        middle, before_kill = given.away / 2, None
        time.sleep(middle)
        if given.kill:
            relay.child.send_signal(signal.SIGKILL)
            relay.child.wait()
            before_kill = producer.sent
            relay = begin(given, folder, ports, dests)
        time.sleep(given.away - middle)
        back_at = time.monotonic()
        stores[0].next = gone.next
        stores[0].start()
        print(f"the store is back after {back_at - away_at:.0f} s; {producer.sent:,} lines were sent", flush=True)
        limit = given.away * 2 + 60
        if not until(lambda: producer.sent - stores[0].next < given.rate, limit):
            print(f"FAULT it had {stores[0].next:,} of {producer.sent:,} after {limit} s")
        returned = time.monotonic() - back_at
        time.sleep(2)
        memory, processor = relay.resident(), relay.processor_seconds()
        producer.ends = True
        thread.join()
        until(lambda: all(it.next == producer.sent for it in stores), 60)
        report = relay.report()
        relay.stop()
        print(f"it had all {returned:.1f} s after its return; memory {memory / 1e6:.0f} MB, processor {processor:.1f} s")
        print(f"the way to another store: {way(producer, stores[1], began, away_at):.2f} ms before, "
              f"{way(producer, stores[1], away_at, back_at):.2f} ms during, "
              f"{way(producer, stores[1], back_at, back_at + returned):.2f} ms while the files were sent")
        print("killed at", before_kill, "of", producer.sent)
        faults = 0
        for place, it in enumerate(stores):
            print(f"store {place}: {it.next:,} lines, {it.missing:,} missing, {it.twice:,} twice; {report[place][1]}")
            lost = (IN_MEMORY // LENGTH + given.queue + given.rate) if given.kill else 0
            faults += it.next != producer.sent or it.missing > lost or it.twice > (PIECE // LENGTH + 1 if given.kill else 0)
    return 1 if faults else 0


if __name__ == "__main__":
    sys.exit(main())
