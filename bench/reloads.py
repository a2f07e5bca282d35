#!/usr/bin/env python3
"""What a new configuration costs while the relay runs: `relayd reload`, beside SIGHUP of carbon-c-relay, in turn in one run.

    python3 bench/reloads.py [--relayd PATH] [--rounds N]

20 producers send 20,000 datapoints a second in all, and beside them come 1,000
datagrams a second (`e2e/fixtures/restarting.py`), to a store, and to another
one that is away, whose queue of 10,000 is full. Each relay takes the same files
again, once a second. Printed are, as medians of all rounds,

- the longest time between two pieces that the store gets: around a reload, in
  the middle and the longest of all, and likewise in as many times between two;
- how many datapoints and datagrams are lost, and how many come twice;
- the resident memory before the first reload and the most of all, in MB.
"""

import signal
import socket
import statistics
import time

from peers import ADMIN_PORT, HOST, LINE_PORT, CarbonCRelay, Plan
from restarts import STORE, ServiceRelayd, began_store, datagram_port, given_rounds, show

from fixtures.restarting import CHUNK, Came, Load  # noqa: E402

AWAY = STORE + 1
QUEUE = 10_000
RELOADS = 20
BETWEEN = 1.0   # seconds
AROUND = 0.25   # seconds after a reload, and in the middle between two, in which pieces are looked at


class Reloaded(ServiceRelayd):
    """Relayd, which reads its files again."""

    def reload(self):
        with socket.create_connection((HOST, ADMIN_PORT), timeout=5) as admin:
            admin.sendall(b"reload\n")
            admin.shutdown(socket.SHUT_WR)
            answer = b"".join(iter(lambda: admin.recv(4_096), b""))
        if not answer.startswith(b"reloaded"):
            raise RuntimeError(f"the relay answers {answer}")


class HungUp(CarbonCRelay):
    """carbon-c-relay, which reads its file again."""

    def reload(self):
        self.process.send_signal(signal.SIGHUP)


def memory(relay, key):
    """A number of the memory of a relay's process, in MB; 0 of one that has ended."""
    with open(f"/proc/{relay.process.pid}/status", encoding="ascii") as file:
        return next((int(line.split()[1]) for line in file if line.startswith(key)), 0) / 1_000


def longest(moments, since):
    """The longest time between two pieces from a moment on, in milliseconds."""
    some = [moment for moment in moments if since - 0.05 <= moment <= since + AROUND]
    return max((after - before for before, after in zip(some, some[1:])), default=0.0) * 1e3


def reloads(kind):
    """The longest times between two pieces around reloads and between them, what was lost and came twice, and the memory."""
    begun = []
    with began_store() as store:
        relay = kind(Plan([STORE, AWAY], queue=QUEUE, udp=True))
        with relay, Load(LINE_PORT, datagram_port(relay)) as load:
            time.sleep(2 * BETWEEN)
            before = memory(relay, "VmRSS")
            for _ in range(RELOADS):
                begun.append(time.monotonic())
                relay.reload()
                time.sleep(BETWEEN)
            found = load.end()
            time.sleep(BETWEEN)
            most = memory(relay, "VmHWM")
        store.finish()
        came = Came([store])
        moments = sorted(moment for pieces in store.pieces for _, moment in pieces)
    around = [longest(moments, moment) for moment in begun]
    between = [longest(moments, moment + BETWEEN / 2) for moment in begun]
    lost = sum(map(len, came.lost(found).values())) * CHUNK
    return (statistics.median(around), max(around), statistics.median(between), max(between), lost,
            len(came.lost_datagrams(found)), came.twice(), before, most)


def main():
    """Measures all."""
    rounds = given_rounds(__doc__.split("\n", 1)[0])
    kinds = [kind for kind in (Reloaded, HungUp) if not kind.missing()]
    show("a reload at 20,000 a second", ("{:.2f} ms between two pieces around a reload,", "{:.2f} at most;",
                                         "{:.2f} between two reloads,", "{:.2f} at most;", "{:,.0f} lost,",
                                         "{:,.0f} datagrams,", "{:,.0f} twice;", "{:,.0f} MB before,", "{:,.0f} at most"),
         reloads, kinds, rounds)


if __name__ == "__main__":
    main()
