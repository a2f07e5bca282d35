"""A datapoint whose time is -1 gets the second of the clock at which it arrives, in lines, pickles and datagrams."""

import pickle
import socket
import time

from fixtures.harness import LIMIT
from fixtures.running import WithRelays, frame

ALL = "[all]\ndefault = true\ndestinations = {}\n"
WAIT = 60  # seconds


def seconds():
    """The second of the clock."""
    return int(time.time())


class Moments(WithRelays):
    """A running relay that stamps datapoints."""

    def test_the_second_of_its_arrival(self):
        """Not that of the start, nor of the connection, nor of the first byte: a line's is that of its newline, and a
        frame's that of its last byte."""
        store, = self.stores(1)
        dest = f"127.0.0.1:{store.port}"
        first_half, second_half = b"begun.line 4 -", b"1\n"
        begun = frame(pickle.dumps([("begun.pickle", (-1, 5))], 2))
        with self.relay([dest], ALL.format(dest)) as relay, \
                socket.create_connection(("127.0.0.1", relay.line), LIMIT) as lines, \
                socket.create_connection(("127.0.0.1", relay.pickle), LIMIT) as frames:
            def arrive(turn, line, of_frame):
                lines.sendall(line)
                frames.sendall(of_frame)
                relay.datagram(b"datagram.%d 3 -1\nother.%d 3 -1.5" % (turn, turn))

            row = frame(pickle.dumps([("pickle.1", (-1, 2)), ("float.1", (-1.0, 2))], 2))
            self.stamps(store, lambda: arrive(1, b"line.1 1 -1\n" + first_half, row + begun[:-1]),
                        {b"line.1": b"1", b"pickle.1": b"2", b"float.1": b"2", b"datagram.1": b"3", b"other.1": b"3"})
            row = frame(pickle.dumps([("pickle.2", (-1, 2))], 5))
            self.stamps(store, lambda: arrive(2, second_half + b"line.2 1 -1\n", begun[-1:] + row),
                        {b"line.2": b"1", b"pickle.2": b"2", b"datagram.2": b"3", b"other.2": b"3",
                         b"begun.line": b"4", b"begun.pickle": b"5"})
            self.settles(relay)

    def stamps(self, store, send, wanted):
        """The store gets all that is sent with a second from that before it was sent to that after the store had it."""
        before = len(store.lines())
        earliest = seconds()
        send()
        self.wait_for(lambda: len(store.lines()) >= before + len(wanted), f"{sorted(wanted)} arrive", WAIT)
        latest = seconds()
        lines = [line.split() for line in store.lines()[before:]]
        self.assertEqual({name: value for name, value, _ in lines}, wanted)
        for name, _, moment in lines:
            if not earliest <= int(moment) <= latest:
                self.fail(f"{name} arrived from {earliest} to {latest} and has {moment}")
        self.wait_for(lambda: seconds() > latest, "the next second begins", WAIT)
