"""A line that is longer than relays and stores read is the last of its connection: it takes nothing of others with it."""

import pickle
import socket
import threading
import time

from fixtures.harness import LIMIT, LONGEST_LINE, Settings
from fixtures.log import Log
from fixtures.running import WithRelays

ALL = "[all]\ndefault = true\ndestinations = {}\n"
PACE = 0.002   # seconds between two datapoints of the honest producer
AFTER = 300    # datapoints that it sends behind the last long line
ENDED = b"ended after a line of more than 16384 bytes"
# The names of datapoints that are accepted, and whose lines are longer than lines may be.
BY_LINE, BY_PICKLE = b"x" * (LONGEST_LINE - 5), "x" * LONGEST_LINE
# A line that is exactly as long as lines may be.
LONGEST = b"honest." + b"y" * (LONGEST_LINE - 11) + b" 1 1"


def by_line(relay):
    """A datapoint whose line is too long, since the time in it takes the place of -1."""
    relay.lines(BY_LINE + b" 1 -1\n")


def by_datagram(relay):
    """The same by a datagram."""
    relay.datagram(BY_LINE + b" 1 -1")


def by_pickle(relay):
    """One whose name alone has as many bytes as a line may have."""
    relay.pickles(pickle.dumps([(BY_PICKLE, (1, 1))], 2))


class LastLines(WithRelays):
    """An honest producer beside one whose lines are too long, and a store that gets its datapoints by a second relay."""

    def test_all_of_the_others_arrive(self):
        """Beside long lines of each kind; in the longer form beside 5 and 50 a second."""
        self.beside(1 / 3, 1)
        if Settings.longer:
            for rate, count in ((5, 10), (50, 25)):
                with self.subTest(rate):
                    self.beside(1 / rate, count)

    def beside(self, pause, count):
        """All arrives, once and in order, beside this many long lines of each kind with this pause between them."""
        store, = self.stores(1)
        end = f"127.0.0.1:{store.port}"
        with self.relay([end], ALL.format(end), MAX_QUEUE_SIZE="100000") as second:
            dest = f"127.0.0.1:{second.line}"
            with self.relay([dest], ALL.format(dest), options=("--log",), MAX_QUEUE_SIZE="100000") as first:
                log = Log(first.child.stderr)
                ends, sent = threading.Event(), []
                producer = threading.Thread(target=self.produce, args=(first, ends, sent), daemon=True)
                producer.start()
                for _ in range(count):
                    for send in (by_line, by_pickle, by_datagram):
                        time.sleep(pause)
                        send(first)
                after = len(sent) + AFTER
                self.wait_for(lambda: len(sent) > after, "it sends more")
                ends.set()
                producer.join(LIMIT)
                self.wait_for(lambda: len(store.lines()) >= len(sent), "all of the others has come")
                self.assertEqual(store.lines(), sent)
                self.assertEqual(first.totals()["dropped"], 0)
                self.wait_for(lambda: any(ENDED in line for line in log.of(dest)), "the log says why it is connected anew")
                self.assertEqual(first.command(b"stop"), b"stopping\n")
                self.assertEqual(first.child.wait(LIMIT), 0)
            second.stop()

    def produce(self, relay, ends, sent):
        """Sends numbered lines until it is to end, and notes what a store gets of them."""
        with socket.create_connection(("127.0.0.1", relay.line), LIMIT) as stream:
            while not ends.wait(PACE):
                line = b"honest.line %d 1" % len(sent)
                stream.sendall(line + b"\n")
                sent.append(line)

    def test_a_line_of_the_longest_length(self):
        """It arrives, and what comes behind it comes by the same connection."""
        store, = self.stores(1)
        dest = f"127.0.0.1:{store.port}"
        with self.relay([dest], ALL.format(dest)) as relay:
            relay.lines(LONGEST + b"\nhonest.line 2 1\n")
            self.wait_for(lambda: store.lines() == [LONGEST, b"honest.line 2 1"], "both lines have come")
            self.assertEqual(store.connections(), 1)
            self.settles(relay)

    def test_a_store_that_does_not_close(self):
        """Behind a long line it has a second, and then the next connection begins; the long line is not sent again."""
        store, = self.stores(1, closes=False)
        dest = f"127.0.0.1:{store.port}"
        with self.relay([dest], ALL.format(dest)) as relay:
            relay.pickles(pickle.dumps([(BY_PICKLE, (1, 1)), ("honest.line", (1, 2))], 2))
            lines = [BY_PICKLE.encode() + b" 1 1", b"honest.line 2 1"]
            self.wait_for(lambda: store.lines() == lines, "both lines have come")
            self.assertEqual(store.connections(), 2)
            self.settles(relay)
