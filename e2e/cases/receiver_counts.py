"""What `relayd run` shows of its receivers is what they counted: each number at its own place, in JSON, metrics and page."""

import pickle
import re
import socket

from cases import status
from fixtures.harness import LIMIT
from fixtures.stores import free_ports

# The longest name has 16,384 bytes.
REWRITE = f"[post]\n^dropped$ =\n^spoilt$ = {'x' * 16385}\n"
MOST_CONNECTIONS = 1024
FIELDS = ("connections", "datapoints", "bad_lines", "bad_pickles", "bad_rows", "bad_names", "emptied_names", "refused")
SERIES = ("relayd_receiver_connections", "relayd_receiver_datapoints_total", "relayd_receiver_bad_lines_total",
          "relayd_receiver_bad_pickles_total", "relayd_receiver_bad_rows_total", "relayd_receiver_bad_names_total",
          "relayd_receiver_emptied_names_total", "relayd_receiver_refused_connections_total")
# The page shows their numbers where they are not 0.
WORDS = ("lines?", "pickles?", "rows?", r"names? \(", "names? emptied by rewriting", "connections? refused")


def rows(**names):
    """A pickle of rows, so many of each name."""
    return pickle.dumps([(name, (1, 1)) for name, count in names.items() for _ in range(count)], protocol=2)


class ReceiverCounts(status.Serving):
    """All numbers of receivers of each kind, all of them different."""

    def open(self, port, count, text):
        """So many connections, the first of which sends this."""
        streams = [socket.create_connection(("127.0.0.1", port), LIMIT) for _ in range(count)]
        for stream in streams:
            self.addCleanup(stream.close)
        streams[0].sendall(text)

    def shown_in_metrics(self, relay, name):
        text = self.metrics(relay)
        return tuple(int(re.search(rf'^{series}{{receiver="{name}"}} (\d+)$', text, re.MULTILINE)[1]) for series in SERIES)

    def shown_on_the_page(self, relay, name):
        row = re.search(rf"<tr><td>{name}(?!\w)(.*?)</td></tr>", self.ask(relay, "/")[2], re.DOTALL)[1]
        notes, _in_a_second, datapoints, connections = row.split("</td><td>")
        found = (re.search(rf"([\d,]+) {word}\b", notes) for word in WORDS)
        counts = (connections, datapoints, *(it[1] if it else "" for it in found))
        return tuple(int(it.replace(",", "") or 0) for it in counts)

    def test_each_number_of_each_kind(self):
        self.needs_descriptors(2 * MOST_CONNECTIONS)
        dest = f"127.0.0.1:{free_ports(1)[0]}"
        with self.serving([dest], ("--line-receivers", "2"), rewrite=REWRITE) as relay:
            self.open(relay.line, 3, b"a 1 1\n" * 9 + b"dropped 1 1\n" * 2 + b"spoilt 1 1\n" * 5 + b"bad\n" * 4)
            pickles = (rows(a=7, dropped=3, spoilt=5, **{"a b": 6}), b"x", b"y", b"z", b"", b".", b"0", b"1", b"2")
            self.open(relay.pickle, MOST_CONNECTIONS, b"".join(len(it).to_bytes(4, "big") + it for it in pickles))
            relay.datagram(b"a 1 1\n" * 13 + b"dropped 1 1\n" + b"spoilt 1 1\n" * 2 + b"bad\n" * 10)
            wanted = {"line": (3, 16, 4, 0, 0, 5, 2, 0), "pickle": (MOST_CONNECTIONS, 15, 0, 8, 6, 5, 3, 7),
                      "udp": (0, 16, 10, 0, 0, 2, 1, 0)}

            def in_json():
                found = {it["receiver"]: tuple(it[field] for field in FIELDS) for it in self.json(relay)["receivers"]}
                first, second = found.pop("line 0"), found.pop("line 1")
                return {**found, "line": tuple(map(sum, zip(first, second)))}

            self.wait_for(lambda: in_json()["pickle"][0] == MOST_CONNECTIONS, "all connections are taken")
            refused = [socket.create_connection(("127.0.0.1", relay.pickle), LIMIT) for _ in range(7)]
            for stream in refused:
                self.addCleanup(stream.close)
            self.wait_for(lambda: in_json() == wanted, f"JSON has all numbers {wanted}")
            shown = {it["receiver"]: tuple(it[field] for field in FIELDS) for it in self.json(relay)["receivers"]}
            for name, counts in shown.items():
                self.wait_for(lambda name=name, counts=counts: self.shown_in_metrics(relay, name) == counts, f"metrics of {name}")
                self.wait_for(lambda name=name, counts=counts: self.shown_on_the_page(relay, name) == counts, f"page of {name}")
            self.settles(relay)
