"""Prometheus scrapes a relay, and a query gives the datapoints that a full queue dropped."""

import json
import socket
import urllib.parse
import urllib.request

from cases import Field
from fixtures.stores import free_ports
from programs import HOST, LIMIT, Program, Relayd, listens, wait_until

SCRAPES = 20  # one after the other, all good
OFFERED = 250
PLACES = 100  # of the queue


class Prometheus(Program):
    """Debian's Prometheus, which scrapes one port each second."""

    def __init__(self, folder, target):
        super().__init__(folder)
        self.port, = free_ports(1)
        self.config = self.write("prometheus.yml", f"""global:
  scrape_interval: 1s
scrape_configs:
  - job_name: relayd
    static_configs:
      - targets: ["{HOST}:{target}"]
""")

    def words(self):
        return ["prometheus", f"--config.file={self.config}", f"--storage.tsdb.path={self.folder}/data",
                f"--web.listen-address={HOST}:{self.port}"]

    def serves(self):
        return self.process.poll() is not None or listens(self.port)

    def query(self, text):
        """The values that a query gives, by destination; none while Prometheus cannot answer."""
        words = urllib.parse.urlencode({"query": text})
        try:
            with urllib.request.urlopen(f"http://{HOST}:{self.port}/api/v1/query?{words}", timeout=LIMIT) as answer:
                found = json.load(answer)["data"]["result"]
        except OSError:
            return {}
        return {it["metric"].get("destination"): float(it["value"][1]) for it in found}


class Scraped(Field):
    """The metrics of the status server."""

    def test_drops_are_queried(self):
        gone, status = free_ports(2)
        dest = f"{HOST}:{gone}"
        relay = self.begin(Relayd(self.path("relay"), [dest], queue=PLACES, options=("--status", str(status))))
        prometheus = self.begin(Prometheus(self.path("prometheus"), status))
        self.assertTrue(wait_until(lambda: prometheus.query("relayd_destination_dropped_total") == {dest: 0}))
        with socket.create_connection((HOST, relay.line_port), LIMIT) as stream:
            stream.sendall(b"a 1 1\n" * OFFERED)
        for name, value in (("dropped_total", OFFERED - PLACES), ("queued", PLACES), ("up", 0)):
            query = f"relayd_destination_{name}"
            self.assertTrue(wait_until(lambda: prometheus.query(query) == {dest: value}), (query, prometheus.query(query)))
        # A machine that is busy may be late for some of them.
        good = f"sum(count_over_time(up[{SCRAPES + 5}s])) > {SCRAPES} and sum(min_over_time(up[{SCRAPES + 5}s])) == 1"
        self.assertTrue(wait_until(lambda: prometheus.query(good)), prometheus.query("count_over_time(up[1m])"))
        self.settles(relay)
