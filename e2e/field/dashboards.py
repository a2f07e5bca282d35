"""The dashboard for Grafana: Prometheus scrapes a relay, and each of its queries gives a series."""

import json
import os
import re
import socket
import time

from cases import Field
from fixtures.program import TOP
from fixtures.stores import Store, free_ports
from programs import HOST, LIMIT, Relayd, wait_until
from scraped import Prometheus

DASHBOARD = os.path.join(TOP, "examples", "grafana-dashboard.json")
# What Grafana puts in the place of its variables, where all is chosen.
CHOSEN = {"$__rate_interval": "10s", "$instance": ".*", "$destination": ".*"}
VARIABLE = re.compile(r"\$\w+")
LABEL_VALUES = re.compile(r"label_values\((.*), (\w+)\)")
SHOWN = {"Losing", "Stores away", "Fullest queue", "In", "Out", "No input for", "In, by destination", "Out, by destination",
         "Losing, by destination", "Filling: how full each queue will be in five minutes", "Queue", "Age",
         "Written, from queue and spool", "Connections of stores", "Receivers", "Connections of producers",
         "Rejected, by reason", "Processor", "Memory", "Descriptors", "Versions"}


def queries(dashboard):
    """The queries of all panels, with their titles, and those of what can be chosen."""
    for panel in dashboard["panels"]:
        yield from ((panel["title"], target["expr"]) for target in panel["targets"])
    for variable in dashboard["templating"]["list"]:
        if variable["type"] == "query":
            yield variable["label"], LABEL_VALUES.fullmatch(variable["query"]["query"])[1]


class Dashboards(Field):
    """Only Grafana itself is not there: Debian does not have it."""

    def setUp(self):
        super().setUp()
        with open(DASHBOARD, encoding="utf-8") as file:
            self.dashboard = json.load(file)

    def test_the_form(self):
        """Each panel has a number of its own and a place of its own, and all ask the Prometheus that is chosen."""
        panels = self.dashboard["panels"]
        self.assertEqual({it["title"] for it in panels}, SHOWN)
        self.assertEqual(len({it["id"] for it in panels}), len(panels))
        taken = [(x, y) for grid in (it["gridPos"] for it in panels) for x in range(grid["x"], grid["x"] + grid["w"])
                 for y in range(grid["y"], grid["y"] + grid["h"])]
        self.assertEqual(len(set(taken)), len(taken))
        self.assertLess(max(x for x, _ in taken), 24)
        for it in [*panels, *(target for panel in panels for target in panel["targets"])]:
            self.assertEqual(it["datasource"], {"type": "prometheus", "uid": "${datasource}"})
        names = {f"${it['name']}" for it in self.dashboard["templating"]["list"]} | {"$__rate_interval"}
        for title, query in queries(self.dashboard):
            self.assertLessEqual(set(VARIABLE.findall(query)), names, title)

    def test_each_query_gives_a_series(self):
        gone, status = free_ports(2)
        store = Store(free_ports(1)[0]).start()
        self.addCleanup(store.stop)
        dests = [f"{HOST}:{store.port}:a", f"{HOST}:{gone}:b"]
        rules = f"[all]\ndefault = true\ndestinations = {', '.join(dests)}\n"
        relay = self.begin(Relayd(self.path("relay"), dests, rules, queue=100, options=("--status", str(status))))
        prometheus = self.begin(Prometheus(self.path("prometheus"), status))
        everything = [(title, VARIABLE.sub(lambda name: CHOSEN[name[0]], query)) for title, query in queries(self.dashboard)]
        asked = dict(reversed(everything))  # the first of each panel

        def sends():
            """Sends some datapoints and a bad line, and says whether the queue of the store that is away loses some."""
            with socket.create_connection((HOST, relay.line_port), LIMIT) as stream:
                stream.sendall(b"a 1 1\n" * 50 + b"bad\n")
            time.sleep(0.2)
            return prometheus.query(asked["Losing, by destination"]).get(dests[1], 0) > 0

        def unanswered():
            return [it for it in everything if not prometheus.query(it[1])]

        self.assertTrue(wait_until(sends))
        self.assertTrue(wait_until(lambda: not unanswered()), unanswered())
        self.assertEqual(prometheus.query(asked["Losing, by destination"])[dests[0]], 0)
        for title in ("Losing", "In", "Out", "Fullest queue"):
            self.assertGreater(prometheus.query(asked[title])[None], 0, title)
        self.assertEqual(prometheus.query(asked["Stores away"]), {None: 1})
        self.assertGreater(prometheus.query(f"sum({asked['Rejected, by reason']})")[None], 0)
        self.settles(relay)
