"""What somebody who looks at Graphite sees: collectd, relayd, carbon-cache and graphite-web, with a store away for a while.

Where the variable PICTURE names a file, the picture of docs/OPERATING.md is written to it.
"""

import json
import os
import subprocess
import sys
import time
import urllib.parse
import urllib.request

from cases import Field
from fixtures.program import TOP
from fixtures.stores import free_ports
from programs import CarbonCache, Collectd, HOST, LIMIT, Program, Relayd, listens, wait_until

EXAMPLES = os.path.join(TOP, "examples")
BEFORE, AWAY, AFTER = 12, 20, 12  # seconds that a store is there, away and there again
QUEUED = "carbon.relays.*.destinations.*:{}.queued"
LOAD = "collectd.web1.load.load.shortterm"


class GraphiteWeb(Program):
    """graphite-web over the files and the cache of a store."""

    SERVE = ("from wsgiref.simple_server import make_server as make; from graphite.wsgi import application as graphite; "
             "import sys; make('127.0.0.1', int(sys.argv[1]), graphite).serve_forever()")

    def __init__(self, folder, store):
        super().__init__(folder)
        self.port, = free_ports(1)
        self.write("graphite_here.py", f"""SECRET_KEY = 'of a test'
TIME_ZONE = 'UTC'
LOG_DIR = STORAGE_DIR = {folder!r}
CONF_DIR = {folder!r}
WHISPER_DIR = {os.path.join(store.folder, "whisper")!r}
STANDARD_DIRS = [WHISPER_DIR]
INDEX_FILE = {os.path.join(folder, "index")!r}
CARBONLINK_HOSTS = ['{HOST}:{store.query_port}']
DATABASES = {{'default': {{'NAME': {os.path.join(folder, "graphite.db")!r}, 'ENGINE': 'django.db.backends.sqlite3'}}}}
""")
        self.variables = {"PYTHONPATH": folder, "GRAPHITE_SETTINGS_MODULE": "graphite_here",
                          "DJANGO_SETTINGS_MODULE": "graphite.settings"}

    def words(self):
        return ["/usr/bin/env", *(f"{name}={value}" for name, value in self.variables.items()), "/usr/bin/python3", "-c",
                self.SERVE, str(self.port)]

    def begin(self):
        subprocess.run(["/usr/bin/graphite-manage", "migrate", "--run-syncdb"], env={**os.environ, **self.variables},
                       cwd=self.folder, stdout=subprocess.DEVNULL, stderr=subprocess.DEVNULL, check=True)
        super().begin()

    def serves(self):
        return self.process.poll() is not None or listens(self.port)

    def ask(self, path, given=None):
        """What a page answers; with something given it is posted."""
        data = None if given is None else urllib.parse.urlencode(given).encode()
        with urllib.request.urlopen(f"http://{HOST}:{self.port}/{path}", data, LIMIT) as answer:
            return answer.read()

    def render(self, *targets, **how):
        """The picture, or the data, of some targets."""
        words = [("target", target) for target in targets] + list(how.items())
        return self.ask("render?" + urllib.parse.urlencode(words))

    def series(self, *targets, start, end):
        """The values of each series of the targets, by their times; where there is none it is left out."""
        rows = json.loads(self.render(*targets, **{"from": start, "until": end, "format": "json"}))
        return {row["target"]: {moment: value for value, moment in row["datapoints"] if value is not None}
                for row in rows}


class Reporter(Program):
    """What sends the relay's own metrics, each second."""

    def __init__(self, folder, relay):
        super().__init__(folder)
        self.relay = relay

    def words(self):
        return [sys.executable, os.path.join(EXAMPLES, "report_to_graphite.py"), "--admin", str(self.relay.admin_port),
                "--to", f"{HOST}:{self.relay.line_port}", "--every", "1"]


class Pictured(Field):
    """A machine's load and the relay's own queues, in graphite-web."""

    def test_a_store_is_away(self):
        """The load has no gap; the queue of the store that is away grows and is empty again, and the other's stays so."""
        stays, away = (self.begin(CarbonCache(self.path(name))) for name in ("stays", "away"))
        targets = [f"{HOST}:{stays.port}:stays", f"{HOST}:{away.port}:away"]
        relay = self.begin(Relayd(self.path("relayd"), targets,
                                  rules=f"[all]\ndefault = true\ndestinations = {', '.join(targets)}\n"))
        self.begin(Collectd(self.path("collectd"), relay.line_port))
        self.begin(Reporter(self.path("reporter"), relay))
        web = self.begin(GraphiteWeb(self.path("graphite"), stays))
        self.assertTrue(wait_until(lambda: {LOAD} <= set(stays.metrics())), "the store has metrics")
        start = int(time.time())
        time.sleep(BEFORE)
        away.end()
        lost = int(time.time())
        time.sleep(AWAY)
        back = int(time.time())
        away.begin()
        time.sleep(AFTER)
        self.nothing_lost(relay)
        end = int(time.time()) - 2
        waiting, calm, load = QUEUED.format("away"), QUEUED.format("stays"), LOAD

        def seen():
            return web.series(waiting, calm, load, start=start, end=end)

        def longest_gap(values):
            moments = [start, *sorted(values), end]
            return max(after - before for before, after in zip(moments, moments[1:]))

        # A busy machine measures some seconds late, but not for half as long as the store was away.
        self.assertTrue(wait_until(lambda: len(seen()) == 3 and max(map(longest_gap, seen().values())) < AWAY / 2), seen())
        (queue,), (other,), (whole,) = ([values for name, values in seen().items() if last in name]
                                        for last in (":away", ":stays", LOAD))
        grown = [value for moment, value in sorted(queue.items()) if lost + 3 < moment < back]
        self.assertEqual(grown, sorted(grown))
        self.assertGreater(grown[-1], 100)
        before = [value for moment, value in queue.items() if moment < lost - 1]
        after = [value for moment, value in queue.items() if moment > back]
        self.assertEqual((min(before), min(after)), (0, 0))
        self.assertLess(max(*before, *other.values()), grown[-1] / 2)
        self.assertTrue(all(value >= 0 for value in whole.values()))
        self.picture(web, load, waiting, calm, start, end)
        self.dashboard(web)
        self.settles(relay)

    def picture(self, web, load, waiting, calm, start, end):
        """The same as a PNG, which is kept where that is asked for."""
        png = web.render(f'alias(secondYAxis({load}),"load of web1 (right)")',
                         f'alias({waiting},"datapoints that wait for the store that is away")',
                         f'alias({calm},"datapoints that wait for the other store")',
                         **{"from": start, "until": end, "format": "png", "width": 900, "height": 330,
                            "title": "A store is away for 20 seconds", "lineWidth": 2, "bgcolor": "white",
                            "fgcolor": "black", "lineMode": "connected", "colorList": "gray,red,blue", "yMin": 0,
                            "yMinRight": 0, "hideLegend": "false", "tz": "UTC", "fontSize": 11})
        self.assertEqual(png[:8], b"\x89PNG\r\n\x1a\n")
        self.assertGreater(len(png), 5000)
        if path := os.environ.get("PICTURE"):
            with open(path, "wb") as file:
                file.write(png)

    def dashboard(self, web):
        """The dashboard of the examples is taken, and each of its graphs has a series for each store."""
        with open(os.path.join(EXAMPLES, "graphite-dashboard.json"), encoding="utf-8") as file:
            state = file.read()
        self.assertEqual(json.loads(web.ask("dashboard/save/relayd", {"state": state})), {"success": True})
        graphs = json.loads(web.ask("dashboard/load/relayd"))["state"]["graphs"]
        self.assertEqual(graphs, json.loads(state)["graphs"])
        for target, how, _ in graphs:
            self.assertEqual(target, "target=" + how["target"][0])
            rows = json.loads(web.render(*how["target"], **{"from": "-2min", "format": "json"}))
            self.assertEqual(len(rows), 2, target)
            self.assertTrue(all(any(value is not None for value, _ in row["datapoints"]) for row in rows), target)
