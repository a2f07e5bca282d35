"""`relayd run --log-format`: each line of the log behind a time and a level, or as an object of JSON."""

import json
import re
import socket
import time

from fixtures.harness import LIMIT, run
from fixtures.log import Log
from fixtures.running import WithRelays
from fixtures.stores import free_ports

ALL = "[all]\ndefault = true\ndestinations = {}\n"
TIMED = re.compile(rb"(\d{4}-\d\d-\d\dT\d\d:\d\d:\d\dZ) (info|warning|error) (.+)\n")


class LogForms(WithRelays):
    """The forms of a log whose stores are there and away, and whose producer sends what is no datapoint."""

    def written(self, *options):
        """The lines of a log with these options, in its order, and the ports of both stores."""
        store, = self.stores(1)
        away = free_ports(1)[0]
        dests = [f"127.0.0.1:{store.port}:a", f"127.0.0.1:{away}"]
        with self.relay(dests, ALL.format(", ".join(dests)), options=(*options, "--drain", "1")) as relay:
            relay.log = Log(relay.child.stderr)
            with socket.create_connection(("127.0.0.1", relay.line), LIMIT) as stream:
                stream.sendall(b"a 1 1\nb 1 nothing\n")
            self.wait_for(lambda: b"".join(relay.log.lines).count(b"bad line") == 2, "the log has the bad line")
            self.wait_for(lambda: b"cannot connect" in b"".join(relay.log.lines), "the log has the store that is away")
            self.wait_for(lambda: b"connected" in b"".join(relay.log.lines).replace(b"cannot connect", b""),
                          "the log has the connection")
            self.assertEqual(relay.command(b"stop"), b"stopping\n")
            self.assertEqual(relay.child.wait(LIMIT), 0)
            relay.log.thread.join(LIMIT)
        return relay.log.lines, *dests

    def test_timed(self):
        before = int(time.time())
        lines, there, away = self.written("--log-format", "timed")
        matches = [TIMED.fullmatch(line) for line in lines]
        self.assertTrue(all(matches), lines)
        for match in matches:
            stamp = time.strptime(match[1].decode(), "%Y-%m-%dT%H:%M:%SZ")
            self.assertTrue(before <= time.mktime(stamp) - time.timezone <= time.time(), match[1])
        found = {(match[2], match[3]) for match in matches}
        self.assertLessEqual({(b"info", f"destination {there} connected".encode()),
                              (b"warning", f"destination {away} cannot connect to {away}: connection refused (error 111)".encode()),
                              (b"warning", b"receiver line: 1 bad line"),
                              (b"error", f"destination {away} stopped, 1 datapoints not sent".encode()),
                              (b"error", b"relay stopped, 1 datapoints not sent")}, found)

    def test_json(self):
        lines, there, away = self.written("--log-format", "json")
        objects = [json.loads(line) for line in lines]
        for each in objects:
            self.assertRegex(each.pop("time"), r"\A\d{4}-\d\d-\d\dT\d\d:\d\d:\d\dZ\Z")
        for wanted in ({"level": "info", "destination": there, "what": "connected"},
                       {"level": "warning", "destination": away, "what": f"cannot connect to {away}: connection refused (error 111)"},
                       {"level": "warning", "receiver": "line", "what": "1 bad line", "counts": {"bad_lines": 1}},
                       {"level": "error", "what": "stopped, 1 datapoints not sent", "counts": {"not_sent": 1}}):
            self.assertIn(wanted, objects)

    def test_text(self):
        """It is the form of `--log`."""
        lines, there, _ = self.written("--log-format", "text")
        self.assertIn(f"destination {there} connected\n".encode(), lines)

    def test_another_word(self):
        ran = run(("run", "--config", "x", "--admin", "1", "--log-format", "xml"))
        self.assertEqual((ran.status, ran.out), (2, b""))
        self.assertIn(b"invalid value 'xml' for '--log-format <FORM>': not text, timed or json", ran.err)
