"""The producers that the status shows: how much comes from which address."""

import contextlib
import ipaddress
import pickle
import socket
import time

from cases.status import ALL, Serving
from fixtures.harness import LIMIT
from fixtures.reloading import FOREVER
from fixtures.running import frame

SHOWN = 20            # producers that are listed
WINDOW = 10.0         # seconds of which the rates are
LINE = b"a.b 1 1700000000\n"
RATES = ("datapoints_per_second", "bytes_per_second", "bad_per_second")


class Producers(Serving):
    """A relay whose producers have addresses of 127.0.0.0/8."""

    @contextlib.contextmanager
    def relaying(self, **how):
        """The relay, with a store."""
        store, = self.stores(1)
        with self.serving([f"127.0.0.1:{store.port}"], **how) as relay:
            yield relay

    def connected(self, stack, port, address):
        """A connection from an address."""
        return stack.enter_context(socket.create_connection(("127.0.0.1", port), LIMIT, source_address=(address, 0)))

    def found(self, relay):
        """What the status says of each address that is listed, in that order."""
        return {it["address"]: it for it in self.json(relay)["producers"]}

    def sends(self, relay, sent, wanted, limit=LIMIT):
        """Sends again and again what a call sends, until the producers are as a condition wants them, and gives them."""
        end = time.monotonic() + limit
        while time.monotonic() < end:
            sent()
            found = self.found(relay)
            if wanted(found):
                return found
            time.sleep(0.1)
        self.fail(f"not so: {self.found(relay)}")

    def ends(self, relay):
        """The relay stops in order, after however many steps."""
        answer, ran = relay.stop()
        self.assertEqual((answer, ran.status, ran.err), (b"stopping\n", 0, b""))
        self.assertIn(ran.out, (b"settled\n", b"sealed 0\n"))

    def test_by_address(self):
        """Connections of one address are joined, over all receivers; who sends most comes first."""
        with self.relaying() as relay, contextlib.ExitStack() as stack:
            great = [self.connected(stack, relay.line, "127.0.0.2") for _ in range(2)]
            pickles = self.connected(stack, relay.pickle, "127.0.0.2")
            small = self.connected(stack, relay.line, "127.0.0.3")
            ill = self.connected(stack, relay.line, "127.0.0.4")
            still = self.connected(stack, relay.line, "127.0.0.5")
            datagrams = stack.enter_context(socket.socket(socket.AF_INET, socket.SOCK_DGRAM))
            datagrams.bind(("127.0.0.6", 0))

            def send():
                for stream in great:
                    stream.sendall(LINE * 100)
                pickles.sendall(frame(pickle.dumps([("a.b", (1700000000, 1))] * 100, 2)))
                small.sendall(LINE * 2)
                ill.sendall(b"bad\n" * 40)
                datagrams.sendto(LINE * 10, ("127.0.0.1", relay.udp))

            names = ["127.0.0.2", "127.0.0.4", "127.0.0.6", "127.0.0.3", "127.0.0.5"]
            held = [3, 1, 0, 1, 1]
            found = self.sends(relay, send, lambda found: list(found) == names
                               and [it["connections"] for it in found.values()] == held)
            self.assertEqual([it["bad_per_second"] > 0 for it in found.values()], [False, True, False, False, False])
            self.assertEqual([it["datapoints_per_second"] > 0 for it in found.values()], [True, False, True, True, False])
            self.assertEqual([found["127.0.0.5"][name] for name in RATES], [0, 0, 0])
            self.assertGreater(found["127.0.0.4"]["bytes_per_second"], found["127.0.0.4"]["bad_per_second"])
            self.assertEqual(self.json(relay)["other_producers"], {"addresses": 0} | {name: 0 for name in RATES})
            page = self.ask(relay, "/")[2]
            rows = page[page.index("<h2>Producers"):]
            self.assertLess(rows.index("<td>127.0.0.2"), rows.index("<td>127.0.0.4"))
            self.assertNotIn("127.0.0.2", self.ask(relay, "/metrics")[2])
            self.assertNotIn("a.b", page)
            still.sendall(LINE)
            self.ends(relay)

    def test_the_rate(self):
        """All that came is in the rates, once: also that of connections that have ended."""
        with self.relaying() as relay:
            sent = []

            def send():
                if len(sent) < 40:
                    with socket.create_connection(("127.0.0.1", relay.line), LIMIT, source_address=("127.0.0.9", 0)) as stream:
                        stream.sendall(LINE * 25)
                    sent.append(time.monotonic())

            found = self.sends(relay, send, lambda found: len(sent) == 40 and found.get("127.0.0.9", {}).get("connections") == 0)
            # Within the time of the rates the whole of them counts a thousand datapoints; later less and less.
            rate = found["127.0.0.9"]
            self.assertLessEqual(rate["datapoints_per_second"], 1000)
            self.assertGreaterEqual(rate["datapoints_per_second"] * 2 * WINDOW, 25)
            self.assertAlmostEqual(rate["bytes_per_second"] / rate["datapoints_per_second"], len(LINE), delta=2)
            self.wait_for(lambda: "127.0.0.9" not in self.found(relay), "it is forgotten")
            self.ends(relay)

    def test_more_than_are_shown(self):
        """The greatest are listed, and the others are counted together."""
        with self.relaying() as relay, contextlib.ExitStack() as stack:
            streams = [self.connected(stack, relay.line, f"127.0.1.{number}") for number in range(1, SHOWN + 11)]

            def send():
                for number, stream in enumerate(streams, 1):
                    stream.sendall(LINE * number)

            greatest = [f"127.0.1.{number}" for number in range(SHOWN + 10, 10, -1)]
            self.sends(relay, send, lambda found: list(found) == greatest)
            others = self.json(relay)["other_producers"]
            self.assertEqual(others["addresses"], 10)
            self.assertGreater(others["datapoints_per_second"], 0)
            self.assertIn("<td>others", self.ask(relay, "/")[2])
            self.ends(relay)

    def test_many_addresses(self):
        """Datagrams of more addresses than are told apart: what comes from the rest is counted all the same."""
        first = int(ipaddress.ip_address("127.1.0.1"))
        with self.relaying() as relay, contextlib.ExitStack() as stack:
            def send():
                for number in range(600):
                    with socket.socket(socket.AF_INET, socket.SOCK_DGRAM) as one:
                        one.bind((str(ipaddress.ip_address(first + (send.turn * 600 + number) % 6000)), 0))
                        one.sendto(LINE, ("127.0.0.1", relay.udp))
                send.turn += 1

            send.turn = 0
            udp = lambda: self.json(relay)["receivers"][2]["datapoints"]
            self.sends(relay, send, lambda found: len(found) == SHOWN and udp() > 6000)
            others = self.json(relay)["other_producers"]
            self.assertGreater(others["addresses"], 1000)
            self.assertGreater(others["datapoints_per_second"], 100)
            stack.close()
            self.ends(relay)

    def test_after_a_reload(self):
        """Connections go on, and so does the time for which they are there."""
        with self.relaying(options=("--drain", FOREVER)) as relay, contextlib.ExitStack() as stack:
            stream = self.connected(stack, relay.line, "127.0.0.7")

            def send():
                stream.sendall(LINE)

            self.sends(relay, send, lambda found: found.get("127.0.0.7", {}).get("connected_seconds", 0) >= 3)
            self.assertTrue(relay.command(b"reload", b"").startswith(b"reloaded"))
            self.sends(relay, send, lambda found: found.get("127.0.0.7", {}).get("connected_seconds", 0) >= 5)
            self.assertEqual(self.found(relay)["127.0.0.7"]["connections"], 1)
            stack.close()
            self.ends(relay)

    def test_nobody_looks(self):
        """Without a status server nothing is counted by address, and the relay works as before."""
        store, = self.stores(1)
        dests = [f"127.0.0.1:{store.port}"]
        with self.relay(dests, ALL.format(*dests)) as relay:
            relay.lines(LINE * 100)
            relay.datagram(LINE)
            self.wait_for(lambda: len(store.lines()) == 101, "all came")
            self.ends(relay)
