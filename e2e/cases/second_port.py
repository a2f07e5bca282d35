"""`examples/second-port.nft`: a second port for lines, by a redirect of the system, in networks of their own."""

import os
import re
import shutil
import socket
import subprocess
import sys

from fixtures.harness import LIMIT
from fixtures.networks import Neighbour, in_own_network
from fixtures.program import TOP
from fixtures.running import WithRelays

RULES = os.path.join(TOP, "examples", "second-port.nft")
SECOND = "2103"  # of the file, as is the port that it leads to
FIRST_PORT, LAST_PORT = 40_000, 40_999
SEND = """import socket, sys
kind, host, port, text = sys.argv[1:]
with socket.socket(socket.AF_INET, getattr(socket, kind)) as sender:
    sender.settimeout(200)
    sender.connect((host, int(port)))
    sender.sendall(text.encode())
"""


class SecondPort(WithRelays):
    """Lines and datagrams for the second port reach the relay, from this machine and from another one."""

    def setUp(self):
        super().setUp()
        if not all(map(shutil.which, ("nft", "ip", "nsenter", "unshare"))):
            self.skipTest("nftables, iproute2 or util-linux is missing")

    def test_a_second_port(self):
        in_own_network(self.redirected, FIRST_PORT, LAST_PORT)

    def redirected(self):
        """The case."""
        store, = self.stores(1)
        with self.relay([f"127.0.0.1:{store.port}"], f"[all]\ndefault = true\ndestinations = 127.0.0.1:{store.port}\n",
                        LINE_RECEIVER_INTERFACE="0.0.0.0", UDP_RECEIVER_INTERFACE="0.0.0.0") as relay, Neighbour() as other:
            first = {"SOCK_STREAM": relay.line, "SOCK_DGRAM": relay.udp}
            self.assertRaises(ConnectionRefusedError, self.send_here, "SOCK_STREAM", "x.y 1 1\n")
            self.assertNotEqual(self.send_from(other, "SOCK_STREAM", "x.y 1 1\n").returncode, 0)
            sent = []
            for kind, port in first.items():
                self.load(port)
                for place in ("here", "there"):
                    line = f"{kind}.{place} 1 1700000000"
                    if place == "here":
                        self.send_here(kind, line + "\n")
                    else:
                        self.assertEqual(self.send_from(other, kind, line + "\n").returncode, 0)
                    sent.append(line.encode())
                    self.wait_for(lambda: store.lines() == sent, f"{line} has come")
            self.settles(relay)

    def load(self, port):
        """Loads the file, with a port of the relay in the place of its own."""
        with open(RULES, encoding="ascii") as file:
            text, count = re.subn(r"(?m)redirect to :2003$", f"redirect to :{port}", file.read())
        self.assertEqual(count, 2)
        path = self.folder / "second-port.nft"
        path.write_text(text, encoding="ascii")
        subprocess.run(["nft", "-f", path], check=True)

    def send_here(self, kind, text):
        """Sends a text from this machine."""
        with socket.socket(socket.AF_INET, getattr(socket, kind)) as sender:
            sender.settimeout(LIMIT)
            sender.connect(("127.0.0.1", int(SECOND)))
            sender.sendall(text.encode())

    def send_from(self, other, kind, text):
        """Sends a text from the other machine."""
        return other.run(sys.executable, "-c", SEND, kind, Neighbour.HERE, SECOND, text, stderr=subprocess.DEVNULL)
