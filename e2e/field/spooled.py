"""The file that an earlier run left for a store: carbon-cache and relays read it to the end and close the connection in order, so
that it goes out once.
"""

import contextlib
import functools
import os
import shutil
import socket
import tempfile
import time
import unittest

from cases import Field
from long_lines import QUEUE, began_store, behind_carbon_cache, behind_carbon_relay, behind_relayd, of_store
from programs import HOST, LIMIT, Relayd, wait_until
from restarted import CRelay

COUNT = 300  # lines of the file
TROUBLE = ("go out again", "did not end the connection")


@contextlib.contextmanager
def behind_c_relay(folder):
    """The port of a carbon-c-relay before a store, and what gives the numbers that came to that."""
    with began_store() as store, CRelay(folder, store.port) as other:
        yield other.line_port, functools.partial(of_store, store)


class Spooled(Field):
    """A relay with a file for the one store that it has."""

    def goes_once(self, behind):
        """All of the file comes, and then a new line, and the log has nothing of an end that is missing or out of order."""
        folder, own, spool = (tempfile.mkdtemp(dir=self.folder) for _ in range(3))
        with behind(folder) as (port, arrived):
            dest = f"{HOST}:{port}"
            with open(os.path.join(spool, dest), "wb") as file:
                file.write(b"".join(b"honest.n%d %d %d\n" % (number, number, time.time()) for number in range(COUNT)))
            with Relayd(own, [dest], queue=QUEUE, options=("--spool", spool, "--log")) as relay:
                self.assertTrue(wait_until(lambda: dest not in os.listdir(spool)), "the file is sent")
                with socket.create_connection((HOST, relay.line_port), LIMIT) as stream:
                    stream.sendall(b"honest.n%d %d %d\n" % (COUNT, COUNT, time.time()))
                wait_until(lambda: len(arrived()) > COUNT)
                self.assertEqual(arrived(), list(range(COUNT + 1)))
                self.settles(relay)
                self.assertEqual([text for text in TROUBLE if text in relay.output()], [], relay.output())

    def test_carbon_cache(self):
        self.goes_once(behind_carbon_cache)

    def test_carbon_relay(self):
        self.goes_once(behind_carbon_relay)

    @unittest.skipUnless(shutil.which("carbon-c-relay"), "carbon-c-relay is missing")
    def test_carbon_c_relay(self):
        self.goes_once(behind_c_relay)

    def test_another_relayd(self):
        self.goes_once(behind_relayd)
