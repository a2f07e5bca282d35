"""Who reaches a running relay's admin port, and how it reaches a store that gives no answer."""

import ipaddress
import socket

from fixtures import sockets
from fixtures.harness import LIMIT
from fixtures.running import WithRelays
from fixtures.stores import free_ports

ALL = "[all]\ndefault = true\ndestinations = {}\n"
LOOPBACK, ANY = (ipaddress.ip_address(address).packed for address in ("127.0.0.1", "0.0.0.0"))


class Admin(WithRelays):
    """The admin port."""

    def test_it_listens_at_127_0_0_1_alone(self):
        """Whatever the interfaces of the receivers, the system has it at this address and at no other."""
        store, = self.stores(1)
        dest = f"127.0.0.1:{store.port}"
        everywhere = {f"{name}_RECEIVER_INTERFACE": "0.0.0.0" for name in ("LINE", "PICKLE", "UDP")}
        with self.relay([dest], ALL.format(dest), **everywhere) as relay:
            self.assertEqual(sockets.listening(relay.line), [ANY])
            self.assertEqual(sockets.listening(relay.admin), [LOOPBACK])
            for address in ("127.0.0.2", "127.1.1.1"):
                socket.create_connection((address, relay.line), LIMIT).close()
                with self.assertRaises(ConnectionRefusedError):
                    socket.create_connection((address, relay.admin), LIMIT)
            self.settles(relay)


class Wall(WithRelays):
    """A store behind a wall: whoever connects to it gets no answer at all."""

    def test_it_is_tried_again(self):
        """The try is given up and another begins, while the other store gets all; once the wall is gone the store has
        all too."""
        store, = self.stores(1)
        port, = free_ports(1)
        dests = [f"127.0.0.1:{store.port}", f"127.0.0.1:{port}"]
        lines = [b"a %d 1" % number for number in range(50)]
        with socket.socket() as listener:
            listener.bind(("127.0.0.1", port))
            # The one connection that waits to be accepted fills the list, and the system drops what asks for another.
            listener.listen(0)
            listener.settimeout(LIMIT)
            with socket.create_connection(("127.0.0.1", port), LIMIT), \
                    self.relay(dests, ALL.format(", ".join(dests))) as relay:
                self.wait_for(lambda: sockets.connecting(port), "the relay tries to connect")
                relay.lines(b"".join(line + b"\n" for line in lines))
                self.wait_for(lambda: store.lines() == lines, "the store that is there has all")
                first = sockets.connecting(port)
                self.wait_for(lambda: sockets.connecting(port) - first, "the relay tries again")
                self.assertEqual([counts["queued"] for _, counts in relay.report()], [0, len(lines)])
                listener.accept()[0].close()
                with listener.accept()[0] as stream, stream.makefile("rb") as text:
                    stream.settimeout(LIMIT)
                    self.assertEqual([text.readline().rstrip(b"\n") for _ in lines], lines)
                self.settles(relay)
