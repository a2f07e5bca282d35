"""The examples of docs/ENCRYPTION.md: HAProxy with TLS around a relay, and a firewall for its ports."""

import contextlib
import os
import pickle
import re
import shutil
import socket
import ssl
import struct
import subprocess
import threading
import unittest

from cases import Field, Keeper
from fixtures.program import TOP
from fixtures.stores import free_ports
from programs import HOST, LIMIT, Program, Relayd, listens, wait_until

EXAMPLES = os.path.join(TOP, "examples")
MACHINES = ("relays:relay1.example.net", "stores:store-a.example.net", "producers:web1")
NOW = 1_700_000_000


class Balancer(Program):
    """HAProxy by an example, with other addresses in place of those of the example."""

    def __init__(self, folder, example, pki, others):
        super().__init__(folder)
        with open(os.path.join(EXAMPLES, "tls", example), encoding="ascii") as file:
            text = file.read()
        for address, other in {"/etc/haproxy/pki": pki, **others}.items():
            assert address in text, address
            text = re.sub(rf"(?<![\w.]){re.escape(address)}\b", other, text)
        self.config = self.write("haproxy.cfg", text)
        self.ports = [int(port) for port in re.findall(r"bind \S*?:(\d+)", text)]

    def words(self):
        return ["/usr/sbin/haproxy", "-db", "-f", self.config]

    def serves(self):
        return self.process.poll() is not None or all(listens(port) for port in self.ports)


def is_closed(stream):
    """Whether the other side closes a connection."""
    stream.settimeout(LIMIT)
    try:
        return stream.recv(1) == b""
    except OSError as error:
        return not isinstance(error, TimeoutError)


class Wire:
    """A stretch of network: passes on what it reads, and keeps the bytes of both ways."""

    def __init__(self, target):
        self.target = target
        self.listener = socket.create_server((HOST, 0), backlog=64)
        self.port = self.listener.getsockname()[1]
        self.seen = bytearray()
        threading.Thread(target=self.accept, daemon=True).start()

    def accept(self):
        """Takes connections until the listener is closed."""
        while True:
            try:
                near, _ = self.listener.accept()
            except OSError:
                return
            try:
                far = socket.create_connection((HOST, self.target))
            except OSError:
                near.close()
                continue
            for ends in ((near, far), (far, near)):
                threading.Thread(target=self.copy, args=ends, daemon=True).start()

    def copy(self, source, sink):
        """Passes on one way of a connection."""
        try:
            while more := source.recv(65536):
                self.seen += more
                sink.sendall(more)
            sink.shutdown(socket.SHUT_WR)
        except OSError:
            pass


class Encrypted(Field):
    """A producer, a relay and two stores, each with an HAProxy, and one authority."""

    def setUp(self):
        super().setUp()
        self.pki = self.path("pki")
        self.made = os.path.join(EXAMPLES, "tls", "certificates.sh")
        subprocess.run([self.made, self.pki, *MACHINES, "stores:store-b.example.net"], check=True)
        self.stores = [self.keeper() for _ in range(2)]
        at_store, *ports = free_ports(6)
        self.store_b, = free_ports(1)  # nothing listens there
        self.begin(Balancer(self.path("store"), "store.cfg", self.pki,
                            {":2053": f"{HOST}:{at_store}", "127.0.0.1:2003": f"{HOST}:{self.stores[0].port}"}))
        self.store_port = at_store
        self.to_store = self.wire(at_store)
        self.relay = self.begin(Relayd(self.path("relayd"), [f"{HOST}:{ports[0]}:a"], queue=100_000))
        self.begin(Balancer(self.path("relay"), "relay.cfg", self.pki, {
            "bind :2053": f"bind {HOST}:{ports[2]}", "bind :2054": f"bind {HOST}:{ports[3]}",
            "127.0.0.1:2013": f"{HOST}:{self.relay.line_port}", "127.0.0.1:2014": f"{HOST}:{self.relay.pickle_port}",
            "127.0.0.1:2103": f"{HOST}:{ports[0]}", "127.0.0.1:2203": f"{HOST}:{ports[1]}",
            "store-a.example.net:2053": f"{HOST}:{self.to_store.port}", "store-b.example.net:2053": f"{HOST}:{self.store_b}"}))
        self.lines, self.pickles = (self.wire(port) for port in ports[2:4])
        own, own_pickles = free_ports(2)
        self.producer = self.begin(Balancer(self.path("producer"), "producer.cfg", self.pki, {
            "127.0.0.1:2003": f"{HOST}:{own}", "127.0.0.1:2004": f"{HOST}:{own_pickles}",
            "relay1.example.net:2053": f"{HOST}:{self.lines.port}",
            "relay1.example.net:2054": f"{HOST}:{self.pickles.port}"}))

    def keeper(self):
        """A store over memory."""
        store = Keeper()
        self.addCleanup(store.listener.close)
        return store

    def wire(self, target):
        """A stretch of network to a port."""
        wire = Wire(target)
        self.addCleanup(wire.listener.close)
        return wire

    def got(self):
        """The lines that the store has got."""
        return [line for got in list(self.stores[0].connections) for line in bytes(got).split(b"\n")[:-1]]

    def comes(self, *lines):
        """Whether these lines come to the store, and no others."""
        return wait_until(lambda: sorted(self.got()) == sorted(lines))

    def test_lines_and_pickles_come_through_and_no_name_is_to_be_read_between(self):
        """What a producer sends without encryption to its own machine reaches the store so, and is encrypted between."""
        with socket.create_connection((HOST, self.producer.ports[0])) as stream:
            stream.sendall(b"servers.web1.secret 1.5 %d\n" % NOW)
            self.assertTrue(self.comes(b"servers.web1.secret 1.5 %d" % NOW), self.got())
        body = pickle.dumps([("servers.web2.secret", (NOW, 2))], 2)
        with socket.create_connection((HOST, self.producer.ports[1])) as stream:
            stream.sendall(struct.pack("!L", len(body)) + body)
            self.assertTrue(self.comes(b"servers.web1.secret 1.5 %d" % NOW, b"servers.web2.secret 2 %d" % NOW), self.got())
        for wire in (self.lines, self.pickles, self.to_store):
            self.assertGreater(len(wire.seen), 500)
            self.assertNotIn(b"secret", wire.seen)
        self.nothing_lost(self.relay)
        self.settles(self.relay)

    @contextlib.contextmanager
    def sent_with(self, port, name, certificate):
        """A connection by TLS with a certificate of the authority in a folder, or with none, on which a line was sent."""
        context = ssl.create_default_context(cafile=os.path.join(self.pki, "ca.pem"))
        if certificate:
            context.load_cert_chain(certificate)
        with socket.create_connection((HOST, port), LIMIT) as stream, \
                context.wrap_socket(stream, server_hostname=name) as sealed:
            sealed.sendall(b"intruder 1 %d\n" % NOW)
            yield sealed

    def is_refused(self, port, name, certificate):
        """Whether such a connection is closed by the other side, or never made."""
        try:
            with self.sent_with(port, name, certificate) as sealed:
                return is_closed(sealed)
        except OSError as error:
            return not isinstance(error, TimeoutError)

    def test_who_may_send(self):
        """A producer with a certificate; none without, with one of another authority, or with one of another role."""
        foreign = self.path("foreign")
        subprocess.run([self.made, foreign, "producers:web1", "relays:relay1.example.net"], check=True)
        relay, store = "relay1.example.net", "store-a.example.net"
        for port, name, certificate in (
                (self.lines.target, relay, None), (self.pickles.target, relay, None), (self.store_port, store, None),
                (self.lines.target, relay, os.path.join(foreign, "web1.pem")),
                (self.pickles.target, relay, os.path.join(foreign, "web1.pem")),
                (self.store_port, store, os.path.join(foreign, "relay1.example.net.pem")),
                (self.store_port, store, os.path.join(self.pki, "web1.pem")),
                (self.lines.target, relay, os.path.join(self.pki, "store-b.example.net.pem"))):
            self.assertTrue(self.is_refused(port, name, certificate), (port, name, certificate))
        # One that sends without TLS gets nowhere either.
        for port in (self.lines.target, self.store_port):
            with socket.create_connection((HOST, port)) as stream:
                stream.sendall(b"intruder 1 %d\n" % NOW)
                self.assertTrue(is_closed(stream), port)
        with self.sent_with(self.lines.target, relay, os.path.join(self.pki, "web1.pem")):
            self.assertTrue(self.comes(b"intruder 1 %d" % NOW), self.got())
        self.settles(self.relay)


class Firewall(unittest.TestCase):
    """The example for nftables, between two machines that are network namespaces."""

    def setUp(self):
        if os.geteuid() != 0 or None in map(shutil.which, ("nft", "ip")):
            self.skipTest("it takes root, nftables and iproute2")
        self.names = [f"relayd-{os.getpid()}-{end}" for end in ("relay", "other")]
        for name in self.names:
            self.addCleanup(subprocess.run, ["ip", "netns", "delete", name], stderr=subprocess.DEVNULL)
            if subprocess.run(["ip", "netns", "add", name], stderr=subprocess.DEVNULL).returncode:
                self.skipTest("network namespaces cannot be made here")
        relay, other = self.names
        self.done("ip", "-n", relay, "link", "add", "near", "type", "veth", "peer", "name", "far", "netns", other)
        for name, end, addresses in ((relay, "near", ["10.0.1.1/16"]), (other, "far", ["10.0.1.9/16", "10.0.3.9/16"])):
            for address in addresses:
                self.done("ip", "-n", name, "address", "add", address, "dev", end)
            for link in ("lo", end):
                self.done("ip", "-n", name, "link", "set", link, "up")

    def done(self, *words):
        """Runs a command that must end well."""
        ran = subprocess.run(words, stdout=subprocess.PIPE, stderr=subprocess.STDOUT, text=True)
        self.assertEqual(ran.returncode, 0, (words, ran.stdout))

    def listener(self, port):
        """Something that listens on the relay's machine."""
        words = ["ip", "netns", "exec", self.names[0], "nc.openbsd", "-lk", "0.0.0.0", str(port)]
        child = subprocess.Popen(words, stdin=subprocess.DEVNULL, stdout=subprocess.DEVNULL)
        self.addCleanup(child.wait)
        self.addCleanup(child.kill)

    def reaches(self, source, port, machine=1, target="10.0.1.1", seconds=2):
        """Whether a connection can be made in these seconds."""
        words = ["ip", "netns", "exec", self.names[machine],
                 "nc.openbsd", "-z", "-w", str(seconds), "-s", source, target, str(port)]
        return subprocess.run(words, stderr=subprocess.DEVNULL).returncode == 0

    def test_who_reaches_the_ports(self):
        """Producers reach the ports for lines and pickles and nothing else; others none; the machine itself all."""
        for port in (2013, 2014, 2015):
            self.listener(port)
        self.assertTrue(wait_until(lambda: all(self.reaches("10.0.3.9", port) for port in (2013, 2014, 2015))))
        self.done("ip", "netns", "exec", self.names[0], "nft", "-f", os.path.join(EXAMPLES, "nftables.conf"))
        self.assertEqual([self.reaches("10.0.1.9", port, seconds=LIMIT) for port in (2013, 2014)], [True, True])
        self.assertFalse(self.reaches("10.0.1.9", 2015))
        self.assertEqual([self.reaches("10.0.3.9", port) for port in (2013, 2014, 2015)], [False, False, False])
        self.assertTrue(self.reaches("127.0.0.1", 2015, 0, "127.0.0.1", LIMIT))
