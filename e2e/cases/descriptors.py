"""How many file descriptors a running relay holds."""

import resource
import socket
import time

from fixtures.harness import LIMIT, held
from fixtures.running import Relay, WithRelays
from fixtures.stores import free_ports

OWN = 23  # the most that a relay with one sender holds for itself
CONNECTIONS = 20
LOOKS = 10
FEWEST, MOST = 7, 40  # limits of descriptors, of which the least do not do and the greatest do
NOTE = b" file descriptors besides its ports, and "


class Descriptors(WithRelays):
    """A relay with two stores."""

    def test_one_for_each_connection_and_two_for_each_sender(self):
        stores = self.stores(2)
        dests = [f"127.0.0.1:{store.port}" for store in stores]
        rules = f"[all]\ndefault = true\ndestinations = {', '.join(dests)}\n"
        own = {}
        for senders in (1, 2):
            with self.subTest(), self.relay(dests, rules, senders=senders) as relay:
                def held():
                    """Without one that is open for a moment: the least of some looks."""
                    looks = []
                    for _ in range(LOOKS):
                        looks.append(relay.descriptors())
                        time.sleep(0.01)
                    return min(looks)

                before = [len(store.lines()) for store in stores]
                streams = [socket.create_connection(("127.0.0.1", relay.line), LIMIT) for _ in range(CONNECTIONS)]
                for stream in streams:
                    stream.sendall(b"a 1 1\n")
                self.wait_for(lambda: [len(store.lines()) - CONNECTIONS for store in stores] == before,
                              "both stores have a line of each connection")
                own[senders] = held() - CONNECTIONS - len(stores)
                for stream in streams:
                    stream.close()
                self.wait_for(lambda: held() == own[senders] + len(stores), "the connections are given back")
                self.settles(relay)
        self.assertLessEqual(own[1], OWN)
        self.assertEqual(own[2], own[1] + 2)

    def test_too_few(self):
        """A relay with any limit either does not start, and says why, or it receives, sends, and takes commands."""
        ports = {"ENABLE_UDP_LISTENER": "False"}
        began = []
        for limit in range(FEWEST, MOST):
            with self.subTest(limit=limit):
                began.append(self.begins(limit, **ports))
        self.assertEqual(sorted(began), began)
        self.assertEqual((began[0], began[-1]), (False, True))

    def begins(self, limit, **changed):
        """Whether a relay with this many descriptors begins. If it does, it works."""
        store, = self.stores(1)
        dest = f"127.0.0.1:{store.port}"
        *listening, admin = free_ports(4)
        files = self.given({"config": self.configuration([dest], listening, **changed),
                            "rules": f"[all]\ndefault = true\ndestinations = {dest}\n"})

        def few():
            resource.setrlimit(resource.RLIMIT_NOFILE, (limit, limit))

        words = ["run", *files, "--longest-name", "1024", "--admin", str(admin), "--explain"]
        with held(words, bufsize=0, preexec_fn=few) as child:
            relay = Relay(child, *listening, admin)
            if not relay.is_ready():
                ended = relay.end()
                self.assertEqual((ended.status, ended.out), (3, b""))
                self.assertRegex(ended.err, rb"^relayd: listen: (line|pickle|admin)\n|^relayd: output\n")
                self.assertTrue(NOTE in ended.err or b"descriptor" in ended.err or b"open files" in ended.err, ended.err)
                return False
            relay.lines(b"a 1 1\n")
            self.wait_for(lambda: store.lines() == [b"a 1 1"], "the store has the line")
            relay.pickles(b"(lp0\n.")
            self.assertEqual(len(relay.report()), 1)
            self.settles(relay)
            return True
