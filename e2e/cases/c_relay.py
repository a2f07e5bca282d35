"""A running carbon-c-relay beside relayd: what it does with tagged metrics and with names, and what can be left to it."""

import contextlib
import os
import re
import shutil
import socket
import subprocess
import time
import unittest

from fixtures.configured import ring, settings
from fixtures.harness import ATTEMPTS, LIMIT, run
from fixtures.mounts import in_place
from fixtures.program import TOP
from fixtures.running import WithRelays
from fixtures.stores import free_ports, until

PROGRAM = "/usr/bin/carbon-c-relay"
CARBON_RULES = "/usr/lib/python3/dist-packages/carbon/aggregator/rules.py"
ROUTES = os.path.join(TOP, "examples", "c-relay-routes.awk")
NAMES = [f"zz.t{number};k=v{number}" for number in range(60)]
COPIES = 2 * len(NAMES)
STARTED = 30  # seconds until a carbon-c-relay is started anew
with open(os.path.join(TOP, "docs", "MIGRATING_C_RELAY.md"), encoding="utf-8") as text_of_page:
    PAGE = text_of_page.read()


def untagged(name):
    """What is before the tags of a name."""
    return name.partition(";")[0]


class CRelay(WithRelays):
    """The two relays side by side, each with the same stores."""

    def setUp(self):
        super().setUp()
        if shutil.which(PROGRAM) is None:
            self.skipTest("carbon-c-relay is missing")

    @contextlib.contextmanager
    def c_relay(self, text, options=()):
        """A running carbon-c-relay: the port of its lines."""
        port, = free_ports(1)
        path = self.folder / "c-relay.conf"
        path.write_text(f"listen type linemode 127.0.0.1:{port} proto tcp ;\n{text}", encoding="utf-8")
        child = subprocess.Popen([PROGRAM, "-f", path, "-s", "-w", "1", *options], stdout=subprocess.DEVNULL,
                                 stderr=subprocess.DEVNULL)
        try:
            self.wait_for(lambda: listens(port), "carbon-c-relay listens")
            yield port
        finally:
            child.kill()
            child.wait(LIMIT)

    def lived(self, text, names, stores, copies, beside=(), options=()):
        """What each store got from a running carbon-c-relay: the names, sorted. Each store beside them gets all names."""
        before = [len(store.lines()) for store in stores]
        with self.c_relay(text, options) as port:
            with socket.create_connection(("127.0.0.1", port), LIMIT) as stream:
                stream.sendall("".join(f"{name} 1 1700000000\n" for name in names).encode())
            self.wait_for(lambda: sum(len(store.lines()) for store in stores) - sum(before) >= copies,
                          f"carbon-c-relay has sent {copies} copies")
            self.wait_for(lambda: all(len(store.lines()) == len(names) for store in beside), "those beside have all")
        return [sorted(line.split()[0].decode() for line in store.lines()[begin:])
                for store, begin in zip(stores, before)]

    def by_test_mode(self, text, names):
        """For each name, what it becomes and its destinations, by the test mode and the script that reads it."""
        path = self.folder / "c-relay.conf"
        path.write_text(text, encoding="ascii")
        tested = subprocess.run([PROGRAM, "-f", path, "-t"], input="".join(f"{name} 1 2\n--- 1 2\n" for name in names).encode(),
                                stdout=subprocess.PIPE, stderr=subprocess.DEVNULL, check=True)
        lines = subprocess.run(["awk", "-f", ROUTES], input=tested.stdout, stdout=subprocess.PIPE, check=True).stdout
        self.assertEqual(lines.count(b"\n"), len(names))
        return [line.split() for line in lines.decode().splitlines()]

    def routed(self, names, ports, **files):
        """For each store, by its port, the places of the names that `relayd route` sends there."""
        words = ["route", *self.given({"rules": None, **files}), "--names", "-"]
        ran = run(words, "".join(f"{name}\n" for name in names).encode())
        self.assertEqual((ran.status, ran.err), (0, b""))
        lines = [line.split() for line in ran.out.decode().splitlines()]
        self.assertEqual(len(lines), len(names))
        return [[place for place, line in enumerate(lines) if f"127.0.0.1:{port}" in
                 {":".join(word.split(":")[:2]) for word in line[1:]}] for port in ports]

    def test_a_ring(self):
        """It hashes a name without its tags: as `relayd route` does the untagged names, and not the tagged ones."""
        stores = self.stores(3)
        ports = [store.port for store in stores]
        members = " ".join(f"127.0.0.1:{port}={name}" for port, name in zip(ports, "abc"))
        got = self.lived(f"cluster stores carbon_ch replication 2 {members} ;\nmatch * send to stores ;\n",
                         NAMES, stores, COPIES)
        config = ring(", ".join(f"127.0.0.1:{port}:{name}" for port, name in zip(ports, "abc")), 2)
        whole = self.routed(NAMES, ports, config=config)
        cut = self.routed([untagged(name) for name in NAMES], ports, config=config)
        self.assertEqual(sum(map(len, got)), COPIES)
        self.assertEqual(got, [sorted(NAMES[place] for place in places) for places in cut])
        moved = sum(len(set(there) - {NAMES[place] for place in here}) for there, here in zip(got, whole))
        self.assertEqual(moved, 36)  # what docs/MIGRATING_C_RELAY.md says

    def test_tagged_metrics_that_are_left_to_it(self):
        """A rule of relayd sends it what has a `;`, so that a tagged metric stays at its stores."""
        *stores, other = self.stores(4)
        members = " ".join(f"127.0.0.1:{store.port}={name}" for store, name in zip(stores, "abc"))
        config = ring(", ".join(f"127.0.0.1:{store.port}:{name}" for store, name in zip(stores, "abc")), 2)
        cut = self.routed([untagged(name) for name in NAMES], [store.port for store in stores], config=config)
        with self.c_relay(f"cluster stores carbon_ch replication 2 {members} ;\nmatch * send to stores ;\n") as port:
            places = [f"127.0.0.1:{port}", f"127.0.0.1:{other.port}"]
            rules = (f"[tagged]\npattern = ;\ndestinations = {places[0]}\n"
                     f"[rest]\ndefault = true\ndestinations = {places[1]}\n")
            with self.relay(places, rules) as relay:
                relay.lines("".join(f"{name} 1 1700000000\n" for name in [*NAMES, "a.b"]).encode())
                self.wait_for(lambda: sum(len(store.lines()) for store in stores) == COPIES and other.lines(),
                              "all have come")
                self.settles(relay)
        self.assertEqual([sorted(line.split()[0].decode() for line in store.lines()) for store in stores],
                         [sorted(NAMES[place] for place in places) for places in cut])
        self.assertEqual(other.lines(), [b"a.b 1 1700000000"])

    def test_matches(self):
        """A match does not see the tags. The patterns that docs/MIGRATING_C_RELAY.md has in their place find the same."""
        names = ["xx.t1;k=v1", "xx.t1", "xx.t12;k=v1", "yy.a;k=x.load.y", "yy.load.b;k=v", "zz;load=1"]
        stores = self.stores(3)
        a, b, c = (store.port for store in stores)
        got = self.lived(f"cluster a forward 127.0.0.1:{a} ;\ncluster b forward 127.0.0.1:{b} ;\n"
                         f"cluster c forward 127.0.0.1:{c} ;\nmatch ^xx\\.t1$ send to a stop ;\n"
                         "match \\.load\\. send to b stop ;\nmatch * send to c ;\n", names, stores, len(names))
        self.assertEqual(got, [["xx.t1", "xx.t1;k=v1"], ["yy.load.b;k=v"],
                               ["xx.t12;k=v1", "yy.a;k=x.load.y", "zz;load=1"]])
        config = settings(DESTINATIONS=", ".join(f"127.0.0.1:{port}" for port in (a, b, c)), RELAY_METHOD="rules")
        rest = f"[rest]\ndefault = true\ndestinations = 127.0.0.1:{c}\n"

        def rules(first, second):
            return (f"[a]\npattern = (?-i){first}\ndestinations = 127.0.0.1:{a}\n"
                    f"[b]\npattern = (?-i){second}\ndestinations = 127.0.0.1:{b}\n{rest}")

        def here(text):
            places = self.routed(names, (a, b, c), config=config, rules=text)
            return [sorted(names[place] for place in each) for each in places]

        self.assertEqual(here(rules(r"^xx\.t1(;|$)", r"^[^;]*\.load\.")), got)
        self.assertEqual(here(rules(r"^xx\.t1$", r"\.load\.")), [
            ["xx.t1"], ["yy.a;k=x.load.y", "yy.load.b;k=v"], ["xx.t12;k=v1", "xx.t1;k=v1", "zz;load=1"]])

    def test_rewrites(self):
        """A rewrite does not see the tags, and leaves them. So does the rule that docs/MIGRATING_C_RELAY.md has for it."""
        names = ["xx.t3;k=xx.t3", "xx.t3", "xx.t4;k=v", "yy;k=v2"]
        stores = self.stores(1)
        got = self.lived(f"cluster a forward 127.0.0.1:{stores[0].port} ;\nrewrite ^xx\\.t3$ into yy.t3 ;\n"
                         'rewrite ^xx\\.(t4.*)$ into zz.\\1 ;\nrewrite "k=v2" into w ;\nmatch * send to a ;\n',
                         names, stores, len(names))
        self.assertEqual(got, [["yy.t3", "yy.t3;k=xx.t3", "yy;k=v2", "zz.t4;k=v"]])
        rewrite = "[pre]\n^xx\\.t3(;|$) = yy.t3\\1\n^xx\\.(t4[^;]*)(;|$) = zz.\\1\\2\n"
        words = ["route", *self.given({"config": ring("h:1"), "rules": None, "rewrite": rewrite}), "--names", "-"]
        ran = run(words, "".join(f"{name}\n" for name in names).encode())
        self.assertEqual(sorted(line.split()[-2] for line in ran.out.decode().splitlines()), got[0])

    def found(self, expression, names):
        """The names in which an expression is found: there by the test mode, and here; `None` where it is refused."""
        to_a = "127.0.0.1:1"
        there = self.by_test_mode(f"cluster a forward {to_a} ;\ncluster b forward 127.0.0.1:2 ;\n"
                                  f"match {expression} send to a stop ;\nmatch * send to b ;\n", names)
        config = settings(DESTINATIONS=f"{to_a}, 127.0.0.1:2", RELAY_METHOD="rules")
        rules = f"[a]\npattern = (?-i){expression}\ndestinations = {to_a}\n[b]\ndefault = true\ndestinations = 127.0.0.1:2\n"
        ran = run(["route", *self.given({"config": config, "rules": rules}), "--names", "-"],
                  "".join(f"{name}\n" for name in names).encode())
        here = [line.split() for line in ran.out.decode().splitlines()]
        return tuple([name for name, *dests in each if dests == [to_a]] if each else None for each in (there, here))

    def test_expressions(self):
        """Nearly all mean the same; docs/MIGRATING_C_RELAY.md has those that do not."""
        names = ["a.b", "ab", "aab", "servers.web1.load", "Servers.web12", "a-b_c", "x.d", "x1", "a#b", "dd", "99.9", "n:1"]
        for expression in (r"^a\.b$", r"\w+\.\w+", r"\bweb", r"\<web", r"web1\>", "[[:digit:]]", "^[[:alpha:]]+$", "a{2,}b",
                           r"(a|ab)(b|)$", r"\-", r"\_", "a|", "|a", "[]a]", "[^]a]", "[a-]", "(^a|b$)", "a$|^x", "(ab)+$", r"\S", r"\W"):
            with self.subTest(expression):
                there, here = self.found(expression, names)
                self.assertEqual(there, here)
        for expression, there, here in ((r"\d", ["servers.web1.load", "x.d", "dd"], ["servers.web1.load", "Servers.web12", "x1", "99.9", "n:1"]),
                                        (r"a{,1}b$", ["a.b", "ab", "aab", "a#b"], None), (r"(a)\1", ["aab"], None)):
            with self.subTest(expression):
                self.assertEqual(self.found(expression, names), (there, here))

    def test_names_that_become_the_same(self):
        """Each has a line, also behind a rewrite that changes what stands between them."""
        for more, name in (("", "a.load"), ("rewrite ^(.*)$ into x.\\1 ;\n", "x.a.load")):
            text = f"cluster a forward 127.0.0.1:1 ;\nrewrite Load$ into load ;\n{more}match * send to a ;\n"
            self.assertEqual(self.by_test_mode(text, ["a.Load", "a.load", "a.load"]), [[name, "127.0.0.1:1"]] * 3)

    def test_validated_names(self):
        """A `validate` takes no place in what the script makes of the test mode, whether it holds or not."""
        text = ("cluster a forward 127.0.0.1:1 ;\ncluster b forward 127.0.0.1:2 ;\n"
                "match ^x\\. validate ^[0-9.]+\\ [0-9]+$ else log send to a ;\n"
                "match * validate ^[a-z]+$ else drop send to b ;\n")
        self.assertEqual(self.by_test_mode(text, ["x.y", "z"]), [["x.y", "127.0.0.1:1"], ["z"]])

    def test_a_listen_beside_an_option(self):
        """With a `listen` in its file it ignores `-p`."""
        other, = free_ports(1)
        with self.c_relay("cluster a forward 127.0.0.1:1 ;\nmatch * send to a ;\n", ["-p", str(other)]):
            self.assertFalse(listens(other))

    def test_aggregates(self):
        """Its methods are those of carbon-aggregator by the names of docs/MIGRATING.md, but for percentiles."""
        if not os.path.exists(CARBON_RULES):
            self.skipTest("graphite-carbon is missing")
        values = [3, 1, 4, 1, 5, 9, 2, 6, 5, 35, 8, 97]
        methods = {"sum": "sum", "average": "avg", "min": "min", "max": "max", "count": "count", "median": "p50", "percentile95": "p95"}
        asked = "from carbon.aggregator.rules import AGGREGATION_METHODS as of; print(*(of[name](%r) for name in %r))"
        carbon = subprocess.run(["/usr/bin/python3", "-c", asked % (values, [*methods.values()])], stdout=subprocess.PIPE, check=True)
        store, = self.stores(1)
        computed = "".join(f"compute {name} write to all.{name} " for name in methods)
        text = (f"cluster a forward 127.0.0.1:{store.port} ;\naggregate ^s\\. every 1 seconds expire after 6 seconds "
                f"timestamp at start of bucket {computed}send to a stop ;\nmatch * send to a ;\n")
        with self.c_relay(text) as port:
            now = int(time.time())
            with socket.create_connection(("127.0.0.1", port), LIMIT) as stream:
                stream.sendall("".join(f"s.n{value} {value} {now}\n" for value in values).encode())
            self.wait_for(lambda: len(store.lines()) == len(methods), "all aggregates have come")
        got = {name.decode(): (float(value), float(moment)) for name, value, moment in map(bytes.split, store.lines())}
        wanted = {f"all.{name}": float(value) for name, value in zip(methods, carbon.stdout.split())}
        self.assertEqual({moment for _, moment in got.values()}, {now})
        self.assertEqual([name for name, value in wanted.items() if abs(got[name][0] - value) > 1e-5], ["all.percentile95"])

    def test_no_listen(self):
        """It receives lines and datagrams then, by addresses of both kinds, as relayd does at the interface `::`."""
        def send(stream_port, datagram_port):
            for family, host in ((socket.AF_INET, "127.0.0.1"), (socket.AF_INET6, "::1")):
                for kind, port in ((socket.SOCK_STREAM, stream_port), (socket.SOCK_DGRAM, datagram_port)):
                    with socket.socket(family, kind) as sender:
                        sender.connect((host, port))
                        sender.sendall(f"{family.name}.{kind.name} 1 1700000000\n".encode())

        def came(store):
            return {line.split()[0].decode() for line in store.lines()}

        def sent_again(port):  # it begins to listen in one way after the other
            with contextlib.suppress(ConnectionError):
                send(port, port)
            time.sleep(0.2)
            return len(came(theirs)) == 4

        def is_heard():
            """Whether all come through a carbon-c-relay; one that begins on a busy machine may never listen in each way."""
            port, = free_ports(1)
            child = subprocess.Popen([PROGRAM, "-f", path, "-s", "-p", str(port)], stdout=subprocess.DEVNULL,
                                     stderr=subprocess.DEVNULL)
            try:
                return until(lambda: listens(port) and sent_again(port), STARTED)
            finally:
                child.terminate()
                child.wait(LIMIT)

        (theirs,), (ours,) = self.stores(1), self.stores(1)
        path = self.folder / "c-relay.conf"
        path.write_text(f"cluster a forward 127.0.0.1:{theirs.port} ;\nmatch * send to a ;\n", encoding="ascii")
        self.assertTrue(any(is_heard() for _ in range(ATTEMPTS)), came(theirs))
        dest = f"127.0.0.1:{ours.port}"
        with self.relay([dest], f"[all]\ndefault = true\ndestinations = {dest}\n",
                        LINE_RECEIVER_INTERFACE="::", UDP_RECEIVER_INTERFACE="::") as relay:
            send(relay.line, relay.udp)
            self.wait_for(lambda: len(came(ours)) == 4, "all have come")
            self.settles(relay)
        self.assertEqual(came(ours), came(theirs))

    def test_a_blackhole_without_stop(self):
        """It ends the search for a match all the same."""
        stores = self.stores(1)
        text = (f"cluster a forward 127.0.0.1:{stores[0].port} ;\nmatch ^debug\\. send to blackhole ;\n"
                "match * send to a ;\n")
        self.assertEqual(self.by_test_mode(text, ["debug.x", "a.x"]), [["debug.x"], ["a.x", f"127.0.0.1:{stores[0].port}"]])
        self.assertEqual(self.lived(text, ["debug.x", "a.x"], stores, 1), [["a.x"]])

    def test_a_match_above_a_rewrite(self):
        """Its store gets the name as it is there; the script writes it before the destination."""
        stores = self.stores(2)
        a, b = (f"127.0.0.1:{store.port}" for store in stores)
        text = (f"cluster a forward {a} ;\ncluster b forward {b} ;\nmatch ^shop\\. send to a ;\n"
                "rewrite ^shop\\.(.*)$ into old.\\1 ;\nmatch * send to b ;\n")
        self.assertEqual(self.by_test_mode(text, ["shop.x", "other.y"]), [["old.x", f"shop.x={a}", b], ["other.y", b]])
        self.assertEqual(self.lived(text, ["shop.x", "other.y"], stores, 3), [["shop.x"], ["old.x", "other.y"]])

    def test_names_as_it_cleanses_them(self):
        """The rewrite rules of docs/MIGRATING_C_RELAY.md do to names without tags what it does, with its option `-c` too."""
        names = ["..a..b(1)", "a.b.", "\u00fc.load", "\u4e2d\u00e9.x", "\U0001f4c8.y", "a-b_c:d#e.f", "x=1/y$z", "a...b"]
        stores = self.stores(1)
        text = f"cluster a forward 127.0.0.1:{stores[0].port} ;\nmatch * send to a ;\n"
        rewrite = re.search(r"(?ms)^\$ cat cleansing\.conf\n(.*?)^\$ ", PAGE)[1]
        for options, here in (((), rewrite), (("-c", "-_:#/="), rewrite.replace("[^-_:#.", "[^-_:#/\\x3d."))):
            words = ["route", *self.given({"config": ring("h:1"), "rules": None, "rewrite": here}), "--names", "-"]
            ran = run(words, "".join(f"{name}\n" for name in names).encode())
            self.assertEqual([sorted(line.split()[-2] for line in ran.out.decode().splitlines())],
                             self.lived(text, names, stores, len(names), options=options))

    def test_a_store_with_an_address_of_ipv6(self):
        """relayd reaches by a host name that has the address what is `[::1]` there, and sends it the same."""
        names = [f"servers.web{number}.load" for number in range(60)]
        store, = self.stores(1, host="::1")
        alone = self.lived(f"cluster a forward [::1]:{store.port} ;\nmatch * send to a ;\n", names, [store], len(names))
        hosts = self.folder / "hosts"
        hosts.write_text("127.0.0.1 localhost\n::1 store6\n", encoding="ascii")
        dest = f"store6:{store.port}"
        try:
            with self.relay([dest], f"[all]\ndefault = true\ndestinations = {dest}\n",
                            before=in_place(hosts, "/etc/hosts")) as relay:
                relay.lines("".join(f"{name} 1 1700000000\n" for name in names).encode())
                self.wait_for(lambda: len(store.lines()) == 2 * len(names), "all have come")
                self.settles(relay)
        except subprocess.SubprocessError as fault:
            raise unittest.SkipTest("this system lets no process have a hosts file of its own") from fault
        self.assertEqual([sorted(line.split()[0].decode() for line in store.lines()[len(names):])], alone)

    def test_a_ring_with_stores_on_one_host(self):
        """Its copies may be on one host, as those of relayd without diverse replicas; with them, names move."""
        members = [f"127.0.0.{host}:{port}" for host, ports in ((1, "ab"), (2, "abc")) for port in range(3001, 3001 + len(ports))]
        instances = ["a", "b", "a", "b", "c"]
        names = [f"servers.web{number}.cpu.load" for number in range(4000)]
        there = self.by_test_mode("cluster ring carbon_ch replication 2 {} ;\nmatch * send to ring ;\n".format(
            " ".join(f"{member}={instance}" for member, instance in zip(members, instances))), names)
        dests = ", ".join(f"{member}:{instance}" for member, instance in zip(members, instances))
        moved = {}
        for diverse in ("false", "true"):
            ran = run(["route", *self.given({"config": ring(dests, 2, DIVERSE_REPLICAS=diverse), "rules": None}),
                       "--names", "-"], "".join(f"{name}\n" for name in names).encode())
            here = [{":".join(word.split(":")[:2]) for word in line.split()[1:]} for line in ran.out.decode().splitlines()]
            moved[diverse] = sum(set(one[1:]) != other for one, other in zip(there, here))
        self.assertEqual([line[0] for line in there], names)
        self.assertLess(moved["false"], 40)
        self.assertEqual(moved["true"], 1414)  # what docs/MIGRATING_C_RELAY.md says

    def test_a_relay_in_front_of_it(self):
        """What cannot be moved is left to it, by the pattern of docs/MIGRATING_C_RELAY.md: with relayd in front each store
        gets what it got of carbon-c-relay alone."""
        names = ([f"apps.shop.calls{number}" for number in range(40)] + [f"servers.web{number}.load" for number in range(40)] +
                 ["..a.b", "a..b", "a.b.", "x=1/y", "\u00fc.x", "\u017f.x", "disk.used;host=web1", "APPS.x"])
        *pool, servers = self.stores(3)
        members = " ".join(f"127.0.0.1:{store.port}" for store in pool)
        text = (f"cluster ha any_of {members} ;\ncluster servers forward 127.0.0.1:{servers.port} ;\n"
                "match ^apps\\. send to ha stop ;\nmatch * send to servers ;\n")
        alone = self.lived(text, names, [*pool, servers], len(names))
        self.assertEqual(sum(map(len, alone[:2])), 40)
        pattern, = re.findall(r"(?m)^pattern = .*\|\^apps\\\.$", PAGE)
        with self.c_relay(text) as port:
            behind, rest = f"127.0.0.1:{port}", f"127.0.0.1:{servers.port}"
            rules = f"[left]\n{pattern}\ndestinations = {behind}\n[all]\ndefault = true\ndestinations = {rest}\n"
            before = [len(store.lines()) for store in (*pool, servers)]
            with self.relay([behind, rest], rules) as relay:
                relay.lines("".join(f"{name} 1 1700000000\n" for name in names).encode())
                self.wait_for(lambda: sum(len(store.lines()) for store in (*pool, servers)) - sum(before) == len(names),
                              "all have come")
                self.assertEqual([counts["taken"] for _, counts in relay.report()], [47, 41])
                self.settles(relay)
        together = [sorted(line.split()[0].decode() for line in store.lines()[begin:])
                    for store, begin in zip((*pool, servers), before)]
        self.assertEqual(together, alone)

    def test_a_copy_of_its_traffic(self):
        """A match above all others sends each metric to a trial relay too, and changes nothing at a ring."""
        names = [f"servers.web{number}.load" for number in range(60)]
        *stores, trial = self.stores(4)
        members = " ".join(f"127.0.0.1:{store.port}={name}" for store, name in zip(stores, "abc"))
        text = f"cluster stores carbon_ch replication 2 {members} ;\nmatch * send to stores ;\n"
        alone = self.lived(text, names, stores, 2 * len(names))
        with self.relay([f"127.0.0.1:{trial.port}"], f"[all]\ndefault = true\ndestinations = 127.0.0.1:{trial.port}\n") as relay:
            copied = f"cluster trial forward 127.0.0.1:{relay.line} ;\nmatch * send to trial ;\n{text}"
            beside = self.lived(copied, names, stores, 2 * len(names), [trial])
            self.settles(relay)
        self.assertEqual(beside, alone)


def listens(port):
    """Whether something listens at a port."""
    with socket.socket() as probe:
        return probe.connect_ex(("127.0.0.1", port)) == 0
