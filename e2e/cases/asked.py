"""`report` and `stop`: what they print of a running relay, how they wait, and their faults."""

import contextlib
import json
import os
import select
import socket
import threading

from fixtures.harness import LIMIT, Ran, run
from fixtures.running import WithRelays
from fixtures.stores import free_ports

FAULT = b"relayd: admin: 127.0.0.1:%d: %s\n"
HASHED = {"RELAY_METHOD": "consistent-hashing"}
STEPS = 30_000          # of a run whose record takes a while to write
SHORT_WAIT = 3.0        # seconds: longer than a silent connection of the admin port has otherwise
BULK = 40_000           # lines of 400 bytes, which do not fit the room that the system has for a connection
PIECE = 65_536          # bytes that the system keeps for a slow store
WEB_SERVER = b"HTTP/1.1 400 Bad Request\r\nServer: other\r\nContent-Length: 0\r\n\r\n"


@contextlib.contextmanager
def answering(answer):
    """The port of a program that takes one connection, reads a line, answers and ends it; and what it read."""
    read = []

    def serve():
        with listener.accept()[0] as stream, stream.makefile("rb") as lines:
            read.append(lines.read())
            stream.sendall(answer)

    with socket.create_server(("127.0.0.1", 0)) as listener:
        thread = threading.Thread(target=serve, daemon=True)
        thread.start()
        yield listener.getsockname()[1], read
        thread.join(LIMIT)


class Asked(WithRelays):
    """The commands for a relay that runs."""

    def asks(self, expected, *words):
        """A case: the command ends so."""
        with self.subTest():
            self.same(words, run(tuple(map(str, words))), expected, words)

    def test_a_report(self):
        """It is the answer of the admin port, as it is."""
        away = [f"127.0.0.1:{port}:{name}" for port, name in zip(free_ports(2), "ab")]
        with self.relay(away, **HASHED) as relay:
            relay.lines(b"a 1 1\nb 2 2\n")
            self.wait_for(lambda: relay.totals()["queued"] == 2, "both are queued")
            report = relay.command(b"report")
            self.assertEqual(report.count(b"\n"), 2)
            self.asks(Ran(0, report, b""), "report", "--admin", relay.admin)
            self.asks(Ran(0, report, b""), "report", f"--admin={relay.admin}")
            self.settles(relay)

    def test_a_report_in_json(self):
        """An object for each line, whose members are its words."""
        away = [f"127.0.0.1:{port}:{name}" for port, name in zip(free_ports(2), "ab")]
        with self.relay(away, **HASHED) as relay:
            relay.lines(b"a 1 1\nb 2 2\n")
            self.wait_for(lambda: relay.totals()["queued"] == 2, "both are queued")
            words = [line.split() for line in relay.command(b"report").decode().splitlines()]
            ran = run(("report", "--json", "--admin", str(relay.admin)))
            self.assertEqual((ran.status, ran.err), (0, b""))
            objects = list(map(json.loads, ran.out.splitlines()))
            self.assertEqual([list(it) for it in objects], [line[::2] for line in words])
            self.assertEqual([list(map(str, it.values())) for it in objects], [line[1::2] for line in words])
            self.assertEqual([it["destination"] for it in objects], away)
            self.assertEqual(sum(it["queued"] for it in objects), 2)
            self.settles(relay)

    def test_answers_of_others_in_json(self):
        """A line of a later relay has more members; what has no pairs of words is no report."""
        more = b'destination h:1:a queued 07 new 1 why "\\\x01\n'
        with answering(more) as (port, _):
            self.asks(Ran(0, b'{"destination":"h:1:a","queued":7,"new":1,"why":"\\"\\\\\\u0001"}\n', b""),
                      "report", "--json", "--admin", port)
        for answer in (b"destination h:1 queued\n", b"destination h:1 queued 1  2\n", b"destination \xff queued 1\n"):
            with answering(answer) as (port, _):
                self.asks(Ran(3, b"", FAULT % (port, b"no relay")), "report", "--json", "--admin", port)
        with answering(b"destination a\n") as (port, _), open("/dev/full", "wb") as full:
            ran = run(("report", "--json", "--admin", str(port)), stdout=full)
            self.assertEqual((ran.status, ran.err), (3, b"relayd: output\n"))

    def test_a_stop(self):
        with self.relay(["127.0.0.1:1"], **HASHED) as relay:
            self.asks(Ran(0, b"stopping\n", b""), "stop", "--admin", relay.admin)
            self.assertEqual(relay.end(), Ran(0, b"settled\n", b""))

    def test_a_stop_that_waits(self):
        """When it ends, the relay has written its closing line and closed its ports."""
        with self.relay(["127.0.0.1:1"], MAX_QUEUE_SIZE="1000000", **HASHED) as relay:
            self.asks(Ran(0, b"stopping\n", b""), "stop", "--wait", "--admin", relay.admin)
            self.assertTrue(select.select([relay.child.stdout], [], [], 0)[0])
            with self.assertRaises(ConnectionRefusedError):
                socket.create_connection(("127.0.0.1", relay.admin), LIMIT)
            self.assertEqual(relay.end(), Ran(0, b"settled\n", b""))

    def test_a_stop_that_waits_for_the_record(self):
        """When it ends, the record has its name."""
        record = self.folder / "record"
        with self.relay(["127.0.0.1:1"], options=("--record", os.fspath(record)), MAX_QUEUE_SIZE="1000000", **HASHED) as relay:
            relay.lines(b"".join(b"n%d 1 1\n" % number for number in range(STEPS)))
            self.wait_for(lambda: relay.totals()["kept"] == STEPS, "all lines are queued")
            self.asks(Ran(0, b"stopping\n", b""), "stop", "--wait", "--admin", relay.admin)
            self.assertGreater(record.stat().st_size, STEPS)
            self.assertEqual(relay.end(), Ran(0, b"settled\n", b""))

    def test_a_stop_that_waits_for_a_drain(self):
        """However long a store takes, and however many others were silent when the stop came."""
        store, = self.stores(1, reads=False, room=PIECE)
        options = ("--drain", "3600")
        with self.relay([f"127.0.0.1:{store.port}"], options=options, MAX_QUEUE_SIZE="1000000", **HASHED) as relay, \
                contextlib.ExitStack() as silent:
            relay.lines(b"".join(b"%s.%d 1 1\n" % (b"n" * 400, number) for number in range(BULK)))
            self.wait_for(lambda: relay.totals()["kept"] == BULK, "all lines are queued")
            self.wait_for(store.is_connected, "the store is connected")
            for _ in range(5):
                silent.enter_context(socket.create_connection(("127.0.0.1", relay.admin), LIMIT))
            reads_on = threading.Event()
            reader = threading.Thread(target=store.read_slowly, args=(0.05, reads_on))
            reader.start()
            later = threading.Timer(1.5 * SHORT_WAIT, reads_on.set)
            later.start()
            silent.callback(reads_on.set)
            threading.Thread(target=self.read_on, args=(store, reader), daemon=True).start()
            self.asks(Ran(0, b"stopping\n", b""), "stop", "--wait", "--admin", relay.admin)
            self.assertTrue(reads_on.is_set(), "it has waited for the store")
            self.assertTrue(select.select([relay.child.stdout], [], [], 0)[0])
            with self.assertRaises(ConnectionRefusedError):
                socket.create_connection(("127.0.0.1", relay.admin), LIMIT)
            self.assertEqual(relay.end(), Ran(0, b"settled\n", b""))
            self.wait_for(lambda: store.text().count(b"\n") == BULK, "the store has all")

    def read_on(self, store, reader):
        """Lets a store read as fast as it can once it no longer reads slowly."""
        reader.join(LIMIT)
        store.read_on()

    def test_nothing_listens(self):
        port = free_ports(1)[0]
        for words in (("report",), ("stop",), ("stop", "--wait")):
            self.asks(Ran(3, b"", FAULT % (port, b"connection refused")), *words, "--admin", port)

    def test_answers_of_other_programs(self):
        """None, one that is cut, that the command is unknown, and what no relay answers; what is sent is one line."""
        report = b"destination 127.0.0.1:2003 queued 0 offered 0 kept 0 dropped 0 taken 0\n"
        for answer, fault in ((b"", b"no answer"), (b"destin", b"answer cut off"), (report + report[:20], b"answer cut off"),
                              (b"unknown command\n", b"unknown command"), (WEB_SERVER, b"no relay"), (b"stopping\n", b"no relay"),
                              (report + b"x\n", b"no relay"), (b"x" * 100_000 + b"\n", b"no relay")):
            with answering(answer) as (port, read):
                self.asks(Ran(3, b"", FAULT % (port, fault)), "report", "--admin", port)
            self.assertEqual(read, [b"report\n"])
        for answer, fault in ((b"", b"no answer"), (b"stop", b"answer cut off"), (b"unknown command\n", b"unknown command"),
                              (WEB_SERVER, b"no relay"), (report, b"no relay"), (b"stop\n", b"no relay"), (b"stopping\n\n", b"no relay")):
            with answering(answer) as (port, read):
                self.asks(Ran(3, b"", FAULT % (port, fault)), "stop", "--admin", port)
            self.assertEqual(read, [b"stop\n"])

    def test_a_reload(self):
        """What is sent is one line; what is answered is the output, or the fault with the status that it has."""
        for answer in (b"reloaded: rules changed\n", b"reloaded\n"):
            with answering(answer) as (port, read):
                self.asks(Ran(0, answer, b""), "reload", "--admin", port)
            self.assertEqual(read, [b"reload\n"])
        for status, code in ((1, b"1"), (3, b"3"), (4, b"4")):
            with answering(b"refused %s config: line 3: BadLine\nmore\n" % code) as (port, _):
                self.asks(Ran(status, b"", b"relayd: config: line 3: BadLine\n"), "reload", "--admin", port)
        for answer, fault in ((b"", b"no answer"), (b"reload", b"answer cut off"), (b"unknown command\n", b"unknown command"),
                              (b"refused 1 config: l", b"answer cut off"), (b"refused 2 x\n", b"no relay"),
                              (b"reloaded\n\n", b"no relay"), (b"stopping\n", b"no relay"), (WEB_SERVER, b"no relay")):
            with answering(answer) as (port, _):
                self.asks(Ran(3, b"", FAULT % (port, fault)), "reload", "--admin", port)

    def test_wrong_words_of_a_reload(self):
        """It takes no files and no options of a run, and says what to do instead."""
        for words in (("--config", "/c"), ("--rules", "/r"), ("--rewrite", "/w"), ("--longest-name", "9"), ("--spool", "/s"),
                      ("--drain", "5")):
            with self.subTest():
                ran = run(("reload", *words, "--admin", "1"))
                self.assertEqual((ran.status, ran.out), (2, b""), words)
                self.assertIn(b"unexpected argument '%s' found\n\n  tip: the relay reads the files again that it began with; "
                              b"replace these, or restart it with others\n" % words[0].encode(), ran.err)
        ran = run(("reload",))
        self.assertEqual((ran.status, ran.out), (2, b""))

    def test_an_output_that_is_full(self):
        with answering(b"destination a\n") as (port, _), open("/dev/full", "wb") as full:
            ran = run(("report", "--admin", str(port)), stdout=full)
            self.assertEqual((ran.status, ran.err), (3, b"relayd: output\n"))

    def test_wrong_words(self):
        for words in (("report",), ("stop",), ("stop", "--wait"), ("report", "--admin", "0"), ("stop", "--admin", "x"),
                      ("report", "--admin", "65536"), ("report", "--wait", "--admin", "1"), ("stop", "--admin", "1", "2")):
            with self.subTest():
                ran = run(words)
                self.assertEqual((ran.status, ran.out), (2, b""), words)
                self.assertIn(b"\nUsage: relayd %s " % words[0].encode(), ran.err)
