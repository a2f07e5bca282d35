"""The admin port of `relayd run`: its connections are served side by side."""

import contextlib
import socket
import threading
import time

from fixtures.harness import LIMIT, Ran, Settings, run
from fixtures.running import WithRelays

ALL = "[all]\ndefault = true\ndestinations = {}\n"
SILENT = 20
MOST = 64          # connections that are served side by side
PATIENCE = 1.0     # seconds that a connection has for its command
LEAST = 0.1        # of them, which it has where others wait for its place
CROWD = 900        # silent connections
PIECE = 65_536     # bytes that a slow store reads at once
KEPT = 32          # of them, which may stay until a relay that stops has ended


def is_over(stream):
    """Whether a connection that does not block is closed, or was never made; its place is given back then."""
    try:
        if stream.recv(1):
            return False
    except BlockingIOError:
        return False
    except OSError:
        pass
    stream.close()
    return True


class AdminPort(WithRelays):
    """Connections that say nothing, half a command or too much, beside one that asks."""

    @contextlib.contextmanager
    def running(self):
        """A relay with one store."""
        store, = self.stores(1)
        dests = [f"127.0.0.1:{store.port}"]
        with self.relay(dests, ALL.format(*dests)) as relay:
            yield relay

    def connected(self, stack, relay, count, text=b""):
        """This number of connections, each of which sends this and no more."""
        streams = [stack.enter_context(socket.create_connection(("127.0.0.1", relay.admin), LIMIT)) for _ in range(count)]
        for stream in streams:
            stream.sendall(text)
        return streams

    def answered(self, relay):
        """How many seconds a report takes that is asked for once."""
        began = time.monotonic()
        answer = relay.ask(b"report", b"\n")
        took = time.monotonic() - began
        if answer or took < PATIENCE:  # an asker that is held up longer gets no answer
            self.assertTrue(answer.startswith(b"destination "), answer)
        return took

    def test_a_report_beside_silent_connections(self):
        """It is answered at once, and so is a stop."""
        def report():
            with self.running() as relay, contextlib.ExitStack() as stack:
                self.connected(stack, relay, SILENT)
                self.connected(stack, relay, SILENT, b"rep")
                return self.answered(relay)

        def stop():
            with self.running() as relay, contextlib.ExitStack() as stack:
                self.connected(stack, relay, SILENT)
                self.connected(stack, relay, SILENT, b"rep")
                began = time.monotonic()
                self.settles(relay)
                return time.monotonic() - began

        self.gets_below(PATIENCE / 2, report)
        self.gets_below(PATIENCE, stop)

    def test_more_than_are_served(self):
        """The oldest silent ones give way to one that asks."""
        def served():
            with self.running() as relay, contextlib.ExitStack() as stack:
                began = time.monotonic()
                streams = self.connected(stack, relay, MOST)
                self.answered(relay)
                streams[-1].sendall(b"report\n")
                last, first = streams[-1].recv(100), streams[0].recv(100)
                took = time.monotonic() - began
                if took < PATIENCE:  # else they are closed as all that are silent
                    self.assertTrue(last.startswith(b"destination "), last)
                    self.assertEqual(first, b"")
                self.settles(relay)
                return took

        self.gets_below(PATIENCE, served)

    def test_a_silent_crowd(self):
        """It keeps nobody from the port: a report is answered at once, and a stop waits for the end; in the longer form also
        where it comes again."""
        self.needs_descriptors(3 * CROWD)
        self.gets_below(8 * PATIENCE, self.among_a_crowd)

    def among_a_crowd(self):
        """How long a report and a stop take together."""
        with self.running() as relay, contextlib.ExitStack() as stack:
            self.connected(stack, relay, CROWD)
            if Settings.longer:
                stack.enter_context(self.renewed(relay))
            began = time.monotonic()
            ran = run(("report", "--admin", str(relay.admin)))
            self.assertEqual((ran.status, ran.out[:12], ran.err), (0, b"destination ", b""))
            self.connected(stack, relay, CROWD, b"sto")
            self.assertEqual(run(("stop", "--wait", "--admin", str(relay.admin))), Ran(0, b"stopping\n", b""))
            took = time.monotonic() - began
            self.assertEqual(relay.end(), Ran(0, b"settled\n", b""))
            return took

    @contextlib.contextmanager
    def renewed(self, relay):
        """A crowd of which each that is closed comes again."""
        ended = threading.Event()

        def come():
            streams = []
            while not ended.is_set():
                streams = [stream for stream in streams if not is_over(stream)]
                while len(streams) < CROWD:
                    stream = socket.socket()
                    stream.setblocking(False)
                    stream.connect_ex(("127.0.0.1", relay.admin))
                    streams.append(stream)
            for stream in streams:
                stream.close()

        thread = threading.Thread(target=come)
        thread.start()
        try:
            yield
        finally:
            ended.set()
            thread.join()

    def test_silent_when_the_stop_came(self):
        """Such a connection stays until the relay has ended, and may still ask meanwhile; others have their second."""
        store, = self.stores(1, reads=False, room=PIECE)
        dests = [f"127.0.0.1:{store.port}"]
        lines = b"".join(b"%s.%d 1 1\n" % (b"n" * 450, number) for number in range(30_000))
        options = ("--drain", "3600")
        with self.relay(dests, ALL.format(*dests), options=options, MAX_QUEUE_SIZE="100000") as relay, \
                contextlib.ExitStack() as stack:
            relay.lines(lines)
            self.wait_for(lambda: relay.totals()["kept"] == 30_000, "all lines are queued")
            self.wait_for(store.is_connected, "the store is connected")
            waiting, asking = self.connected(stack, relay, 2)
            begun, = self.connected(stack, relay, 1, b"rep")
            reads_on = threading.Event()
            reader = threading.Thread(target=store.read_slowly, args=(0.05, reads_on))
            reader.start()
            stack.callback(reads_on.set)
            self.assertEqual(relay.command(b"stop"), b"stopping\n")
            time.sleep(3 * PATIENCE)
            self.connected(stack, relay, MOST + KEPT)
            asking.sendall(b"report\n")
            self.assertTrue(asking.recv(100).startswith(b"destination "))
            self.assertEqual(begun.recv(100), b"")
            waiting.setblocking(False)
            with self.assertRaises(BlockingIOError):
                waiting.recv(100)
            waiting.settimeout(LIMIT)
            reads_on.set()
            reader.join(LIMIT)
            store.read_on()
            self.assertEqual(waiting.recv(100), b"")
            self.assertEqual(relay.end(), Ran(0, b"settled\n", b""))

    def test_a_silent_connection_is_closed(self):
        """After its second, without an answer."""
        def closed():
            with self.running() as relay, contextlib.ExitStack() as stack:
                began = time.monotonic()
                stream, = self.connected(stack, relay, 1, b"repor")
                self.assertEqual(stream.recv(100), b"")
                took = time.monotonic() - began
                self.assertGreater(took, PATIENCE / 2)
                self.settles(relay)
                return took

        self.gets_below(3 * PATIENCE, closed)

    def test_a_command_in_pieces(self):
        """It is put together, and what follows it is left out."""
        with self.running() as relay:
            answers = []
            # Where the machine holds it up for longer than a connection may be silent, there is no answer.
            self.wait_for(lambda: answers.append(self.asked_in_pieces(relay)) or answers[-1], "it is answered")
            self.assertTrue(answers[-1].startswith(b"destination 127.0.0.1:"), answers[-1])
            self.assertEqual(answers[-1].count(b"\n"), 1)
            self.settles(relay)

    def asked_in_pieces(self, relay):
        """The answer to a command in pieces, with rests between."""
        with contextlib.ExitStack() as stack:
            stream, = self.connected(stack, relay, 1, b"re")
            with contextlib.suppress(ConnectionError):
                for piece in (b"port\r", b"\nstop\n"):
                    time.sleep(0.05)
                    stream.sendall(piece)
            return answer_of(stream)

    def test_much_at_once(self):
        """More than a command may have is unknown, and the answer comes whole though the rest was not read."""
        with self.running() as relay:
            self.assertEqual(relay.command(b"x" * 50_000), b"unknown command\n")
            self.settles(relay)

    def test_reports_side_by_side(self):
        """Many that ask at once are all answered."""
        with self.running() as relay, contextlib.ExitStack() as stack:
            times, answers = [], []
            streams = []
            for _ in range(2 * MOST):
                began = time.monotonic()
                streams += self.connected(stack, relay, 1, b"report\n")
                times.append(time.monotonic() - began)
            for stream, took in zip(streams, times):
                answers.append(answer_of(stream))
                if took < LEAST:  # one that the machine holds up longer may have to give way
                    self.assertTrue(answers[-1].startswith(b"destination "), answers[-1])
            self.assertGreater(len(list(filter(None, answers))), MOST)
            self.settles(relay)


def answer_of(stream):
    """What comes until the other side closes a connection."""
    answer = b""
    with contextlib.suppress(ConnectionError):
        while more := stream.recv(4096):
            answer += more
    return answer
