"""`relayd reload` beside a log that nobody reads, a slow disk, and look-ups that hang, and where threads, descriptors or memory
are short; and an output without room."""

import collections
import contextlib
import fcntl
import os
import re
import resource
import shutil
import socket
import subprocess
import termios
import threading
import time
import unittest
from unittest import mock

from fixtures.harness import LIMIT, Ran, Settings, held
from fixtures.refused import compiled
from fixtures.reloading import ALL, RELOADED, Reloads, numbered, text_of
from fixtures.running import Relay
from fixtures.stores import free_ports

PIPE_ROOM = 4_096
REFUSING = 60  # stores that refuse: more lines than the pipe has room for
NAMES = 10  # of hosts that are looked up without an end
RELOAD_COUNT = 12
USER = 64_321  # a user that runs nothing else
FEW = 64  # descriptors of a relay that needs more
ROOMS = range(4, 40)  # of descriptors, of which the least do not do and the greatest do
MEMORY_ROOMS = (0, 1, 8, 24, 40, 52, 54, 56, 58, 64, 80, 116, 128)  # in MiB
NO_THREADS = Ran(3, b"", b"relayd: no threads\n")
NO_DESCRIPTORS = Ran(3, b"", b"relayd: no descriptors\n")
NO_MEMORY = Ran(4, b"", b"relayd: no memory\n")


def unread(pipe):
    """How many bytes wait in a pipe."""
    room = bytearray(4)
    fcntl.ioctl(pipe, termios.FIONREAD, room)
    return int.from_bytes(room, "little")


class Strained(Reloads):
    """A relay whose system may be slow or short."""

    def starved(self):
        """What a relay does before it begins, so that the system is slow or short while the case wants it."""
        library = compiled(os.fspath(self.folder), "starved")
        switches = {name: self.path(name) for name in ("SLOW_SYNCS", "NO_THREADS", "NO_ALARMS")}
        return lambda: os.environ.update(LD_PRELOAD=library, **switches)

    def switch(self, name):
        """From now on the system is so."""
        with open(self.path(name), "wb"):
            pass

    def goes_on(self, relay, store, lines, stream=None):
        """The relay sends these lines, which come over a connection of their own or this one, and answers."""
        before = len(store.lines())
        if stream:
            stream.sendall(text_of(lines))
        else:
            relay.lines(text_of(lines))
        self.wait_for(lambda: store.lines()[before:] == lines, "the lines have come")
        self.assertTrue(relay.report())


class Shortage(Strained):
    """What a reload does not wait for, and what does not end the relay."""

    def test_nobody_reads_the_log(self):
        """Standard error is a full pipe: neither reloads nor the end of the relay wait for its reader."""
        store, = self.stores(1)
        live = f"127.0.0.1:{store.port}"
        dests = [live, *(f"127.0.0.1:{port}" for port in free_ports(REFUSING))]
        reading, writing = os.pipe()
        self.addCleanup(os.close, reading)
        fcntl.fcntl(writing, fcntl.F_SETPIPE_SZ, PIPE_ROOM)
        with self.relay(dests, ALL.format(live), options=("--log",), stderr=writing) as relay:
            os.close(writing)
            relay.listening = (relay.line, relay.pickle, relay.udp)
            self.wait_for(lambda: unread(reading) > PIPE_ROOM - 200, "the pipe is full")
            time.sleep(1.2)
            for turn in range(3):
                self.reloads(relay, dests, ALL.format(live))
                self.goes_on(relay, store, numbered(100, b"turn%d" % turn))
            self.assertEqual(relay.command(b"stop"), b"stopping\n")
            self.assertEqual(relay.child.wait(LIMIT), 0)
            self.assertEqual(relay.child.stdout.read(), b"settled\n")

    def test_a_log_that_is_read_later(self):
        """Lines that waited come whole and in order, and those for which there was no room are counted."""
        store, = self.stores(1)
        live = f"127.0.0.1:{store.port}"
        dests = [live, *(f"127.0.0.1:{port}" for port in free_ports(REFUSING))]
        reading, writing = os.pipe()
        fcntl.fcntl(writing, fcntl.F_SETPIPE_SZ, PIPE_ROOM)
        with self.relay(dests, ALL.format(live), options=("--log",), stderr=writing) as relay, \
                open(reading, "rb") as log:
            os.close(writing)
            relay.listening = (relay.line, relay.pickle, relay.udp)
            self.wait_for(lambda: unread(reading) > PIPE_ROOM - 200, "the pipe is full")
            self.reloads(relay, dests, ALL.format(live))
            lines = [log.readline() for _ in range(REFUSING + 2)]
            refused = re.compile(rb"destination (\S+) cannot connect to \1: connection refused \(error 111\)\n")
            self.assertEqual(sum(refused.fullmatch(line) is not None for line in lines), REFUSING)
            self.assertIn(b"relay reloaded: same rules and rewriting\n", [*lines, log.readline()])
            relay.command(b"stop")
            self.assertEqual(relay.child.wait(LIMIT), 0)

    def test_the_file_of_a_gone_store_is_slow(self):
        """While it is written and synced the relay receives, sends and answers; the reload ends behind it."""
        there, = self.stores(1)
        live, away = f"127.0.0.1:{there.port}", f"127.0.0.1:{free_ports(1)[0]}"
        spool = self.path("spool")
        os.mkdir(spool)
        with self.running([live, away], options=("--spool", spool, "--drain", "1"), before=self.starved()) as relay:
            lines = numbered(50)
            self.goes_on(relay, there, lines)
            self.switch("SLOW_SYNCS")
            self.reloads(relay, [live])
            self.wait_for(lambda: away in os.listdir(spool), "the file is written")
            ended = []
            second = threading.Thread(target=lambda: ended.append(self.reload(relay)), daemon=True)
            second.start()
            time.sleep(0.3)
            self.goes_on(relay, there, numbered(50, b"b"))
            self.assertEqual(ended, [])
            os.remove(self.path("SLOW_SYNCS"))
            second.join(LIMIT)
            self.assertEqual(ended, [RELOADED])
            with open(os.path.join(spool, away), "rb") as file:
                self.assertEqual(file.read(), text_of(lines))
            self.stops(relay)

    def test_a_stop_behind_a_reload_that_waits(self):
        """It is obeyed once the next run has begun."""
        there, = self.stores(1)
        live, away = f"127.0.0.1:{there.port}", f"127.0.0.1:{free_ports(1)[0]}"
        spool = self.path("spool")
        os.mkdir(spool)
        with self.running([live, away], options=("--spool", spool, "--drain", "1"), before=self.starved()) as relay:
            self.goes_on(relay, there, numbered(50))
            self.switch("SLOW_SYNCS")
            self.reloads(relay, [live])
            self.wait_for(lambda: away in os.listdir(spool), "the file is written")
            second = threading.Thread(target=self.reload, args=(relay,), daemon=True)
            second.start()
            time.sleep(0.3)
            self.assertEqual(relay.command(b"stop"), b"stopping\n")
            os.remove(self.path("SLOW_SYNCS"))
            self.assertEqual(relay.child.wait(LIMIT), 0)
            self.assertRegex(relay.child.stdout.read(), rb"\Asettled\n\Z")
            relay.log.thread.join(LIMIT)
            self.assertIn(b"relay stopped, 0 datapoints not sent\n", relay.log.lines)
            second.join(LIMIT)
            self.assertEqual(sorted(os.listdir(spool)), [away, "~lock"])

    def test_hosts_that_are_looked_up_without_an_end(self):
        """A name has one look-up, however often the configuration is taken, and the admin port answers."""
        store, = self.stores(1)
        live = f"127.0.0.1:{store.port}"
        dests = [live, *(f"host{number}.hangs.invalid:2003" for number in range(NAMES))]
        with self.running(dests, ALL.format(live), before=self.starved()) as relay:
            self.goes_on(relay, store, numbered(20))
            self.reloads(relay, dests, ALL.format(live))
            time.sleep(0.5)
            threads, descriptors = len(relay.thread_names()), relay.descriptors()
            for turn in range(RELOAD_COUNT):
                self.reloads(relay, dests[turn % 3:], ALL.format(live if turn % 3 == 0 else dests[-1]))
            self.reloads(relay, dests, ALL.format(live))
            self.wait_for(lambda: relay.descriptors() <= descriptors + 2, "no look-up has begun beside another")
            self.assertLessEqual(len(relay.thread_names()), threads)
            self.goes_on(relay, store, numbered(20, b"b"))
            self.stops(relay)


class Short(Strained):
    """The system has too little for a reload: its answer names that, and the run goes on as it was."""

    @contextlib.contextmanager
    def one(self, **how):
        """A relay with one store, and that store, which has some lines."""
        store, = self.stores(1)
        with self.running([f"127.0.0.1:{store.port}"], **how) as relay:
            self.goes_on(relay, store, numbered(100))
            yield relay, store
            self.stops(relay)

    def stays(self, relay, store, refusal, stream=None):
        """A reload is refused so, and changes nothing."""
        before, connections = relay.totals(), store.connections()
        self.assertEqual(self.reload(relay), refusal)
        self.assertEqual((relay.totals(), store.connections()), (before, connections))
        self.goes_on(relay, store, numbered(20, b"stays"), stream)

    def is_done(self, relay, store, stream=None):
        """A reload is done, and no connection is lost."""
        connections = store.connections()
        self.assertEqual(self.reload(relay), RELOADED)
        self.goes_on(relay, store, numbered(20, b"done"), stream)
        self.assertEqual(store.connections(), connections)

    def crowd(self, relay, count, stack):
        """This many connections of producers."""
        return [stack.enter_context(socket.create_connection(("127.0.0.1", relay.line), LIMIT)) for _ in range(count)]

    @contextlib.contextmanager
    def limited(self, relay, what, limit):
        """The process of a relay has another limit of this kind."""
        usual = resource.prlimit(relay.child.pid, what)
        resource.prlimit(relay.child.pid, what, (limit, usual[1]))
        try:
            yield
        finally:
            resource.prlimit(relay.child.pid, what, usual)

    def test_no_thread_begins(self):
        with self.one(before=self.starved()) as (relay, store):
            self.switch("NO_THREADS")
            for _ in range(3):
                self.stays(relay, store, NO_THREADS)
            os.remove(self.path("NO_THREADS"))
            self.is_done(relay, store)

    def test_no_descriptor_for_what_wakes_a_sender(self):
        """It is not among those that are tried, but made while the run goes on."""
        with self.one(before=self.starved()) as (relay, store):
            self.switch("NO_ALARMS")
            for _ in range(3):
                self.stays(relay, store, NO_DESCRIPTORS)
            os.remove(self.path("NO_ALARMS"))
            self.is_done(relay, store)

    def test_what_was_put_aside_before_a_shortage(self):
        """The log says so."""
        spool, new = self.path("spool"), f"127.0.0.1:{free_ports(1)[0]}"
        os.mkdir(spool)
        path = os.path.join(spool, new)
        with self.one(before=self.starved(), options=("--spool", spool)) as (relay, store):
            with open(path, "wb") as file:
                file.write(b"no end")
            self.files(relay, [f"127.0.0.1:{store.port}", new])
            self.switch("NO_ALARMS")
            self.stays(relay, store, NO_DESCRIPTORS)
            said = f"spool: {path}: no lines; it is {path}~aside now\n".encode()
            self.wait_for(lambda: said in relay.log.lines, "the log says so")
            self.assertNotIn(path, [os.readlink(it.path) for it in os.scandir(f"/proc/{relay.child.pid}/fd")])
            os.remove(self.path("NO_ALARMS"))
            self.is_done(relay, store)

    @unittest.skipIf(os.geteuid(), "only root can be another user")
    def test_a_limit_of_threads(self):
        """One thread more does for a reload, and another for each new name that is looked up."""
        program = self.path("relayd")
        shutil.copy(Settings.relayd, program)
        os.chmod(self.folder, 0o755)

        def become():
            os.setgroups([])
            os.setgid(USER)
            os.setuid(USER)

        with mock.patch.object(Settings, "relayd", program), self.one(before=become) as (relay, store):
            dests = [f"127.0.0.1:{store.port}"]
            names = [*dests, "a.invalid:2003", "b.invalid:2003"]
            threads = len(relay.thread_names())

            def limit(most):
                """Its user may have this many threads. Without a right that a container lacks, only that user can say so."""
                subprocess.run(("prlimit", f"--nproc={most}:", "--pid", str(relay.child.pid)), check=True,
                               user=USER, group=USER, extra_groups=[])

            for most in (threads - 1, threads):
                limit(most)
                self.stays(relay, store, NO_THREADS)
            limit(threads + 1)
            self.is_done(relay, store)
            self.files(relay, names, ALL.format(dests[0]))
            self.stays(relay, store, NO_THREADS)
            limit(threads + 2)
            self.stays(relay, store, NO_THREADS)
            limit(threads + 3)
            self.assertEqual(self.reload(relay), RELOADED)
            self.goes_on(relay, store, numbered(20, b"names"))
            self.assertEqual(len(relay.thread_names()), threads + 2)

    def test_producers_hold_all_descriptors(self):
        """While they do so a reload is refused, and their connections go on; once some have gone it is done."""
        def few():
            resource.setrlimit(resource.RLIMIT_NOFILE, (FEW, FEW))

        with self.one(before=few) as (relay, store), contextlib.ExitStack() as others:
            stream, = self.crowd(relay, 1, others)
            self.goes_on(relay, store, numbered(20, b"first"), stream)
            with contextlib.ExitStack() as producers:
                self.crowd(relay, FEW, producers)
                self.wait_for(lambda: relay.descriptors() >= FEW - 4, "producers have all that they get")
                for _ in range(3):
                    self.stays(relay, store, NO_DESCRIPTORS, stream)
            self.wait_for(lambda: relay.descriptors() < FEW / 2 + 4, "they have gone")
            self.is_done(relay, store, stream)

    def test_a_limit_of_descriptors_that_is_lowered(self):
        """With each limit a reload is refused or done, and the connections of producers go on."""
        with self.one() as (relay, store), contextlib.ExitStack() as producers:
            for stream in self.crowd(relay, 30, producers):
                self.goes_on(relay, store, numbered(1), stream)
            ends = []
            for room in ROOMS:
                taken = max(map(int, os.listdir(f"/proc/{relay.child.pid}/fd"))) + 1
                with self.subTest(room=room), self.limited(relay, resource.RLIMIT_NOFILE, taken + room):
                    if self.reload(relay) != RELOADED:
                        self.stays(relay, store, NO_DESCRIPTORS, stream)
                        ends.append(False)
                    else:
                        self.goes_on(relay, store, numbered(1), stream)
                        ends.append(True)
            self.assertEqual((ends[0], ends[-1]), (False, True))
            self.is_done(relay, store, stream)

    def test_files_of_new_stores_and_a_store_that_is_gone(self):
        """Their descriptors are tried too: however many are free, the relay goes on and loses nothing."""
        ends = []
        for free in ROOMS[::4]:
            with self.subTest(free=free), contextlib.ExitStack() as at_end:
                ends.append(self.changes(free, at_end))
        self.assertEqual((ends[0], ends[-1]), (NO_DESCRIPTORS, RELOADED))

    def changes(self, free, at_end):
        """What becomes of a reload, while about so many descriptors are free, that takes out a store for which something is
        queued, and adds some with files."""
        def few():
            resource.setrlimit(resource.RLIMIT_NOFILE, (2 * FEW, 2 * FEW))

        kept, *added = self.stores(4)
        live, gone = f"127.0.0.1:{kept.port}", f"127.0.0.1:{free_ports(1)[0]}"
        new = [f"127.0.0.1:{store.port}" for store in added]
        spool = self.path(f"spool{free}")
        os.mkdir(spool)
        for name in new:
            with open(os.path.join(spool, name), "wb") as file:
                file.write(text_of(numbered(10)))
        options = ("--spool", spool, "--drain", "1")
        with self.running([live, gone], options=options, before=few) as relay:
            stream, = self.crowd(relay, 1, at_end)
            self.goes_on(relay, kept, numbered(50), stream)
            taken = 2 * FEW - free
            self.crowd(relay, taken - relay.descriptors(), at_end)
            self.wait_for(lambda: relay.descriptors() >= taken - 2, "the others are taken")
            self.files(relay, [live, *new])
            ran = self.reload(relay)
            self.assertIn(ran, (RELOADED, NO_DESCRIPTORS))
            self.goes_on(relay, kept, numbered(50, b"b"), stream)
            at_end.close()
            self.reloads(relay, [live, *new])
            for store in added:
                self.wait_for(lambda it=store: it.lines()[:10] == numbered(10), "the file is sent")
            self.stops(relay)
        with open(os.path.join(spool, gone), "rb") as file:
            lines = file.read().splitlines()
        self.assertEqual(lines, (numbered(50) + numbered(50, b"b"))[:len(lines)])
        self.assertGreaterEqual(len(lines), 50)
        return ran

    def test_a_limit_of_memory_that_is_lowered(self):
        """With each limit a reload is refused or done, and the relay goes on."""
        ends = collections.Counter()
        for room in MEMORY_ROOMS:
            with self.subTest(room=room), self.one() as (relay, store):
                with open(f"/proc/{relay.child.pid}/statm", encoding="ascii") as file:
                    taken = int(file.read().split()[0]) * resource.getpagesize()
                with self.limited(relay, resource.RLIMIT_AS, taken + (room << 20)):
                    for turn in range(5):
                        ran = self.reload(relay)
                        self.assertIn(ran, (RELOADED, NO_MEMORY), turn)
                        ends[ran.status] += 1
                        self.assertTrue(relay.report())
                self.goes_on(relay, store, numbered(20, b"stays"))
                self.is_done(relay, store)
        print(f"\nreloads with little memory: {dict(ends)}", flush=True)

    def test_look_ups_leave_descriptors(self):
        """Where producers and look-ups that hang take all that they get, the relay goes on, answers, and is stopped."""
        starved = self.starved()

        def few():
            starved()
            resource.setrlimit(resource.RLIMIT_NOFILE, (FEW, FEW))

        store, = self.stores(1)
        live = f"127.0.0.1:{store.port}"
        dests = [live, *(f"host{number}.hangs.invalid:2003" for number in range(NAMES))]
        with self.running(dests, ALL.format(live), before=few) as relay, contextlib.ExitStack() as producers:
            stream, *_ = self.crowd(relay, FEW, producers)
            self.wait_for(lambda: relay.descriptors() >= FEW - 4, "all descriptors are taken")
            for turn in range(RELOAD_COUNT):
                self.assertEqual(self.reload(relay), NO_DESCRIPTORS)
                self.goes_on(relay, store, numbered(20, b"turn%d" % turn), stream)
            self.stops(relay)


class FullOutput(Reloads):
    """Standard output is a file that may not grow."""

    def test_the_closing_line_has_no_room(self):
        """It is an output fault, and no signal ends the relay."""
        store, = self.stores(1)
        dests = [f"127.0.0.1:{store.port}"]
        for room in (0, 3):
            with self.subTest(room=room):
                self.assertEqual(self.ended(dests, room), (3, b"ready\nsettled\n"[:6 + room], b"relayd: output\n"))

    def ended(self, dests, room):
        """How a relay ends whose closing line has this many bytes of room: its status, its output and its errors."""
        path, size = self.path("output"), 6 + room
        *listening, admin = free_ports(4)
        config = self.write("a.conf", self.configuration(dests, listening))
        words = ("run", "--config", config, "--rules", self.write("a.rules", ALL.format(dests[0])), "--admin", str(admin))
        with open(path, "wb") as output, held(words, stdout=output, preexec_fn=lambda: self.limit_files(size)) as child:
            self.wait_for(lambda: os.path.getsize(path) == 6, "it is ready")
            relay = Relay(child, *listening, admin)
            self.assertEqual(relay.command(b"stop"), b"stopping\n")
            _, errors = child.communicate(timeout=LIMIT)
            with open(path, "rb") as written:
                return child.returncode, written.read(), errors

    def limit_files(self, size):
        """From now on no file of this process grows beyond this many bytes."""
        resource.setrlimit(resource.RLIMIT_FSIZE, (size, size))
