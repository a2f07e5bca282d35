"""Out of memory: status 4, `relayd: no memory` alone, and what was written are the first lines; and how much a relay takes.

The room of the program's addresses is limited from outside. Below some limit
the system cannot even start it (status 127 of the loader, or a signal before
the first instruction); above another it has all that it needs. What lies
between must be reported as out of memory, wherever it happens.
"""

import contextlib
import os
import pickle
import re
import resource
import struct
import tempfile
import unittest

from fixtures.configured import WithFiles, ring
from fixtures.harness import LIMIT, LONGEST_LINE, Ran, Settings, Suite, run, short
from fixtures.program import TOP
from fixtures.running import WithRelays
from fixtures.stores import Store, free_ports, until

STEP = 32 * 1024
MARGIN = 512 * 1024
GREATEST = 256 * 1024 * 1024
NO_MEMORY = Ran(4, b"", b"relayd: no memory\n")
LINES = b"".join(b"host%d.load %d 1700000000\n" % (n, n) for n in range(2000))
LONG = b"".join(b"y" * (LONGEST_LINE - 4 - n) + b" 1 2\n" for n in range(20))
GIVEN = LINES + LONG + LINES
WANTED = Ran(0, GIVEN, b"")


def within(room, words=("pass",), given=GIVEN):
    """A run of the program in a room of this many bytes.

    The input is a file, so that each read gives as much as it asked for.
    """
    def limit():
        resource.setrlimit(resource.RLIMIT_AS, (room, room))

    with tempfile.TemporaryFile() as file:
        file.write(given)
        file.seek(0)
        return run(words, stdin=file, preexec_fn=limit)


def started(ran):
    """Whether the program itself came to run."""
    return ran.status != 127 and ran.status not in (-9, -11)


def runs_in_small_rooms(expected, words=("pass",), given=GIVEN):
    """The least room found to be enough, and the runs below it, down to where nothing starts.

    Fails where the answer is wrong with ample room.
    """
    ample = within(GREATEST, words, given)
    if not started(ample):
        raise unittest.SkipTest("a room of 256 MB is too small here for any run")
    if ample != expected:
        raise AssertionError(f"{words[0]} in a room of {GREATEST} bytes: status {ample.status}, "
                             f"out {short(ample.out)}, err {short(ample.err)}, expected {short(expected.out)}")
    low, high = 0, GREATEST // STEP
    while high - low > 1:
        middle = (low + high) // 2
        if within(middle * STEP, words, given) == expected:
            high = middle
        else:
            low = middle
    runs = []
    for room in range(low * STEP, 0, -STEP):
        ran = within(room, words, given)
        if not started(ran):
            break
        runs.append((room, ran))
    return high * STEP, runs


class NoMemory(Suite):
    """Rooms below the least that is enough for `pass`, in steps down to where nothing starts."""

    @classmethod
    def setUpClass(cls):
        cls.enough, cls.small = runs_in_small_rooms(WANTED)

    def test_no_memory(self):
        """Every run that began to work and had too little memory says so."""
        worked = [each for each in self.small if each[1].status != 2]
        if not worked:
            self.skipTest("no room was found in which the program starts and runs out of memory")
        for room, ran in worked:
            with self.subTest():
                if ran == WANTED:
                    continue
                if (ran.status, ran.err) != (4, b"relayd: no memory\n"):
                    self.fail(f"in a room of {room} bytes on {short(GIVEN)}: status {ran.status}, "
                              f"standard error {short(ran.err)}")
                if not GIVEN.startswith(ran.out) or ran.out[-1:] not in (b"", b"\n"):
                    self.fail(f"in a room of {room} bytes: {short(ran.out)} is not the first lines")

    def test_no_memory_for_the_words_of_the_command_line(self):
        """Words that are right are never reported as wrong."""
        for room, ran in self.small:
            if ran.status == 2:
                self.fail(f"`pass` in a room of {room} bytes: status 2, "
                          f"standard error {short(ran.err)}")

    def test_the_room_does_not_grow_with_the_input(self):
        """What is enough for some lines is enough for many."""
        given = GIVEN * 20
        ran = within(self.enough + MARGIN, given=given)
        self.same(given, ran, Ran(0, given, b""))


class NoMemoryForPickles(Suite):
    """The same rooms for `pass --pickle`."""

    def test_no_memory(self):
        rows = [(f"host{n}.load", (1700000000, n)) for n in range(2000)]
        texts = [pickle.dumps(rows[place:place + 100], 2) for place in range(0, len(rows), 100)]
        frames = b"".join(struct.pack(">I", len(text)) + text for text in texts)
        expected = Ran(0, LINES, b"")
        for words in (("pass", "--pickle"), ("pass", "--pickle", "--explain")):
            for room, ran in runs_in_small_rooms(expected, words, frames)[1]:
                if ran != expected:
                    with self.subTest():
                        self.assertEqual((ran.status, ran.err), (4, b"relayd: no memory\n"), room)
                        self.assertTrue(LINES.startswith(ran.out), room)


class NoMemoryForFiles(WithFiles):
    """The same rooms for `check` and `route`: no file and no pattern is reported as bad when out of memory."""

    def answers_or_runs_out(self, answer, *words):
        """Cases: the command answers so, or reports that it is out of memory."""
        expected = Ran(0, answer, b"")
        _, runs = runs_in_small_rooms(expected, words, b"")
        if not runs:
            self.skipTest("no room was found in which the program starts and runs out of memory")
        for room, ran in runs:
            if ran != expected:
                with self.subTest():
                    self.same(f"a room of {room} bytes", ran, NO_MEMORY, words[:2])

    def files(self, **more):
        """The words of files with patterns, comments and many destinations."""
        patterns = "".join(f"[{n}]\npattern = ^a{n}\\.[a-z]+\\.(cpu|mem)\ndestinations = h:1\n" for n in range(20))
        files = {"rules": patterns + "[rest]\ndefault = yes\ndestinations = 127.0.0.1:3002\n" + "# note\n" * 20000,
                 "rewrite": "[pre]\n" + r"^collectd\.([a-z0-9]+)\. = \1.system." + "\n" + r"(\w+)_sum$ = \1"}
        return self.given(files | more)

    def test_check(self):
        self.answers_or_runs_out(b"ok 2 destinations\n", "check", *self.files())

    def test_check_of_a_ring(self):
        stores = ", ".join(f"store{n}:2003" for n in range(64))
        self.answers_or_runs_out(b"ok 64 destinations\n", "check", *self.files(config=ring(stores, 64)))

    def test_route(self):
        name = "collectd.web1." + "x" * 10000
        line = f"web1.system.{name[14:]} 127.0.0.1:3002\n"
        self.answers_or_runs_out(line.encode(), "route", name + "_sum", *self.files())

    def test_route_by_a_ring(self):
        files = self.files(config=ring("h:1", 2))
        self.answers_or_runs_out(b"web1.system.x h:1\n", "route", "collectd.web1.x", *files)

    def test_strict_and_json(self):
        for option, answer in (("--strict", b"web1.system.x 127.0.0.1:3002\n"),
                               ("--json", b'{"name":"collectd.web1.x","rewritten":"web1.system.x",'
                                          b'"destinations":["127.0.0.1:3002"],"dropped":false}\n')):
            self.answers_or_runs_out(answer, "route", "collectd.web1.x", option, *self.files())
        words = ("check", "--explain", "--json", *self.files(config=ring("h:2004")))
        self.answers_or_runs_out(within(GREATEST, words, b"").out, *words)

    def test_a_text_that_grows_with_every_rule(self):
        """A name may become longer than any memory before the last rule has been applied."""
        words = ("route", "x" * LONGEST_LINE, *self.given({"rewrite": "[pre]\n" + ("(.+) = " + r"\1" * 8 + "\n") * 9}))
        self.same(f"a room of {GREATEST} bytes", within(GREATEST, words, b""), NO_MEMORY, words[:1])


QUEUE = 1_000
HISTORY = 65_536      # steps
LENGTH = 300          # bytes of a name
PAGE = os.path.join(TOP, "docs", "OPERATING.md")


def most_memory(**parts):
    """What the formula of docs/OPERATING.md gives, with D, Q, R and L."""
    with open(PAGE, encoding="utf-8") as file:
        formula = re.search(r"(?m)^    (20 MB \+ .*)$", file.read())[1]
    return eval(formula.replace(" MB", " * 1_000_000").replace(" bytes", "").replace(",", "_"), parts)  # pylint: disable=eval-used


@contextlib.contextmanager
def memory_group(limit):
    """A cgroup with this limit of memory in bytes, that has whoever writes its number into the file that this gives."""
    for folder, file in (("/sys/fs/cgroup/memory", "memory.limit_in_bytes"), ("/sys/fs/cgroup", "memory.max")):
        group = os.path.join(folder, f"relayd-test-{os.getpid()}")
        try:
            os.mkdir(group)
        except OSError:
            continue
        try:
            with open(os.path.join(group, file), "w", encoding="ascii") as out:
                out.write(str(limit))
            yield os.path.join(group, "cgroup.procs")
            return
        except FileNotFoundError:
            continue
        finally:
            until(lambda: is_removed(group))
    raise unittest.SkipTest("this process cannot make a memory cgroup")


def is_removed(group):
    """Whether a cgroup is gone: it is busy for a moment after its last process has ended."""
    try:
        os.rmdir(group)
    except OSError:
        return False
    return True


class OfTheService(WithRelays):
    """A relay with the packaged files and the limits of the service."""

    def unit(self, key):
        """What the unit says."""
        with open(os.path.join(TOP, "packaging", "relayd.service"), encoding="utf-8") as file:
            return re.search(rf"(?m)^ExecStart=.* {key} (\S+)|^{key}=(\S+)$", file.read())

    def packaged(self, name, ports):
        """An example, with other ports of its stores."""
        with open(os.path.join(TOP, "examples", name), encoding="utf-8") as file:
            text = file.read()
        for place, port in zip("abc", ports):
            text = re.sub(rf"127\.0\.0\.1:\d+:{place}\b", f"127.0.0.1:{port}:{place}", text)
        return text

    def test_long_names(self):
        """New names of any length, to all stores, by two receivers: it stays below the sum of the page, and lives."""
        limit = int(self.unit("MemoryMax")[2].replace("G", "")) << 30
        longest = self.unit("--longest-name")[1]
        most = most_memory(D=3, Q=10_000, R=2, L=4 * int(longest)) + 2 * 67_000_000
        self.assertLess(most, limit)
        ports = free_ports(3)
        stores = [Store(port).start() for port in ports]
        for store in stores:
            self.addCleanup(store.stop)
        rules = self.packaged("relay-rules.conf", ports)
        dests = [f"127.0.0.1:{port}:{place}" for place, port in zip("abc", ports)]
        count = 60_000 if Settings.longer else 6_000
        with memory_group(limit) as group:
            def enter():
                with open(group, "w", encoding="ascii") as file:
                    file.write(str(os.getpid()))
            with self.relay(dests, rules, self.packaged("rewrite-rules.conf", ports), before=enter,
                            options=("--longest-name", longest)) as relay:
                characters = int(longest) - 40
                for name in (b"x" * 16_000, "\U0001f4c8".encode() * characters, b"y" * characters):
                    for start in (b"servers.web1.load.%d.", b"stats.timers.%d.", b"other.%d."):
                        relay.lines(b"".join(start % number + name + b" 1 1\n" for number in range(count)))
                # The first of each three names goes to two stores; the longest ones go to none.
                self.wait_for(lambda: relay.totals()["offered"] == 8 * count, "all are offered", 2 * LIMIT)
                self.assertLess(relay.resident(), most)
                answer, ran = relay.stop()
                self.assertEqual((answer, ran.status), (b"stopping\n", 0))


class OfARelay(WithRelays):
    """The memory of a relay whose queues and histories are full."""

    def test_the_formula(self):
        """It takes no more than the page says, and more than the names alone."""
        dests = [f"127.0.0.1:{port}" for port in free_ports(2)]
        rules = "".join(f"[{kind}]\npattern = ^{kind}\\.\ndestinations = {dest}\n" for kind, dest in zip("ab", dests))
        with self.relay(dests, rules + f"[rest]\ndefault = true\ndestinations = {dests[0]}\n", MAX_QUEUE_SIZE=QUEUE) as relay:
            wanted = 2 * HISTORY
            for kind in (b"a", b"b"):
                relay.lines(b"".join((b"%s.%d." % (kind, number)).ljust(LENGTH, b"x") + b" 1 1\n" for number in range(wanted)))
            self.wait_for(lambda: relay.totals()["offered"] == 2 * wanted, "all are offered")
            datapoints = 2 * (QUEUE + HISTORY) + HISTORY
            self.assertEqual(relay.totals()["queued"], 2 * QUEUE)
            self.assertLess(relay.resident(), most_memory(D=2, Q=QUEUE, R=3, L=LENGTH))
            self.assertGreater(relay.resident(), datapoints * LENGTH)
            self.settles(relay, b"sealed 0\n")

    def test_what_is_reserved_is_touched_only_when_used(self):
        """Where little is queued at a time, the room of a long queue costs no memory, however much goes through it."""
        taken = 40 * 10_000
        piece = b"".join(b"host%d.load 1 1700000000\n" % (number % 100) for number in range(10_000))
        found = []
        for size in (20_000, 1_000_000):
            store, = self.stores(1)
            dest = f"127.0.0.1:{store.port}"
            with self.relay([dest], f"[all]\ndefault = true\ndestinations = {dest}\n", MAX_QUEUE_SIZE=size) as relay:
                for sent in range(10_000, taken + 1, 10_000):
                    relay.lines(piece)
                    self.wait_for(lambda sent=sent: relay.totals()["taken"] == sent, "all are taken")
                found.append(relay.resident())
                self.settles(relay, b"sealed 0\n")
        self.assertLess(found[1], 1.2 * found[0])
