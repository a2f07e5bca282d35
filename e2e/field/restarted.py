"""Restarts under load: what producers lose, for how long the port is refused, and how long a stop takes.

Beside relayd, carbon-c-relay and carbon-relay are restarted in the same way, where they are installed, and what they lose is
printed.

Some bars here are times, and how many datagrams or writes of a blind producer are lost is one too, since they come at
intervals. A machine that gives the processor to others is no fault of the relay: relay and producers run at the highest
priority, where that is allowed, and of three restarts in a row, and of some tries, the best counts. The longer form is for a
machine with nothing else to do: each restart that the machine did not hold up must hold each bar.

What else is lost counts each time, but where the machine held up relay, producers or stores in that restart (`Trial.held_up`):
then it is tried again.

What the system drops of datagrams, since the socket's buffer is full, is read from its table. Where it lets a relay have a
buffer for a second of them, it may drop none. Elsewhere that does not count.
"""

import bisect
import collections
import contextlib
import os
import shutil
import signal
import socket
import statistics
import tempfile
import threading
import time

from cases import Field
from fixtures.harness import Settings
from fixtures.restarting import BLIND, PRODUCERS, TICK, WATCHING, Came, Load, ended, longest_refused
from fixtures.stores import Store, free_ports
from programs import HOST, LIMIT, CarbonRelay, Missing, Program, Relayd, listens, wait_until

TRIES = 7
RESTARTS, LONGER = 3, 30
ATTEMPTS = 20          # to stop a relay in time
BETWEEN = 1.0          # seconds from one restart to the next
FROZEN = 1.0           # seconds without a processor
HIGHER = -20           # the priority of relay and producers
QUEUE = 200_000
LOOKS = 0.005          # seconds between two looks at what the system does
KEPT = 0.01            # seconds without a processor that hold up a thread
MOST_SHUT = 0.4        # seconds for which the port is refused, besides what the next relay takes to begin
MOST_REFUSED = 0.1     # seconds for which it is refused in all, in the longer form
MOST_DATAGRAMS = 30    # lost in a restart; in the short form, besides those that were sent while the port was refused
MOST_WRITES = 1        # of a blind producer that are lost in a restart
MOST_HELD_UP = 3.0     # seconds that a stop takes where a store reads nothing
MOST_SILENT = 0.2      # seconds that it takes where nobody sends and the stores are well
MOST_SILENT_LONGER = 0.05
SPOOLED = 50_000       # datapoints for a store that is away
WAITING = 60_000       # datapoints, half of them for a store that reads nothing
LONG = b"n" * 220      # they do not fit the room that the system has for a connection
LEAST_ROOM = 1_000_000  # of `net.core.rmem_max`, which lets a relay have a buffer for a second of datagrams
SCHEDSTAT = "/proc/{}/task/{}/schedstat"


def stolen():
    """For how many seconds others on the same hardware have had this machine's processors."""
    with open("/proc/stat", encoding="ascii") as file:
        return int(file.readline().split()[8]) / os.sysconf("SC_CLK_TCK")


def has_room():
    """Whether the system lets a relay have a buffer for a second of datagrams."""
    with contextlib.suppress(OSError, ValueError):
        with open("/proc/sys/net/core/rmem_max", encoding="ascii") as file:
            return int(file.read()) >= LEAST_ROOM
    return False


class Seen:
    """What the system does to a relay meanwhile, for a `with`: each with its moment, the datagrams that it drops since there is
    no room, and the seconds for which it keeps threads from a processor, or itself has none."""

    def __init__(self, relay):
        self.relay = relay
        self.dropped, self.waited = [], []
        self.last = {"stolen": stolen()}  # what each socket and thread had last
        self.is_over = threading.Event()
        self.thread = threading.Thread(target=self.look_on, daemon=True)

    def __enter__(self):
        self.thread.start()
        return self

    def __exit__(self, *_):
        self.is_over.set()
        self.thread.join(LIMIT)

    def look_on(self):
        """Looks until it is over."""
        while not self.is_over.wait(LOOKS):
            self.look_at_datagrams()
            self.look_at_threads(self.relay.process.pid)
            self.note(self.waited, "stolen", stolen())

    def note(self, events, key, now):
        """Notes by how much a count has grown."""
        if now > self.last.get(key, 0):
            events.append((time.monotonic(), now - self.last.get(key, 0)))
            self.last[key] = now

    def look_at_datagrams(self):
        """Reads the system's table of sockets."""
        with open("/proc/net/udp", encoding="ascii") as table:
            for line in table:
                fields = line.split()
                if fields[1].endswith(f":{self.relay.udp_port:04X}"):
                    self.note(self.dropped, ("socket", fields[9]), int(fields[-1]))

    def look_at_threads(self, process):
        """Reads what the system says of each thread."""
        with contextlib.suppress(OSError):  # one that has ended
            for thread in os.listdir(f"/proc/{process}/task"):
                with open(SCHEDSTAT.format(process, thread), encoding="ascii") as file:
                    self.note(self.waited, (process, thread), int(file.read().split()[1]) / 1e9)


class Restart:
    """A restart: when the stop was sent, how long it took, how long the next relay took to begin, and what this one wrote."""

    def __init__(self, began, took, begins=0.0, said=""):
        self.began, self.took, self.begins, self.said = began, took, begins, said

    def over(self):
        """A moment between it and the next one."""
        return self.began + self.took + BETWEEN / 2


class Trial:
    """Restarts under load: what each of them lost, and what the system did meanwhile."""

    def __init__(self, restarts, found, came, seen):
        self.restarts, self.found, self.came, self.seen = restarts, found, came, seen
        self.lost = came.lost(found)
        self.dropped = self.sums(seen.dropped)
        sent_and_lost = self.sums((moment, 1) for moment in came.lost_datagrams(found))
        self.datagrams = [lost - dropped for lost, dropped in zip(sent_and_lost, self.dropped)]
        self.refused = [longest_refused(found, it.began, it.over()) for it in restarts]

    def place(self, moment):
        """The number of the restart to which a moment belongs."""
        return min(bisect.bisect_left([it.over() for it in self.restarts], moment), len(self.restarts) - 1)

    def sums(self, events):
        """The sums of what happened, for each restart."""
        sums = [0] * len(self.restarts)
        for moment, count in events:
            sums[self.place(moment)] += count
        return sums

    def writes(self):
        """How many writes the blind producer lost that lost most, for each restart."""
        each = collections.Counter((self.place(moment), number) for number, moment in self.lost[BLIND])
        return [max((count for (at, _), count in each.items() if at == place), default=0)
                for place in range(len(self.restarts))]

    def beyond(self):
        """How many more datagrams were lost than came while the port was refused, for each restart."""
        return [lost - seconds / TICK for lost, seconds in zip(self.datagrams, self.refused)]

    def shut(self):
        """For how long the port was refused, besides what the next relay took to begin, for each restart."""
        return [seconds - it.begins for seconds, it in zip(self.refused, self.restarts)]

    def losing(self):
        """The restarts in which something of who watches was lost."""
        return {self.place(moment) for _, moment in self.lost[WATCHING]}

    def held_up(self, until_next=False):
        """The restarts in which relay, producers or stores had no processor for long during the stop, or until the next relay had
        begun, or that is not known."""
        is_known = os.path.exists(SCHEDSTAT.format("self", os.getpid()))
        spans = [(moment - seconds, moment) for moment, seconds in self.seen.waited if seconds >= KEPT]
        spans += self.found["held_up"]
        return {place for place, it in enumerate(self.restarts) if not is_known or "not waited for" in it.said
                or any(first <= it.began + it.took + until_next * it.begins and it.began <= last for first, last in spans)}

    def missing(self):
        """The restarts that miss a bar of the longer form."""
        each = zip(self.refused, self.datagrams, self.writes())
        return {place for place, (refused, datagrams, writes) in enumerate(each)
                if refused > MOST_REFUSED or datagrams > MOST_DATAGRAMS or writes > MOST_WRITES}

    def show(self, name):
        """Prints what the restarts took and lost."""
        sent, due = sum(map(len, self.found["sent"])), self.found["due"]
        print(f"  {name}, {len(self.restarts)} restarts: lost {len(self.lost[WATCHING])} writes of who watches, "
              f"{len(self.lost[BLIND])} of {PRODUCERS // 2} blind ones (at most {max(self.writes())} of one), "
              f"{min(self.datagrams)} to {max(self.datagrams)} datagrams each, and the system dropped {sum(self.dropped)}; "
              f"stopped in {statistics.median(it.took for it in self.restarts):.3f} s, refused for {min(self.refused):.3f} to "
              f"{max(self.refused):.3f} s; {due - sent} of {due} writes not taken; held up in {len(self.held_up())} restarts",
              flush=True)


class Restarting(Relayd):
    """A relay that is restarted."""

    begun = 0

    def begin(self):
        self.begun += 1
        super().begin()

    def serves(self):
        return self.process.poll() is not None or self.output().count("ready\n") >= self.begun

    def restart(self, frozen=0.0):
        """Restarts it, after it was frozen for so many seconds."""
        written = len(self.output())
        if frozen:
            self.process.send_signal(signal.SIGSTOP)
            time.sleep(frozen)
        began, answer = time.monotonic(), b""
        with socket.create_connection((HOST, self.admin_port), LIMIT) as admin, contextlib.suppress(ConnectionError):
            admin.sendall(b"stop\n")
            self.process.send_signal(signal.SIGCONT)
            answer = admin.recv(100)
        if not answer:  # it did not wait for the command
            self.process.send_signal(signal.SIGCONT)
            self.ask(b"stop")
        ended(self.process)
        ends = time.monotonic()
        self.begin()
        return Restart(began, ends - began, time.monotonic() - ends, self.output()[written:])


class OtherRelay:
    """What a restart of another relay is."""

    def restart(self):
        """Restarts it by the signal that ends it."""
        began = time.monotonic()
        self.process.terminate()
        ended(self.process)
        restart = Restart(began, time.monotonic() - began)
        self.begin()
        return restart


class CarbonRelayRestarting(OtherRelay, CarbonRelay):
    """carbon-relay, which sends lines to one store."""

    def __init__(self, folder, port):
        super().__init__(folder, port, "line")
        self.line_port, self.udp_port = self.port, 0


class CRelay(OtherRelay, Program):
    """carbon-c-relay, which sends lines to one store. It takes datagrams at the port of lines."""

    def __init__(self, folder, port):
        super().__init__(folder)
        self.line_port, = free_ports(1)
        self.udp_port = self.line_port
        self.config = self.write("relay.conf", f"cluster all\n  forward\n    {HOST}:{port}\n  ;\nmatch *\n  send to all\n  ;\n")

    def words(self):
        return ["carbon-c-relay", "-f", self.config, "-p", str(self.line_port), "-q", str(QUEUE), "-w", "2"]

    def serves(self):
        return self.process.poll() is not None or listens(self.line_port)


@contextlib.contextmanager
def higher():
    """A higher priority of this process, and of those that it starts, if that is allowed."""
    before = os.nice(0)
    with contextlib.suppress(OSError):
        os.nice(HIGHER)
    try:
        yield
    finally:
        with contextlib.suppress(OSError):
            os.setpriority(os.PRIO_PROCESS, 0, before)


def best(found):
    """The best of three restarts in a row: of the first three, or the next, whichever is worst."""
    return max(min(found[place:place + RESTARTS]) for place in range(0, len(found), RESTARTS))


class Restarted(Field):
    """A relay that is restarted under load."""

    def setUp(self):
        super().setUp()
        self.enterContext(higher())

    def stores(self, count, **how):
        """Stores that listen."""
        stores = [Store(port, **how).start() for port in free_ports(count)]
        for store in stores:
            self.addCleanup(store.stop)
        return stores

    def relay(self, stores, *options):
        """A relay before stores on a ring, as the service runs it."""
        dests = [f"{HOST}:{store.port}:{place}" for place, store in enumerate(stores)]
        options = ("--drain", "20", "--log", *options)
        return self.begin(Restarting(tempfile.mkdtemp(dir=self.folder), dests, queue=QUEUE, options=options))

    def trial(self, relay, stores, count, **how):
        """Restarts a relay under load."""
        restarts = []
        with Seen(relay) as seen, Load(relay.line_port, relay.udp_port) as load:
            time.sleep(BETWEEN)
            for _ in range(count):
                restarts.append(relay.restart(**how))
                time.sleep(BETWEEN)
            found = load.end()
        relay.end()
        for store in stores:
            store.finish()
        return Trial(restarts, found, Came(stores), seen)

    def keeps(self, trial):
        """Whether nothing of who watches was lost, as it must be unless the machine held up a restart; nothing comes twice or out
        of order."""
        trial.show("relayd")
        self.assertEqual((trial.came.twice(), trial.came.disordered), (0, 0))
        self.assertLessEqual(trial.losing(), trial.held_up(), trial.lost[WATCHING])
        return not trial.losing() and best(trial.writes()) <= MOST_WRITES

    def holds(self, count, **how):
        """All bars of this number of restarts under load, in one of the tries."""
        for _ in range(TRIES):
            stores = self.stores(2)
            trial = self.trial(self.relay(stores), stores, count, **how)
            if has_room():
                self.assertEqual(sum(trial.dropped), 0, "datagrams that the system dropped")
            if self.keeps(trial) and (self.holds_each(trial) if Settings.longer else self.holds_best(trial)):
                return
        self.fail(f"at the last try lost {trial.lost[WATCHING]}, writes {trial.writes()}, datagrams {trial.datagrams}, "
                  f"refused {trial.refused}")

    def holds_best(self, trial):
        """Whether the best of three restarts in a row hold the bars of the short form."""
        return best(trial.beyond()) <= MOST_DATAGRAMS and best(trial.shut()) <= MOST_SHUT

    def holds_each(self, trial):
        """Whether the machine held up less than half of the restarts; each of the others must hold each bar."""
        held_up = trial.held_up(until_next=True)
        self.assertLessEqual(trial.missing(), held_up, (trial.refused, trial.datagrams, trial.writes()))
        return len(held_up) < len(trial.restarts) / 2

    def test_under_load(self):
        """Nothing of who watches is lost, and of the others one write."""
        self.holds(LONGER if Settings.longer else RESTARTS)

    def test_frozen(self):
        """Nor where the relay had no processor for a second: it reads what waits."""
        self.holds(LONGER if Settings.longer else RESTARTS, frozen=FROZEN)

    def test_a_store_that_is_away(self):
        """What is queued for it outlives the restart, and comes once and in order after its own return."""
        self.assertTrue(any(self.outlives() for _ in range(TRIES)))

    def outlives(self):
        """Whether nothing is lost over a restart while a store is away."""
        stores, spool = self.stores(2), tempfile.mkdtemp(dir=self.folder)
        stores[1].stop()
        relay = self.relay(stores, "--spool", spool)
        dest = f"{HOST}:{stores[1].port}:1"
        with Seen(relay) as seen, Load(relay.line_port, relay.udp_port) as load:
            self.assertTrue(wait_until(lambda: relay.report()[dest]["queued"] >= SPOOLED))
            restarts = [relay.restart()]
            self.assertIn(dest, os.listdir(spool))
            time.sleep(BETWEEN)
            stores[1].start()
            self.assertTrue(wait_until(lambda: dest not in os.listdir(spool)))
            self.assertTrue(wait_until(lambda: relay.report()[dest]["queued"] == 0))
            found = load.end()
        relay.end()
        stores[0].finish()
        self.assertTrue(wait_until(lambda: stores[1].size() and not stores[1].threads[-1].is_alive()))
        self.assertGreaterEqual(stores[1].text().count(b"\n"), SPOOLED)
        return self.keeps(Trial(restarts, found, Came(stores), seen))

    def test_a_store_that_reads_nothing(self):
        """It holds up no stop for long."""
        well, = self.stores(1)
        idle, = self.stores(1, reads=False, room=4096)
        relay = self.relay([well, idle])
        took = []
        while len(took) < ATTEMPTS and min(took, default=LIMIT) > MOST_HELD_UP:
            with socket.create_connection((HOST, relay.line_port), LIMIT) as stream:
                for first in range(0, WAITING, 1000):
                    stream.sendall(b"".join(b"%s.s%d %d 1700000000\n" % (LONG, i, i) for i in range(first, first + 1000)))
            self.assertTrue(wait_until(lambda: sum(it["offered"] for it in relay.report().values()) >= WAITING))
            took.append(relay.restart().took)
        print(f"  a store that reads nothing: stopped in {min(took):.3f} s", flush=True)
        self.assertLessEqual(min(took), MOST_HELD_UP)

    def test_silent_producers(self):
        """Where nobody sends and the stores are well, the relay ends at once."""
        stores = self.stores(2)
        relay = self.relay(stores)
        took, most = [], MOST_SILENT_LONGER if Settings.longer else MOST_SILENT
        while len(took) < ATTEMPTS and min(took, default=LIMIT) > most:
            with contextlib.ExitStack() as held:
                for place in range(PRODUCERS):
                    stream = held.enter_context(socket.create_connection((HOST, relay.line_port), LIMIT))
                    stream.sendall(b"silent.p%d 1 1700000000\n" % place)
                counts = relay.report
                self.assertTrue(wait_until(lambda: sum(it["taken"] for it in counts().values()) >= PRODUCERS))
                took.append(relay.restart().took)
        print(f"  silent producers: stopped in {min(took):.3f} s", flush=True)
        self.assertLessEqual(min(took), most)

    def test_others(self):
        """What the others lose is printed, and no bar is asked of them."""
        for name, program, kind in (("carbon-c-relay", "carbon-c-relay", CRelay),
                                    ("carbon-relay", "/usr/bin/carbon-relay", CarbonRelayRestarting)):
            if not shutil.which(program):
                print(f"  {name} is missing", flush=True)
                continue
            self.assertTrue(any(self.is_shown(name, kind) for _ in range(TRIES)), name)

    def is_shown(self, name, kind):
        """Whether another relay begins, and something comes through it. What it loses is printed."""
        store, = self.stores(1)
        try:
            relay = self.begin(kind(tempfile.mkdtemp(dir=self.folder), store.port))
            trial = self.trial(relay, [store], RESTARTS if Settings.longer else 1)
        except Missing as missing:
            print(f"  {missing}", flush=True)
            return False
        trial.show(name)
        return bool(trial.came.numbers)
