"""The relays that a benchmark measures: how each is configured, started, watched and ended."""

import os
import shutil
import socket
import subprocess
import time

from shared import DATA

HOST = "127.0.0.1"
LINE_PORT, PICKLE_PORT, UDP_PORT, ADMIN_PORT = 22003, 22004, 22005, 22006
STARTS = 5
TICKS = os.sysconf("SC_CLK_TCK")


class Plan:
    """What a relay is to do: stores, how names find them, and the size of each queue."""

    def __init__(self, stores, rules=0, replicas=0, rewriting=False, queue=100_000, udp=False, room=0):
        self.stores = stores
        self.rules = rules  # relay rules besides the default; none where it is a ring
        self.replicas = replicas  # of each metric on the ring; 0 means that rules are used
        self.rewriting = rewriting
        self.queue = queue
        self.udp = udp
        self.room = room  # a queue that drops nothing, whatever is sent

    def patterns(self):
        """A pattern for each rule; most match nothing."""
        return [rf"^nothing\.group{i:02d}\..*\.(count|rate)$" for i in range(self.rules)]

    def destinations(self):
        """The stores, as a configuration and relay rules list them."""
        return ", ".join(f"{HOST}:{port}:s{port}" for port in self.stores)

    def settings(self):
        """The section that relayd and carbon-relay share."""
        return f"""[relay]
DESTINATIONS = {self.destinations()}
RELAY_METHOD = {"consistent-hashing" if self.replicas else "rules"}
REPLICATION_FACTOR = {max(self.replicas, 1)}
MAX_QUEUE_SIZE = {self.queue}
USE_FLOW_CONTROL = False
DESTINATION_PROTOCOL = line
LINE_RECEIVER_INTERFACE = {HOST}
LINE_RECEIVER_PORT = {LINE_PORT}
PICKLE_RECEIVER_INTERFACE = {HOST}
PICKLE_RECEIVER_PORT = {PICKLE_PORT}
"""

    def relay_rules(self):
        """The relay rules of both: a rule for each pattern, and the default."""
        stores = self.destinations()
        sections = [f"[rule{i}]\npattern = {pattern}\ndestinations = {stores}\n"
                    for i, pattern in enumerate(self.patterns())]
        sections.append(f"[default]\ndefault = true\ndestinations = {stores}\n")
        return "\n".join(sections)


def wait_for_port(port, seconds=20):
    """Waits until something listens on a port."""
    end = time.monotonic() + seconds
    while time.monotonic() < end:
        with socket.socket() as probe:
            if probe.connect_ex((HOST, port)) == 0:
                return True
        time.sleep(0.05)
    return False


class NotStarted(Exception):
    """A relay did not start."""


class Relay:
    """A relay's process."""

    name = "none"
    tolerance = 0  # which part of a store's share may go elsewhere than by carbon's ring

    def __init__(self, plan):
        self.plan = plan
        self.folder = os.path.join(DATA, self.name)
        os.makedirs(self.folder, exist_ok=True)
        self.process = None

    def write(self, name, text):
        """Writes a file of the relay's, and gives its path."""
        path = os.path.join(self.folder, name)
        with open(path, "w", encoding="ascii") as file:
            file.write(text)
        return path

    def begin(self):
        """Starts the process, and says whether it listens and outlives its first connection."""
        with open(os.path.join(self.folder, "output"), "wb") as out:
            self.process = subprocess.Popen(self.words(), stdin=subprocess.DEVNULL, stdout=out, stderr=subprocess.STDOUT)
        listens = wait_for_port(LINE_PORT)
        time.sleep(0.5)
        if listens and self.process.poll() is None:
            return True
        self.process.kill()
        self.process.wait()
        return False

    def __enter__(self):
        # carbon-c-relay crashes now and then as it starts.
        if not any(self.begin() for _ in range(STARTS)):
            raise NotStarted(self.name)
        return self

    def __exit__(self, *_):
        self.end()

    def begin_end(self):
        """Asks the process to end."""
        self.process.terminate()

    def end(self):
        """Ends the process."""
        self.begin_end()
        try:
            self.process.wait(10)
        except subprocess.TimeoutExpired:
            self.process.kill()
            self.process.wait()

    def processor_seconds(self):
        """What the process has used of the processors so far."""
        with open(f"/proc/{self.process.pid}/stat", encoding="ascii") as file:
            fields = file.read().rsplit(")", 1)[1].split()
        return (int(fields[11]) + int(fields[12])) / TICKS

    def peak_memory(self):
        """The greatest resident memory of the process so far, in KB."""
        with open(f"/proc/{self.process.pid}/status", encoding="ascii") as file:
            return next(int(line.split()[1]) for line in file if line.startswith("VmHWM"))


class NoRelay:
    """What stands in a relay's place where there is none."""

    name = "direct"

    @staticmethod
    def missing():
        return None

    def __init__(self, _plan):
        pass

    def __enter__(self):
        return self

    def __exit__(self, *_):
        pass

    @staticmethod
    def processor_seconds():
        return 0.0

    @staticmethod
    def peak_memory():
        return 0


class Relayd(Relay):
    """This relay."""

    name = "relayd"
    program = None
    senders = 1

    @staticmethod
    def missing():
        return None

    def words(self):
        plan = self.plan
        config = self.write("relay.conf", plan.settings() + f"""ENABLE_UDP_LISTENER = {"true" if plan.udp else "false"}
UDP_RECEIVER_INTERFACE = {HOST}
UDP_RECEIVER_PORT = {UDP_PORT}
""")
        words = [self.program, "run", "--config", config, "--admin", str(ADMIN_PORT), "--senders", str(self.senders)]
        if not plan.replicas:
            words += ["--rules", self.write("rules.conf", plan.relay_rules())]
        if plan.rewriting:
            rewrite = self.write("rewrite.conf", "[pre]\n" + r"^servers\.([^.]+)\. = hosts.\1." + "\n")
            words += ["--rewrite", rewrite]
        return words

    def begin_end(self):
        with socket.create_connection((HOST, ADMIN_PORT), timeout=5) as admin:
            admin.sendall(b"stop\n")
            admin.recv(64)

    def end(self):
        try:
            self.begin_end()
            self.process.wait(30)
        except (OSError, subprocess.TimeoutExpired):
            super().end()


class CarbonCRelay(Relay):
    """carbon-c-relay, as Debian packages it."""

    peer = name = "carbon-c-relay"
    workers, roomy = 2, False
    datagram_port = LINE_PORT
    # Where two of its nodes have one position on the ring, it places them a little differently from carbon.
    tolerance = 0.01

    @staticmethod
    def missing():
        return None if shutil.which("carbon-c-relay") else "carbon-c-relay is missing"

    def words(self):
        plan = self.plan
        # Without an instance the members of one host would have one place on the ring.
        ends = "\n    ".join(f"{HOST}:{port}=s{port}" for port in plan.stores)
        kind = f"carbon_ch replication {plan.replicas}" if plan.replicas else "forward"
        text = f"cluster all\n  {kind}\n    {ends}\n  ;\n"
        if plan.rewriting:
            text += r"rewrite ^servers\.([^.]+)\. into hosts.\1. ;" + "\n"
        for pattern in plan.patterns():
            text += f"match {pattern}\n  send to all\n  stop\n  ;\n"
        text += "match *\n  send to all\n  ;\n"
        config = self.write("relay.conf", text)
        queue = max(plan.room, plan.queue) if self.roomy else plan.queue
        return ["carbon-c-relay", "-f", config, "-p", str(LINE_PORT), "-s", "-w", str(self.workers), "-q", str(queue)]


def way_of_carbon_c_relay(count, without_loss):
    """carbon-c-relay with a number of workers, and the queue of the plan or one in which nothing is dropped."""

    class Way(CarbonCRelay):
        """One way to run it."""

        name = f"carbon-c-relay, {count} worker{'s' * (count > 1)}{', roomy' * without_loss}"
        workers, roomy = count, without_loss

    return Way


WAYS_WITH_QUEUE = tuple(way_of_carbon_c_relay(count, False) for count in (1, 2, 4))
WAYS = (*WAYS_WITH_QUEUE, *(way_of_carbon_c_relay(count, True) for count in (1, 2, 4)))


class CarbonRelay(Relay):
    """carbon-relay of graphite-carbon, as Debian packages it."""

    name = "carbon-relay"
    datagram_port = UDP_PORT

    @staticmethod
    def missing():
        return None if shutil.which("carbon-relay") else "graphite-carbon is missing"

    def words(self):
        config = self.write("carbon.conf", self.plan.settings() + f"""ENABLE_UDP_LISTENER = {self.plan.udp}
UDP_RECEIVER_INTERFACE = {HOST}
UDP_RECEIVER_PORT = {UDP_PORT}
DIVERSE_REPLICAS = False
MAX_DATAPOINTS_PER_MESSAGE = 500
CARBON_METRIC_INTERVAL = 0
LOG_DIR = {self.folder}
PID_DIR = {self.folder}
STORAGE_DIR = {self.folder}
LOCAL_DATA_DIR = {self.folder}
""")
        rules = self.write("relay-rules.conf", self.plan.relay_rules())
        self.write("storage-schemas.conf", "[all]\npattern = .*\nretentions = 60:1440\n")  # asked for, and not used
        return ["/usr/bin/carbon-relay", f"--config={config}", f"--rules={rules}", f"--pidfile={self.folder}/pid",
                "--nodaemon", f"--logdir={self.folder}", "start"]
