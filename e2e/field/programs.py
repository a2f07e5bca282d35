"""Real producers and stores, each in a folder of its own, started and ended by a `with`."""

import contextlib
import glob
import os
import pickle
import signal
import socket
import struct
import subprocess
import time

from fixtures import reference
from fixtures.stores import Store, free_ports

HOST = "127.0.0.1"
ASK_TRIES = 50
LIMIT = 200  # seconds that a program may take to begin or to end, and a condition to come true


class Missing(Exception):
    """A program did not begin."""


def wait_until(holds, seconds=LIMIT):
    """Waits until something holds, and says whether it does."""
    end = time.monotonic() + seconds
    while time.monotonic() < end:
        if holds():
            return True
        time.sleep(0.05)
    return holds()


def listens(port):
    """Whether something listens on a port."""
    with socket.socket() as probe:
        return probe.connect_ex((HOST, port)) == 0


class Program:
    """A process with a folder of its own."""

    signal = signal.SIGTERM

    def __init__(self, folder):
        self.folder = folder
        os.makedirs(folder, exist_ok=True)
        self.process = None

    def write(self, name, text):
        """Writes a file of the program's, and gives its path."""
        path = os.path.join(self.folder, name)
        with open(path, "w", encoding="utf-8") as file:
            file.write(text)
        return path

    def begin(self):
        """Starts the process, and waits until it serves."""
        with open(os.path.join(self.folder, "output"), "ab") as out:
            self.process = subprocess.Popen(self.words(), stdin=subprocess.DEVNULL, stdout=out, stderr=out,
                                            cwd=self.folder)
        if not wait_until(self.serves):
            self.end()
            with open(os.path.join(self.folder, "output"), "rb") as out:
                raise Missing(f"{self.words()[0]} did not begin: {out.read()[-500:]!r}")

    def serves(self):
        """Whether it has begun."""
        return self.process.poll() is None

    def end(self, how=None):
        """Ends the process by a signal."""
        if self.process.poll() is None:
            self.process.send_signal(how or self.signal)
            try:
                self.process.wait(LIMIT)
            except subprocess.TimeoutExpired:
                self.process.kill()
                self.process.wait()

    def __enter__(self):
        self.begin()
        return self

    def __exit__(self, *_):
        self.end()


class CarbonCache(Program):
    """A store: carbon-cache, which keeps each metric in a whisper file with a value a second."""

    def __init__(self, folder):
        super().__init__(folder)
        self.port, self.pickle_port, self.query_port = free_ports(3)
        self.config = self.write("carbon.conf", f"""[cache]
LINE_RECEIVER_INTERFACE = {HOST}
LINE_RECEIVER_PORT = {self.port}
PICKLE_RECEIVER_INTERFACE = {HOST}
PICKLE_RECEIVER_PORT = {self.pickle_port}
CACHE_QUERY_INTERFACE = {HOST}
CACHE_QUERY_PORT = {self.query_port}
MAX_CREATES_PER_MINUTE = inf
MAX_UPDATES_PER_SECOND = inf
CARBON_METRIC_INTERVAL = 0
LOG_DIR = {folder}
PID_DIR = {folder}
STORAGE_DIR = {folder}
LOCAL_DATA_DIR = {folder}/whisper
WHITELISTS_DIR = {folder}
CONF_DIR = {folder}
""")
        self.write("storage-schemas.conf", "[all]\npattern = .*\nretentions = 1s:1h\n")
        self.write("storage-aggregation.conf", "")

    def words(self):
        return ["/usr/bin/carbon-cache", f"--config={self.config}", f"--pidfile={self.folder}/pid",
                f"--logdir={self.folder}", "--nodaemon", "start"]

    def serves(self):
        return self.process.poll() is not None or listens(self.port)

    def metrics(self):
        """The whisper file of each metric."""
        root = os.path.join(self.folder, "whisper")
        paths = glob.glob(os.path.join(root, "**", "*.wsp"), recursive=True)
        return {os.path.relpath(path, root)[:-4].replace(os.sep, "."): path for path in paths}

    def holds(self, name):
        """Whether it has datapoints of a metric that it has not begun to write."""
        request = pickle.dumps({"type": "cache-query", "metric": name}, 2)
        with socket.create_connection((HOST, self.query_port), LIMIT) as stream, stream.makefile("rb") as answer:
            stream.sendall(struct.pack("!L", len(request)) + request)
            size, = struct.unpack("!L", answer.read(4))
            return bool(pickle.loads(answer.read(size))["datapoints"])

    def values(self):
        """What it keeps of each metric: values by their times. A file that is just being made is left out."""
        import whisper  # of Debian's python3-whisper
        kept = {}
        for name, path in self.metrics().items():
            try:
                (start, _, step), values = whisper.fetch(path, time.time() - 3000)
            except whisper.WhisperException:
                continue
            kept[name] = {start + i * step: value for i, value in enumerate(values) if value is not None}
        return kept


class Collectd(Program):
    """A producer: collectd, which measures this machine each second and sends the same lines to two places: to a relay,
    and to a listener here that keeps them.

    Rates are on, as they are by default, so most values have a fraction. What others mount meanwhile is not measured.
    """

    PLUGINS = ("cpu", "load", "memory", "df", "contextswitch", "uptime", "processes", "users")

    def __init__(self, folder, port):
        super().__init__(folder)
        self.kept = Store(free_ports(1)[0])
        loads = "\n".join(f"LoadPlugin {name}" for name in self.PLUGINS)
        nodes = "".join(f"""  <Node "{name}">
    Host "{HOST}"
    Port "{port}"
    Protocol "tcp"
    Prefix "collectd."
    StoreRates true
    AlwaysAppendDS false
    SeparateInstances true
  </Node>
""" for name, port in (("relayd", port), ("kept", self.kept.port)))
        # With one thread that writes, both places get a rate before the next one is measured.
        self.config = self.write("collectd.conf", f"""Hostname "web1"
FQDNLookup false
Interval 1
WriteThreads 1
BaseDir "{folder}"
PIDFile "{folder}/pid"
PluginDir "/usr/lib/collectd"
TypesDB "/usr/share/collectd/types.db"
LoadPlugin write_graphite
{loads}
<Plugin write_graphite>
{nodes}</Plugin>
<Plugin df>
  MountPoint "/"
</Plugin>
""")

    def words(self):
        return ["/usr/sbin/collectd", "-f", "-C", self.config]

    def begin(self):
        self.kept.start()
        super().begin()

    def end(self, how=None):
        """Ends it; by then all that it sent is kept."""
        super().end(how)
        for thread in self.kept.threads[1:]:  # the first takes connections, and each other reads one
            thread.join(LIMIT)
        self.kept.stop()

    def values(self):
        """What it sent: of each metric the values by their times, as a store reads what relayd writes.

        A rate is `nan` until it was measured twice; such lines are bad lines to relayd, and carbon drops them.
        """
        sent = {}
        for line in self.kept.lines():
            name, text, moment = line.split()
            if reference.value(text) is not None:
                sent.setdefault(name.decode(), {})[int(moment)] = as_written(text.decode())
        return sent


def as_written(text):
    """The binary64 nearest to what relayd writes of this text of a value."""
    return float(reference.printed(reference.value(text.encode())))


class CarbonRelay(Program):
    """A producer of pickles: carbon's own relay, which passes on the lines that it gets. It may send lines too."""

    def __init__(self, folder, target, protocol="pickle"):
        super().__init__(folder)
        self.port, self.pickle_port = free_ports(2)
        self.config = self.write("carbon.conf", f"""[relay]
LINE_RECEIVER_INTERFACE = {HOST}
LINE_RECEIVER_PORT = {self.port}
PICKLE_RECEIVER_INTERFACE = {HOST}
PICKLE_RECEIVER_PORT = {self.pickle_port}
RELAY_METHOD = rules
DESTINATIONS = {HOST}:{target}
DESTINATION_PROTOCOL = {protocol}
MAX_QUEUE_SIZE = 100000
USE_FLOW_CONTROL = False
CARBON_METRIC_INTERVAL = 0
LOG_DIR = {folder}
PID_DIR = {folder}
STORAGE_DIR = {folder}
LOCAL_DATA_DIR = {folder}
""")
        self.rules = self.write("relay-rules.conf", f"[default]\ndefault = true\ndestinations = {HOST}:{target}\n")
        self.write("storage-schemas.conf", "[all]\npattern = .*\nretentions = 60:60\n")  # asked for, and not used

    def lines(self, text):
        """Sends lines over a connection of their own."""
        with socket.create_connection((HOST, self.port), LIMIT) as stream:
            stream.sendall(text)

    def words(self):
        return ["/usr/bin/carbon-relay", f"--config={self.config}", f"--rules={self.rules}",
                f"--pidfile={self.folder}/pid", f"--logdir={self.folder}", "--nodaemon", "start"]

    def serves(self):
        return self.process.poll() is not None or listens(self.port)


class CarbonAggregator(Program):
    """carbon's aggregator, which sends its sums to one destination, and nothing else."""

    def __init__(self, folder, target, port, rules):
        super().__init__(folder)
        self.port = port
        self.pickle_port, = free_ports(1)
        self.config = self.write("carbon.conf", f"""[aggregator]
LINE_RECEIVER_INTERFACE = {HOST}
LINE_RECEIVER_PORT = {self.port}
PICKLE_RECEIVER_INTERFACE = {HOST}
PICKLE_RECEIVER_PORT = {self.pickle_port}
DESTINATIONS = {HOST}:{target}
FORWARD_ALL = False
CARBON_METRIC_INTERVAL = 0
LOG_DIR = {folder}
PID_DIR = {folder}
STORAGE_DIR = {folder}
LOCAL_DATA_DIR = {folder}
CONF_DIR = {folder}
""")
        self.rules = self.write("aggregation-rules.conf", rules)
        self.write("rewrite-rules.conf", "")
        self.write("storage-schemas.conf", "[all]\npattern = .*\nretentions = 60:60\n")  # asked for, and not used

    def words(self):
        return ["/usr/bin/carbon-aggregator", f"--config={self.config}", f"--rules={self.rules}",
                f"--pidfile={self.folder}/pid", f"--logdir={self.folder}", "--nodaemon", "start"]

    def serves(self):
        return self.process.poll() is not None or listens(self.port)


class Relayd(Program):
    """The relay."""

    program = ""

    def __init__(self, folder, stores, rules=None, replicas=1, queue=10_000, senders=2, options=()):
        super().__init__(folder)
        self.line_port, self.pickle_port, self.udp_port, self.admin_port = free_ports(4)
        self.senders, self.options = senders, options
        self.config = self.write("relay.conf", f"""[relay]
DESTINATIONS = {", ".join(stores)}
RELAY_METHOD = {"rules" if rules else "consistent-hashing"}
REPLICATION_FACTOR = {replicas}
MAX_QUEUE_SIZE = {queue}
USE_FLOW_CONTROL = false
DESTINATION_PROTOCOL = line
LINE_RECEIVER_INTERFACE = {HOST}
LINE_RECEIVER_PORT = {self.line_port}
PICKLE_RECEIVER_INTERFACE = {HOST}
PICKLE_RECEIVER_PORT = {self.pickle_port}
ENABLE_UDP_LISTENER = true
UDP_RECEIVER_INTERFACE = {HOST}
UDP_RECEIVER_PORT = {self.udp_port}
""")
        self.rules = self.write("relay-rules.conf", rules) if rules else None

    def words(self):
        words = [self.program, "run", "--config", self.config, "--admin", str(self.admin_port),
                 "--senders", str(self.senders), *self.options]
        return words + ["--rules", self.rules] if self.rules else words

    def serves(self):
        return self.process.poll() is not None or "ready" in self.output()

    def output(self):
        """What it printed."""
        with open(os.path.join(self.folder, "output"), encoding="utf-8") as file:
            return file.read()

    def ask(self, command):
        """The answer to a command at the admin port. A relay that did not wait for it is asked again."""
        answer = b""
        for _ in range(ASK_TRIES):
            with socket.create_connection((HOST, self.admin_port), timeout=LIMIT) as admin:
                with contextlib.suppress(ConnectionError):
                    admin.sendall(command + b"\n")
                    while more := admin.recv(65536):
                        answer += more
            if answer:
                break
        return answer.decode()

    def report(self):
        """The counts of each destination."""
        counts = {}
        for line in self.ask(b"report").splitlines():
            words = line.split()
            counts[words[1]] = {words[i]: int(words[i + 1]) for i in range(2, len(words), 2)}
        return counts

    def end(self, how=None):
        if how is None and self.process.poll() is None:
            with contextlib.suppress(OSError):
                self.ask(b"stop")
            with contextlib.suppress(subprocess.TimeoutExpired):
                self.process.wait(LIMIT)
        super().end(how)


class HAProxy(Program):
    """HAProxy by the template of `examples/`, with ports of this machine in place of those of the template."""

    TEMPLATE = os.path.join(os.path.dirname(os.path.abspath(__file__)), "..", "..", "examples", "haproxy.cfg")

    def __init__(self, folder, line_ports, pickle_ports):
        super().__init__(folder)
        self.port, self.pickle_port = free_ports(2)
        with open(self.TEMPLATE, encoding="ascii") as file:
            text = file.read()
        text = text.replace("bind :2003", f"bind {HOST}:{self.port}")
        text = text.replace("bind :2004", f"bind {HOST}:{self.pickle_port}")
        for i, (line, pickles) in enumerate(zip(line_ports, pickle_ports), 1):
            text = text.replace(f"10.0.1.{i}:2013", f"{HOST}:{line}").replace(f"10.0.1.{i}:2014", f"{HOST}:{pickles}")
        self.config = self.write("haproxy.cfg", text)

    def words(self):
        return ["/usr/sbin/haproxy", "-db", "-f", self.config]

    def serves(self):
        return self.process.poll() is not None or listens(self.port)
