#!/usr/bin/env python3
"""Sends what a running relay reports of its queues to Graphite, under the names that carbon's own relay gives them.

    report_to_graphite.py --admin PORT [--admin-key FILE] --to HOST:PORT [--status PORT] [--prefix NAME]
                          [--instance NAME] [--state FILE | --every SECONDS]

Asks the admin port of a relay on this machine for its report, and writes five lines for each destination to the line
port of --to, which may be the relay's own:

    carbon.relays.web1.destinations.127_0_0_1:2103:a.attemptedRelays 60210 1700000000
    carbon.relays.web1.destinations.127_0_0_1:2103:a.sent 60000 1700000000
    carbon.relays.web1.destinations.127_0_0_1:2103:a.fullQueueDrops 210 1700000000
    carbon.relays.web1.destinations.127_0_0_1:2103:a.queued 0 1700000000
    carbon.relays.web1.destinations.127_0_0_1:2103:a.relayMaxQueueLength 0 1700000000

The first three count what was offered, taken and dropped since the last turn, or since the relay's start if that was
later. `queued`, which carbon does not have, is what waits now, and so is `relayMaxQueueLength`.

With --status it also asks the relay's status server, on this machine, and writes what the report does not have. Of the
relay, as carbon does: `metricsReceived` since the last turn, `activeConnections` now, `cpuUsage`, in percent of one
processor since the last turn, and `memUsage`, in bytes. And as it is now: for a destination `connected` (0 or 1),
`connectionLosses` and `failedTries` since the start, `stalledSeconds` and `oldestQueuedMilliseconds`, and
`spoolDatapoints` and `spoolBytes`, what waits in its file, `spoolAgeSeconds`, since when it was not written, and
`spoolDatapointsPerSecond`, how fast it goes out; for a receiver, under `receivers.line`, `receivers.line_1` or the
like, `open` (0 or 1), `connections`, and since the start `datapoints`, `rejected`, `refused` and `lost`.

--prefix is carbon's CARBON_METRIC_PREFIX, and with --instance the machine's name is followed by `-` and that, as for an
instance of carbon.

It does so once, or every SECONDS seconds until it is stopped. --state names a file that keeps the counts from one call to
the next; a first turn has no count since the last one. A failure is reported on standard error, and the next turn includes
what was not sent. An answer may take 5 seconds, and sending another 5. The status is 0, or 1 after a failure.
"""

import argparse
import json
import os
import re
import socket
import sys
import time
import urllib.request

LINE = re.compile(r"destination (\S+) queued (\d+) offered (\d+) kept (\d+) dropped (\d+) taken (\d+)(?: \w+ \d+)*")
COUNTED = {"offered": "attemptedRelays", "taken": "sent", "dropped": "fullQueueDrops"}
DEST_STATUS = {"connected": "connected", "connection_losses": "connectionLosses", "failed_tries": "failedTries",
               "stalled_seconds": "stalledSeconds", "oldest_queued_milliseconds": "oldestQueuedMilliseconds",
               "spool_datapoints": "spoolDatapoints", "spool_bytes": "spoolBytes", "spool_age_seconds": "spoolAgeSeconds",
               "spool_datapoints_per_second": "spoolDatapointsPerSecond"}
REJECTED = ("bad_lines", "bad_pickles", "bad_rows", "bad_names")
LOST = ("overlong", "unfinished", "idle", "memory_short", "broken", "system_drop")
PROCESS = re.compile(r"^process_(cpu_seconds_total|resident_memory_bytes|start_time_seconds) (\S+)$", re.MULTILINE)
RELAY = "relay"  # the row of a relay beside those of its destinations, which have a colon
UNKNOWN = "unknown command\n"
LIMIT = 5  # seconds that an answer may take, and sending
LONGEST = 1 << 20  # bytes of an answer


class Failed(Exception):
    """What could not be done."""


def place(text):
    """A host and a port."""
    host, colon, port = text.rpartition(":")
    if not (host and colon and port.isdecimal()):
        raise argparse.ArgumentTypeError(f"{text} is not HOST:PORT")
    return host, int(port)


def arguments():
    """The words of the command line."""
    parser = argparse.ArgumentParser(description="Sends a relay's report to Graphite.")
    parser.add_argument("--admin", type=int, required=True, metavar="PORT", help="the relay's admin port")
    parser.add_argument("--admin-key", metavar="FILE", help="a file whose first line is the key of that port")
    parser.add_argument("--status", type=int, metavar="PORT", help="the port of its status server, for what the report lacks")
    parser.add_argument("--to", type=place, required=True, metavar="HOST:PORT", help="where lines are received")
    parser.add_argument("--prefix", default="carbon", metavar="NAME",
                        help="what all names begin with (default: %(default)s)")
    parser.add_argument("--instance", metavar="NAME", help="distinguishes the relays of a machine")
    often = parser.add_mutually_exclusive_group()
    often.add_argument("--state", metavar="FILE", help="keeps the counts from one call to the next")
    often.add_argument("--every", type=float, metavar="SECONDS", help="does it again and again (default: once)")
    return parser.parse_args()


def key_line(path):
    """The line that goes before a command, where the admin port has a key, in a file."""
    if path is None:
        return b""
    try:
        with open(path, "rb") as file:
            return b"key " + file.readline(200).rstrip(b"\r\n") + b"\n"
    except OSError as error:
        raise Failed(f"{path}: {error.strerror}") from error


def report(admin, key):
    """The report of the relay with this admin port, within the limit; a relay without a key does not know a command behind one."""
    answer = answer_to(admin, key + b"report\n")
    return answer_to(admin, b"report\n") if key and answer == UNKNOWN else answer


def answer_to(admin, text):
    """What the relay with this admin port answers, within the limit."""
    end, answer = time.monotonic() + LIMIT, b""
    try:
        with socket.create_connection(("127.0.0.1", admin), LIMIT) as stream:
            stream.sendall(text)
            while more := stream.recv(65536):
                answer += more
                left = end - time.monotonic()
                if left <= 0 or len(answer) > LONGEST:
                    raise Failed(f"the answer of port {admin} does not end")
                stream.settimeout(left)
        return answer.decode("ascii")
    except (OSError, UnicodeDecodeError) as error:
        raise Failed(f"port {admin}: {error}") from error


def counts_of(text):
    """The counts of each destination of a report."""
    found = {}
    for line in text.splitlines():
        parts = LINE.fullmatch(line)
        if not parts:
            raise Failed(f"this is no line of a report: {line}")
        queued, offered, _, dropped, taken = map(int, parts.groups()[1:])
        found[parts[1]] = {"queued": queued, "offered": offered, "dropped": dropped, "taken": taken}
    return found


def carbon_name(destination):
    """A destination as carbon names it: with its instance, which may be None, and without points."""
    return (destination if destination.count(":") > 1 else destination + ":None").replace(".", "_")


def started_anew(counts, before):
    """Whether the relay has started since: a count has fallen, or a destination is gone."""
    return any(name not in counts or any(counts[name][count] < value for count, value in row.items() if count != "queued")
               for name, row in before.items())


def lines_of(counts, before, prefix, moment):
    """The lines of destinations; there is nothing before a first turn."""
    lines = []
    for name, row in counts.items():
        if before is not None:
            last = {} if started_anew(counts, before) else before.get(name, {})
            lines += [f"{prefix}.destinations.{carbon_name(name)}.{key} {row[count] - last.get(count, 0)} {moment}\n"
                      for count, key in COUNTED.items()]
        lines += [f"{prefix}.destinations.{carbon_name(name)}.{key} {row['queued']} {moment}\n"
                  for key in ("queued", "relayMaxQueueLength")]
    return lines


def relay_of(status, metrics, moment):
    """What the status server says of the relay itself."""
    process = {name: float(value) for name, value in PROCESS.findall(metrics)}
    total = {name: sum(it[name] for it in status["receivers"]) for name in ("datapoints", "connections")}
    return {"moment": moment, "started": process["start_time_seconds"], "processor": process["cpu_seconds_total"],
            "memory": process["resident_memory_bytes"], **total}


def relay_lines_of(relay, before, prefix, moment):
    """The lines of the relay itself; there is nothing before a first turn."""
    values = {"activeConnections": relay["connections"], "memUsage": int(relay["memory"])}
    if before is not None:
        if before["started"] != relay["started"]:
            before = {"moment": relay["started"], "processor": 0, "datapoints": 0}
        values["metricsReceived"] = relay["datapoints"] - before["datapoints"]
        if relay["moment"] > before["moment"]:
            share = (relay["processor"] - before["processor"]) / (relay["moment"] - before["moment"])
            values["cpuUsage"] = round(100 * share, 2)
    return [f"{prefix}.{name} {value} {moment}\n" for name, value in values.items()]


def status_lines_of(status, prefix, moment):
    """The lines of what the status server says."""
    values = [(f"destinations.{carbon_name(it['destination'])}.{key}", int(it[member]))
              for it in status["destinations"] for member, key in DEST_STATUS.items() if member in it]
    for it in status["receivers"]:
        name = f"receivers.{it['receiver'].replace(' ', '_')}"
        values += [(f"{name}.open", int(it["state"] == "open"))]
        values += [(f"{name}.{key}", it[key]) for key in ("connections", "datapoints", "refused")]
        values += [(f"{name}.{key}", sum(it[member] for member in members))
                   for key, members in (("rejected", REJECTED), ("lost", LOST))]
    return [f"{prefix}.{name} {value} {moment}\n" for name, value in values]


def served(port, path):
    """What the status server at this port has at a path, within the limit."""
    with urllib.request.urlopen(f"http://127.0.0.1:{port}/{path}", timeout=LIMIT) as answer:
        return answer.read(LONGEST).decode()


def statuses_of(port, moment):
    """The status that this port serves, and what it says of the relay itself."""
    try:
        status = json.loads(served(port, "status.json"))
        return status, relay_of(status, served(port, "metrics"), moment)
    except (OSError, ValueError, KeyError) as error:
        raise Failed(f"port {port}: {error}") from error


def send(lines, to):
    """Writes lines, within the limit."""
    try:
        with socket.create_connection(to, LIMIT) as stream:
            stream.sendall("".join(lines).encode())
    except OSError as error:
        raise Failed(f"{to[0]}:{to[1]}: {error}") from error


def kept(path):
    """The counts that a file keeps, or none."""
    try:
        with open(path, encoding="ascii") as file:
            return json.load(file)
    except (OSError, ValueError):
        return None


def keep(path, counts):
    """Writes the file anew, as a whole."""
    try:
        with open(path + ".new", "w", encoding="ascii") as file:
            json.dump(counts, file)
        os.replace(path + ".new", path)
    except OSError as error:
        raise Failed(f"{path}: {error}") from error


def turn(words, before):
    """Asks, and sends what is answered. Gives the counts, with which the next turn begins."""
    machine = socket.gethostname().replace(".", "_") + (f"-{words.instance}" if words.instance else "")
    prefix, now = f"{words.prefix}.relays.{machine}", time.time()
    counts, relay = counts_of(report(words.admin, key_line(words.admin_key))), {}
    rows = before and {name: row for name, row in before.items() if name != RELAY}
    lines = lines_of(counts, rows, prefix, int(now))
    if words.status is not None:
        status, relay[RELAY] = statuses_of(words.status, now)
        lines += relay_lines_of(relay[RELAY], before and before.get(RELAY), prefix, int(now))
        lines += status_lines_of(status, prefix, int(now))
    send(lines, words.to)
    return counts | relay


def main():
    """Sends once, or until it is ended."""
    words = arguments()
    before = kept(words.state) if words.state else None
    while True:
        try:
            before = turn(words, before)
            if words.state:
                keep(words.state, before)
        except Failed as failed:
            print(f"report_to_graphite: {failed}", file=sys.stderr, flush=True)
            if words.every is None:
                return 1
        if words.every is None:
            return 0
        time.sleep(words.every)


if __name__ == "__main__":
    sys.exit(main())
