#!/usr/bin/env python3
"""A running relay with two stores: sends it lines, a pickle and a datagram, shows what each store got, and stops it.

    python3 examples/running.py [FOLDER [RELAYD]]

Its files are shown, and kept in FOLDER (bin/demo without it), so that it can be run again by hand. RELAYD is the
program, bin/relayd without it. All ports are free ones of 127.0.0.1.
"""

import os
import pickle
import socket
import struct
import subprocess
import sys
import threading
import time

HOST = "127.0.0.1"
PATIENCE = 60  # seconds, on a slow machine
TOP = os.path.dirname(os.path.dirname(os.path.abspath(__file__)))
CONFIG = """[relay]
DESTINATIONS = {host}:{a}:a, {host}:{b}:b
RELAY_METHOD = rules
USE_FLOW_CONTROL = False
DESTINATION_PROTOCOL = line
LINE_RECEIVER_INTERFACE = {host}
LINE_RECEIVER_PORT = {lines}
PICKLE_RECEIVER_INTERFACE = {host}
PICKLE_RECEIVER_PORT = {pickles}
ENABLE_UDP_LISTENER = True
UDP_RECEIVER_INTERFACE = {host}
UDP_RECEIVER_PORT = {datagrams}
"""
RULES = r"""[servers]
pattern = ^servers\.
destinations = {host}:{a}:a
continue = true
[all]
default = true
destinations = {host}:{b}:b
"""
REWRITE = r"""[pre]
^collectd\. = servers.
"""


class Store:
    """A small store: it listens, and keeps the text that comes."""

    def __init__(self):
        self.listener = socket.create_server((HOST, 0))
        self.port = self.listener.getsockname()[1]
        self.text = b""
        threading.Thread(target=self.take, daemon=True).start()

    def take(self):
        while True:
            stream, _ = self.listener.accept()
            while more := stream.recv(65536):
                self.text += more


def free_ports(count):
    """This number of ports at which nothing listens."""
    found = [socket.create_server((HOST, 0)) for _ in range(count)]
    ports = [listener.getsockname()[1] for listener in found]
    for listener in found:
        listener.close()
    return ports


def command(port, text):
    """The answer of the admin port to a command."""
    with socket.create_connection((HOST, port), PATIENCE) as stream:
        stream.sendall(text.encode() + b"\n")
        answer = b""
        while more := stream.recv(65536):
            answer += more
        return answer.decode()


def say(text):
    print(text, flush=True)


def send_all(ports):
    """Sends datapoints in each of the three ways."""
    lines = b"collectd.web01.load 3 1700000000\nstats.requests 17 1700000000\n"
    say("lines, over TCP:\n  " + lines.decode().rstrip().replace("\n", "\n  "))
    with socket.create_connection((HOST, ports["lines"])) as stream:
        stream.sendall(lines)
    points = [("servers.web02.load", (1700000001, 4)), ("stats.errors", (1700000001, 0))]
    say(f"a pickle, over TCP:\n  {points}")
    pickled = pickle.dumps(points, 2)
    with socket.create_connection((HOST, ports["pickles"])) as stream:
        stream.sendall(struct.pack("!L", len(pickled)) + pickled)
    datagram = b"servers.web03.load 5 1700000002"
    say(f"a datagram, over UDP:\n  {datagram.decode()}")
    with socket.socket(socket.AF_INET, socket.SOCK_DGRAM) as sender:
        sender.sendto(datagram, (HOST, ports["datagrams"]))


def show(stores, admin):
    """Shows what the stores got, once they have all of it, and the report."""
    until = time.monotonic() + PATIENCE
    while (stores[0].text.count(b"\n"), stores[1].text.count(b"\n")) != (3, 5) and time.monotonic() < until:
        time.sleep(0.01)
    for letter, store in zip("ab", stores):
        say(f"store {letter} got:\n  " + store.text.decode().rstrip().replace("\n", "\n  "))
    say("report:\n  " + command(admin, "report").rstrip().replace("\n", "\n  "))


def show_file(path, text):
    """Writes a file, and shows it."""
    with open(path, "w", encoding="utf-8") as file:
        file.write(text)
    say(f"$ cat {path}\n  " + text.rstrip().replace("\n", "\n  "))


def main():
    folder = sys.argv[1] if len(sys.argv) > 1 else os.path.join("bin", "demo")
    relayd = sys.argv[2] if len(sys.argv) > 2 else os.path.join("bin", "relayd")
    os.chdir(TOP)
    os.makedirs(folder, exist_ok=True)
    stores = Store(), Store()
    admin, *others = free_ports(4)
    ports = dict(zip(("lines", "pickles", "datagrams"), others))
    places = {"host": HOST, "a": stores[0].port, "b": stores[1].port, **ports}
    words = ["run"]
    for role, name, text in (("config", "relay.conf", CONFIG.format(**places)),
                             ("rules", "relay-rules.conf", RULES.format(**places)),
                             ("rewrite", "rewrite-rules.conf", REWRITE)):
        path = os.path.join(folder, name)
        show_file(path, text)
        words += ["--" + role, path]
    words += ["--longest-name", "1024", "--admin", str(admin)]
    say(f"$ {relayd} {' '.join(words)}")
    with subprocess.Popen([relayd, *words], stdout=subprocess.PIPE, text=True) as child:
        try:
            say(child.stdout.readline().rstrip())
            send_all(ports)
            show(stores, admin)
            say("stop:\n  " + command(admin, "stop").rstrip())
            say(child.stdout.read().rstrip() + "\n  (what the queues and the threads have counted and recorded agrees)")
            status = child.wait(PATIENCE)
        finally:
            if child.poll() is None:
                child.kill()
    say("The files are kept. To run it again by hand (--log says that no store is there now), and to stop it from "
        "another\nshell:\n"
        f"  {relayd} {' '.join(words)} --log\n  {relayd} stop --admin {admin} --wait")
    return status


if __name__ == "__main__":
    sys.exit(main())
