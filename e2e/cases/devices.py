"""Devices that fail: standard error has the fault line alone, and the status is 3."""

import os
import resource
import signal
import socket
import struct
import subprocess
import tempfile
import threading

from fixtures.configured import NAME, WithFiles, settings
from fixtures.harness import LIMIT, Ran, Suite, held, run

INPUT = b"relayd: input\n"
OUTPUT = b"relayd: output\n"
MANY = b"".join(b"host%d.load %d 1700000000\n" % (n, n) for n in range(20000))


def read_late(child, output, pause):
    """What a program wrote and how it ended, where its output is read only after it has had time to fill the pipe."""
    try:
        child.wait(pause)
    except subprocess.TimeoutExpired:
        pass
    out, err = output.read(), child.stderr.read()
    return Ran(child.wait(timeout=LIMIT), out, err)


class Output(Suite):
    """Standard output that takes no bytes."""

    def faulty(self, given, stdout):
        """A case: writing fails."""
        self.expect(given, b"", OUTPUT, 3, stdout=stdout)

    def test_a_full_device(self):
        with open("/dev/full", "wb") as full:
            self.faulty(b"a 1 2\n", full)
            self.faulty(MANY, full)
            self.faulty(b"a 1 2\nrest", full)

    def test_the_notes_are_left_out_after_a_fault(self):
        with open("/dev/full", "wb") as full:
            self.faulty(b"bad\na 1 2\n", full)
            self.faulty(b"bad\na 1 2\n" + b"x" * 20000, full)

    def test_a_full_device_is_not_asked_where_there_is_nothing_to_write(self):
        with open("/dev/full", "wb") as full:
            self.expect(b"", stdout=full)
            self.expect(b"bad\n\n", notes=b"bad lines 1\n", stdout=full)

    def test_help_and_version_on_a_full_device(self):
        with open("/dev/full", "wb") as full:
            for words in (("--help",), ("pass", "--help"), ("--version",)):
                self.expect(b"", b"", OUTPUT, 3, words=words, stdout=full)

    def test_a_pipe_that_nobody_reads(self):
        for given in (b"a 1 2\n", MANY):
            reading, writing = os.pipe()
            os.close(reading)
            self.faulty(given, writing)
            os.close(writing)

    def test_a_reader_that_goes_after_a_line(self):
        """As with `| head -1`: the input is endless, the reader of the output leaves."""
        with held() as child:
            writer = threading.Thread(target=self.write_on, args=(child.stdin,))
            writer.start()
            line = child.stdout.readline()
            child.stdout.close()
            err = child.stderr.read()
            status = child.wait(timeout=LIMIT)
            writer.join(LIMIT)
        self.same(MANY, Ran(status, line, err), Ran(3, b"host0.load 0 1700000000\n", OUTPUT))

    @staticmethod
    def write_on(pipe):
        """Writes lines until the program has gone."""
        try:
            while True:
                pipe.write(MANY)
        except OSError:
            pass
        try:
            pipe.close()
        except OSError:
            pass

    def test_a_place_that_is_only_read(self):
        with open(os.devnull, "rb") as null:
            self.faulty(b"a 1 2\n", null)

    def test_a_file_at_its_greatest_size(self):
        """The bytes up to the limit are written; then the device refuses."""
        room = 10000

        def limit():
            signal.signal(signal.SIGXFSZ, signal.SIG_IGN)
            resource.setrlimit(resource.RLIMIT_FSIZE, (room, room))

        with tempfile.TemporaryFile() as file:
            ran = run(("pass",), MANY, stdout=file, restore_signals=False, preexec_fn=limit)
            file.seek(0)
            self.same(MANY, ran._replace(out=file.read()), Ran(3, MANY[:room], OUTPUT))

    def test_a_file_that_takes_three_bytes(self):
        """A line of which a first part is written ends the run all the same."""
        def limit():
            signal.signal(signal.SIGXFSZ, signal.SIG_IGN)
            resource.setrlimit(resource.RLIMIT_FSIZE, (3, 3))

        with tempfile.TemporaryFile() as file:
            ran = run(("pass",), b"a.b 42 7\n", stdout=file, restore_signals=False, preexec_fn=limit)
            file.seek(0)
            self.same(b"a.b 42 7\n", ran._replace(out=file.read()), Ran(3, b"a.b", OUTPUT))

    def test_a_write_that_would_block_is_made_again(self):
        reading, writing = os.pipe()
        os.set_blocking(writing, False)
        with held(stdout=writing) as child, open(reading, "rb") as output:
            os.close(writing)
            sender = threading.Thread(target=self.write_once, args=(child.stdin,))
            sender.start()
            ran = read_late(child, output, 0.3)
            sender.join(LIMIT)
        self.same(MANY, ran, Ran(0, MANY, b""))

    @staticmethod
    def write_once(pipe):
        """Writes the lines and closes the pipe."""
        try:
            pipe.write(MANY)
            pipe.close()
        except OSError:
            pass


class Answers(WithFiles):
    """Standard output that takes no answer of `check` and `route`."""

    def faulty(self, **how):
        """Cases: writing the answer fails, also that a name was dropped."""
        expected = Ran(3, b"", OUTPUT)
        self.ends(("check",), expected, {}, **how)
        self.ends(("route", NAME), expected, {}, **how)
        self.ends(("route", NAME), expected, {"rewrite": "[pre]\n. =\n"}, **how)

    def test_a_full_device(self):
        with open("/dev/full", "wb") as full:
            self.faulty(stdout=full)

    def test_a_pipe_that_nobody_reads(self):
        reading, writing = os.pipe()
        os.close(reading)
        self.faulty(stdout=writing)
        os.close(writing)

    def test_a_place_that_is_only_read(self):
        with open(os.devnull, "rb") as null:
            self.faulty(stdout=null)

    def test_no_standard_output(self):
        self.faulty(preexec_fn=lambda: os.close(1))

    def test_a_full_device_is_not_asked_at_a_fault(self):
        with open("/dev/full", "wb") as full:
            for expected, files in ((Ran(1, b"", b"relayd: config: line 1: NoSection\n"), {"config": "x"}),
                                  (Ran(3, b"", b"relayd: rules: cannot read\n"), {"rules": self.folder})):
                self.ends(("check",), expected, files, stdout=full)
                self.ends(("route", "a b"), expected, files, stdout=full)
            self.ends(("route", "a b"), Ran(1, b"", b"relayd: name: BadName\n"), {}, stdout=full)

    def test_the_status_shows_a_fault_that_cannot_be_written(self):
        with open("/dev/full", "wb") as full:
            for status, command, files in ((1, ("check",), {"config": "x"}), (3, ("check",), {"config": self.folder}),
                                           (1, ("route", "a b"), {}), (1, ("route", NAME), {"rules": None})):
                self.ends(command, Ran(status, b"", b""), files, stderr=full)
            self.ends(("check",), Ran(3, b"", b""), {}, stdout=full, stderr=full)
            self.ends(("check",), Ran(0, b"ok 2 destinations\n", b""), {}, stderr=full)

    def test_help_on_a_full_device(self):
        with open("/dev/full", "wb") as full:
            for word in ("check", "route"):
                self.expect(b"", b"", OUTPUT, 3, words=(word, "--help"), stdout=full)

    def test_an_answer_that_does_not_fit_into_a_pipe(self):
        """The program waits until it is read, also where its writes would block."""
        hosts = [f"{number:0>255}:65535:{'y' * 255}" for number in range(64)]
        listed = ",".join(hosts)
        words = ("route", NAME, *self.given({"config": settings(DESTINATIONS=listed),
                                             "rules": f"[a]\ndefault = yes\ndestinations = {listed}\n"}))
        before = b"." * 60000
        expected = Ran(0, before + f"{NAME} {' '.join(hosts)}\n".encode(), b"")
        for blocking in (True, False):
            reading, writing = os.pipe()
            os.write(writing, before)
            os.set_blocking(writing, blocking)
            with held(words, stdout=writing) as child, open(reading, "rb") as output:
                os.close(writing)
                ran = read_late(child, output, 0.1)
            self.same(NAME, ran, expected, words)


class Input(Suite):
    """Standard input that gives no bytes."""

    def test_a_folder(self):
        folder = os.open(os.curdir, os.O_RDONLY)
        self.expect(b"", b"", INPUT, 3, stdin=folder)
        os.close(folder)

    def test_a_place_that_is_only_written(self):
        with open(os.devnull, "wb") as null:
            self.expect(b"", b"", INPUT, 3, stdin=null)

    def test_a_connection_that_breaks(self):
        """The lines before the fault remain, and the notes are left out."""
        given = b"bad\na 1 2\nb 3"
        with socket.socket() as listener:
            listener.bind(("127.0.0.1", 0))
            listener.listen(1)
            peer = socket.create_connection(listener.getsockname())
            connection, _ = listener.accept()
        with held(stdin=connection) as child:
            connection.close()
            peer.sendall(given)
            out = child.stdout.readline()
            # Closed with bytes of its own thrown away: the other side meets a reset.
            peer.setsockopt(socket.SOL_SOCKET, socket.SO_LINGER, struct.pack("ii", 1, 0))
            peer.close()
            out += child.stdout.read()
            err = child.stderr.read()
            status = child.wait(timeout=LIMIT)
        self.same(given, Ran(status, out, err), Ran(3, b"a 1 2\n", INPUT))

    def test_a_read_that_would_block_is_made_again(self):
        reading, writing = os.pipe()
        os.set_blocking(reading, False)
        with held(stdin=reading) as child, open(writing, "wb", 0) as given:
            os.close(reading)
            try:
                child.wait(0.1)  # there is nothing to read yet
            except subprocess.TimeoutExpired:
                pass
            given.write(b"a 1 2\nbad\n")
            out = child.stdout.readline()
            given.close()
            out += child.stdout.read()
            err = child.stderr.read()
            status = child.wait(timeout=LIMIT)
        self.same(b"a 1 2\nbad\n", Ran(status, out, err), Ran(0, b"a 1 2\n", b"bad lines 1\n"))
