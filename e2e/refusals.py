#!/usr/bin/env python3
"""The worked examples of calls, and every growth of memory refused once: each call of a list is made once for each of its
growths, with that one refused, until it runs through.

    python3 e2e/refusals.py [--growth_rows PATH] [--relayd PATH] [NAME ..]

A call is a row of the program `growth_rows`, or a command of `relayd`; a preloaded library refuses the growth
(`fixtures/refuse.c`). `fixtures/worked_rows.py` has what each row prints with ample memory. A refused row answers out of
memory, what its call was lent is as before, and the same call made again goes on as that table says. What a plan remembers
of names it does without. A call that serves a connection may lose that one, starved of memory. A refused command ends with
status 4 and says `relayd: no memory`, and what it has written is the first part of what it writes otherwise; or it does
without that growth. The command `run` makes the calls of the threads, and loses at most the line of one connection.

Each call has a line: how many growths it has, and how many were refused, all as owed. A call fails also if it has no
row, if it met no growth and is not known to need none, or if it did without each of its growths. The other rows of the
table are refused nothing. The last line is `N passed, M failed`.
"""

import argparse
import concurrent.futures
import itertools
import os
import subprocess
import sys
import tempfile
from typing import NamedTuple

sys.dont_write_bytecode = True  # the folder stays as it was checked out

from fixtures import program, refused, worked_rows
from fixtures.configured import REWRITE, RULES, SETTINGS

AT_ONCE = 8  # runs
MOST = 20_000  # growths of one call: beyond, it does not come to its end
ROWS = (  # the calls that are rows
    "Point::read_line", "LineReader::feed", "datagram", "Name::read", "LineBuf::new",
    "load", "Row::point", "PickleReader::feed",
    "Ini::read", "Dest::read", "Settings::read",
    "replica_key", "RingEntries::place", "Ring::from_nodes", "Ring::from_entries", "Ring::nodes",
    "RewriteRules::read", "RewriteRules::apply", "RelayRules::read", "RelayRules::route", "Plan::new", "Plan::send",
    "Reader::feed of lines", "Reader::feed of pickles", "Reader::feed of a datagram",
    "DestQueue::new", "DestQueue::offer", "Hand::new", "Writer::new", "report", "common_order",
    "World::new", "World::apply",
    "DoorBook::new", "OutletBook::new", "DoorBook::offer_under",
    "Queues::new", "LockedDoor::offer", "Queues::settle",
    "InputLog::new", "ReadLoop::new", "ReadLoop::admit", "ReadLoop::serve_one", "ReadLoop::turn",
    "WriteLoop::new", "WriteLoop::turn", "Readiness::new", "Readiness::wait",
    "receive_streams", "receive_datagrams", "send_batches",
)
BY_ROOM = "what it fills was made with its room, and a datapoint is shared"
NEEDS_NONE = {  # why such a call needs no memory
    "Row::point": "the row shares the name that `load` made",
    "DestQueue::offer": BY_ROOM, "DoorBook::offer_under": BY_ROOM, "LockedDoor::offer": BY_ROOM,
    "ReadLoop::admit": BY_ROOM, "WriteLoop::turn": BY_ROOM, "Readiness::wait": BY_ROOM,
}
OUT_OF_MEMORY = ("NoMemory", "Starved", "starved: 1")  # the words of an answer that say it
PROGRAMS = ("growth_rows", "relayd")
BY_LISTS = "std collects into a list: if room for all items is refused, it asks for room for one at a time"
BY_PATTERNS = "`regex` documents that a search does not fail: without memory for its caches it searches in more time"
BY_NAMES = "a plan does without what it remembers of a name"
DOES_WITHOUT = {  # why a call may answer as with ample memory though a growth was refused
    "RewriteRules::read": BY_LISTS, "RelayRules::read": BY_LISTS,
    "RewriteRules::apply": BY_PATTERNS, "RelayRules::route": BY_PATTERNS,
    "Plan::send": f"{BY_PATTERNS}, and {BY_NAMES}",
    "Reader::feed of lines": BY_NAMES, "Reader::feed of pickles": BY_NAMES, "Reader::feed of a datagram": BY_NAMES,
    "World::apply": BY_NAMES, "ReadLoop::serve_one": BY_NAMES, "ReadLoop::turn": BY_NAMES,
    "receive_streams": BY_NAMES, "receive_datagrams": BY_NAMES,
}


class Call(NamedTuple):
    """A call: its name, how it runs with a growth refused, what is wrong with a run, and whether a refused run is owed.

    All but the name are functions: of the library and the growth's number; of a run with ample memory; and of that and a
    refused one.
    """

    name: str
    run: object
    wrong: object
    is_owed: object


def shown(ran):
    """The lines that a row printed, without those that bound its calls."""
    return [line for line in ran.out.decode().splitlines() if line not in ("call", "done")]


def first_difference(lines, wanted):
    """The first place in which two lists of lines differ, with both lines, or nothing."""
    pairs = enumerate(itertools.zip_longest(lines, wanted), 1)
    return next((f"line {place} is {line!r}, not {other!r}" for place, (line, other) in pairs if line != other), None)


def wanted_of(name):
    """The lines of a row in the table."""
    return worked_rows.ROWS[name].splitlines()


def is_owed_by_row(name, ran):
    """Whether a row was refused one of its calls, had then what it had before, and went on as with ample memory."""
    if ran.status != 0:
        return False
    lines, wanted = shown(ran), wanted_of(name)
    if lines == wanted:
        return name in DOES_WITHOUT
    pairs = enumerate(zip(lines, wanted))
    refused_at = next((place for place, (line, other) in pairs if line != other), None)
    if refused_at is None or not is_refusal(lines[refused_at]):
        return False
    answers = [place for place, line in enumerate(wanted[:refused_at]) if line.startswith("answer ")]
    call = answers[-1] + 1 if answers else 0
    return any(lines[refused_at + 1:] == wanted[start:] for start in starts(wanted, call))


def starts(wanted, call):
    """Where a call may begin again: at what it is given, which stands between its own answer and the one before."""
    yield call
    for place in range(call, len(wanted)):
        if wanted[place].startswith("answer "):
            return
        yield place + 1


def is_refusal(answer):
    """Whether the answer of a call is that it was out of memory, or that a connection was starved of it."""
    return answer.startswith("answer ") and any(word in answer for word in OUT_OF_MEMORY)


def is_owed_by_command(ample, ran):
    """Whether a command ended out of memory, having written a first part of its output, or did without."""
    is_ended = (ran.status, ran.err) == (4, b"relayd: no memory\n") and ample.out.startswith(ran.out)
    return is_ended or ran[:3] == ample[:3]


def is_owed_by_relay(ample, ran):
    """Whether a relay ended out of memory, or settled; then the lines of all connections but one arrived."""
    if (ran.status, ran.err) == (4, b"relayd: no memory\n"):
        return True
    lines = ample.taken
    one_less = [lines[:place] + lines[place + 1:] for place in range(len(lines))]
    return ran[:3] == ample[:3] and ran.taken in (lines, *one_less)


def try_call(pool, library, call):
    """Refuses each growth of a call in turn. Gives its line, and whether all was as owed."""
    ample = call.run(library, 0)
    if ample.status != 0 or ample.err:
        return f"{call.name}: with ample memory: status {ample.status}, standard error {ample.err!r}", False
    if wrong := call.wrong(ample):
        return f"{call.name}: with ample memory: {wrong}", False
    if call.name in worked_rows.ROWS and call.name not in ROWS:
        return f"{call.name}: as owed", True
    count, without = 0, 0
    for first in range(1, MOST, AT_ONCE):
        growths = range(first, first + AT_ONCE)
        for ran in pool.map(lambda growth: call.run(library, growth), growths):
            if not ran.refused:
                return line_of(call.name, count, without)
            count += 1
            if not call.is_owed(ample, ran):
                return f"{call.name}: growth {count} refused: {ran}", False
            without += ran[:3] == ample[:3]
    return f"{call.name}: more than {MOST} growths", False


def line_of(name, count, without):
    """The line of a call that ran through after this number of growths, and whether it is as owed."""
    if name in NEEDS_NONE:
        return f"{name}: growths {count}: {NEEDS_NONE[name]}", count == 0
    if count == 0:
        return f"{name}: it met no growth", False
    if without == count:
        return f"{name}: growths {count}, and it answered out of memory at none of them", False
    done_without = f", done without {without} of them" if without else ""
    return f"{name}: growths {count}, refused {count}, all as owed{done_without}", True


def rows_of(path):
    """The rows of the program; and a line for each call or row of the table that has none, and for each that is in no
    table."""
    printed = subprocess.run([path], capture_output=True, check=True, text=True).stdout.splitlines()
    faults = [f"{name}: it has no row" for name in {*ROWS, *worked_rows.ROWS} if name not in printed]
    faults += [f"{name}: it is not in the table of rows" for name in {*ROWS, *printed} if name not in worked_rows.ROWS]
    return [row(path, name) for name in printed if name in worked_rows.ROWS], faults


def row(path, name):
    """The call of a row."""
    def run(library, growth):
        return refused.run_once((path, name), b"", library, growth, True)

    def wrong(ample):
        return first_difference(shown(ample), wanted_of(name))

    def is_owed(_ample, ran):
        return is_owed_by_row(name, ran)

    return Call(name, run, wrong, is_owed)


def command(given, wanted, *words):
    """The call of a command of `relayd`, with its standard input, and what it writes of it."""
    def run(library, growth):
        return refused.run_once(words, given, library, growth)

    def wrong(ample):
        return first_difference([ample.out], [wanted])

    return Call(f"relayd {words[1]}", run, wrong, is_owed_by_command)


SCRIPT = "reader line\npiece 0 9 612e78203120350a612e79203220350a\nup 0\noffer 0\noffer 0\ntake 0\nwrote 0 8\n"
REPLAYED = b"""handed 0 0 612e78203120350a
destination 127.0.0.1:3001 queued 0 offered 2 kept 1 dropped 1 taken 1
destination 127.0.0.1:3002 queued 0 offered 0 kept 0 dropped 0 taken 0
reader 0 waiting 0 bad lines 0 bad pickles 0 bad rows 0 bad names 0
"""
LINE = b"a.b 42 1700000000\n"


def wrong_relay(ample):
    """What is wrong with the run of a relay: it settles, and the lines of all connections arrive."""
    return first_difference([ample.out, *ample.taken], [b"ready\nsettled\n", *refused.LINES])


def commands(relayd, folder):
    """The commands of `relayd`."""
    for role, text in {"config": SETTINGS, "rules": RULES, "rewrite": REWRITE, "script": SCRIPT}.items():
        with open(os.path.join(folder, role), "w", encoding="utf-8") as file:
            file.write(text)
    ports = refused.port_lists(AT_ONCE)
    options = [word for role in ("config", "rules", "rewrite") for word in (f"--{role}", os.path.join(folder, role))]
    return [
        command(LINE, LINE, relayd, "pass"),
        command(b"", b"ok 2 destinations\n", relayd, "check", *options),
        command(b"", b"web1.system.cpu 127.0.0.1:3002\n", relayd, "route", *options, "collectd.web1.cpu"),
        command(b"", REPLAYED, relayd, "replay", *options, os.path.join(folder, "script")),
        Call("relayd run", lambda library, growth: refused.run_relay(relayd, ports, library, growth), wrong_relay,
             is_owed_by_relay),
    ]


def words():
    """The words of the command line."""
    parser = argparse.ArgumentParser(description="Every growth of memory refused once.")
    for name in PROGRAMS:
        parser.add_argument(f"--{name}", metavar="PATH", help=f"the program (default: that of crates/{name})")
    parser.add_argument("names", metavar="NAME", nargs="*", help="the calls to make (default: all)")
    return parser.parse_args()


def try_all(calls, library):
    """Tries calls, prints their lines, and gives how many passed."""
    passed = 0
    with concurrent.futures.ThreadPoolExecutor(AT_ONCE) as pool:
        for call in calls:
            line, is_owed = try_call(pool, library, call)
            print(line, flush=True)
            passed += is_owed
    return passed


def main():
    """Compiles the library, makes all calls, and gives the status."""
    given = words()
    paths = {name: program.find(name, getattr(given, name)) for name in PROGRAMS}
    if None in paths.values():
        print("0 passed, 1 failed")
        return 1
    calls, faults = rows_of(paths["growth_rows"])
    for fault in faults:
        print(fault)
    with tempfile.TemporaryDirectory() as folder:
        calls += commands(paths["relayd"], folder)
        calls = [call for call in calls if not given.names or call.name in given.names]
        passed = try_all(calls, refused.compiled(folder))
    failed = len(calls) - passed + len(faults)
    print(f"{passed} passed, {failed} failed")
    return 0 if failed == 0 else 1


if __name__ == "__main__":
    sys.exit(main())
