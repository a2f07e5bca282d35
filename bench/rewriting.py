#!/usr/bin/env python3
"""What rewriting a name costs: `relayd route --names` beside a C program with the same names and rules.

    python3 bench/rewriting.py [--relayd PATH] [--rounds N] [--names N]

Each program reads the same file of names and writes to /dev/null. Its processor time is taken with no rule, with ten
rules of which one matches each name, and with ten that match none; the difference to no rule, by the names, is what
the rules cost.
The C program uses PCRE2 where its header is there (Debian's libpcre2-dev), and the C library's regexec.
"""

import os
import random
import shutil
import statistics
import subprocess

from shared import DATA, HERE, demand, missing, options

NAMES = os.path.join(DATA, "names.txt")
CONFIG = os.path.join(DATA, "rewriting.conf")
BARS = {"one matches": 1.5, "none matches": 0.5}  # microseconds a name

SETTINGS = """[relay]
DESTINATIONS = 127.0.0.1:2004
RELAY_METHOD = consistent-hashing
USE_FLOW_CONTROL = false
DESTINATION_PROTOCOL = line
"""

OTHERS = [
    r"^statsd\.timers\. = timers.",
    r"\.loadavg\.(01|05|15)$ = .load.\1",
    r"^servers\.([^.]+)\.disk\. = disks.\1.",
    r"-total$ = .all",
    r"^carbon\.agents\. = carbon.",
    r"\.temp-([0-9]+)\. = .temp.\1.",
    r"^haproxy\.(frontend|backend)\. = proxy.\1.",
    r"^test\..*\.tmp$ = dropped",
    r"[0-9]{8} = day",
]

RULES = {
    "no rule": [],
    "one matches": [r"^collectd\.([a-z0-9]+)\. = \1.system."] + OTHERS,
    "none matches": [r"^nagios\.([a-z0-9]+)\. = \1.system."] + OTHERS,
}

WHAT = ["interface-eth0.if_octets.rx", "memory.memory-used", "df-root.percent_bytes-free", "swap.swap_io-in",
        "processes.ps_state-running", "cpu-3.cpu-idle", "tcpconns-80-local.ESTABLISHED", "irq.irq-LOC"]


def path_of(rules):
    """The file of these rules."""
    return os.path.join(DATA, rules.replace(" ", "_") + ".rules")


def prepare(count):
    """Writes the names, the settings and the rules."""
    os.makedirs(DATA, exist_ok=True)
    pick = random.Random(11)
    with open(NAMES, "w", encoding="ascii") as file:
        for _ in range(count):
            host = f"{pick.choice(['web', 'db', 'cache'])}{pick.randrange(1, 400)}"
            file.write(f"collectd.{host}.{pick.choice(WHAT)}\n")
    with open(CONFIG, "w", encoding="ascii") as file:
        file.write(SETTINGS)
    for rules, lines in RULES.items():
        with open(path_of(rules), "w", encoding="ascii") as file:
            file.write("[pre]\n" + "".join(line + "\n" for line in lines))


def c_programs():
    """The C programs that can be built here, by what they search with."""
    gcc = shutil.which("gcc")
    if gcc is None:
        print("bench: gcc is missing, so the C programs are left out")
        return {}
    built = {}
    for name, flags, libraries in (("PCRE2", ["-DPCRE2"], ["-lpcre2-8"]), ("regexec", [], [])):
        program = os.path.join(DATA, "rewriting_" + name.lower())
        words = [gcc, "-std=c11", "-O2", *flags, "-o", program, os.path.join(HERE, "rewriting.c"), *libraries]
        if subprocess.run(words, stderr=subprocess.DEVNULL, check=False).returncode:
            print(f"bench: the C program with {name} cannot be built here, and is left out")
        else:
            built["C, " + name] = program
    return built


def relayd_words(relayd, rules):
    """How relayd rewrites and routes the names."""
    return [relayd, "route", "--names", NAMES, "--config", CONFIG, "--rewrite", path_of(rules)]


def has_names(relayd):
    """Whether this relayd routes a file of names."""
    if not os.access(relayd, os.X_OK):
        return False
    asked = subprocess.run([relayd, "route", "--help"], capture_output=True, text=True, check=False)
    return "--names" in asked.stdout


def new_names(words, after):
    """The name of each line: the last word but `after`, since relayd writes a destination after it."""
    made = subprocess.run(words, capture_output=True, check=True)
    return [line.split(b" ")[-1 - after] for line in made.stdout.splitlines()]


def seconds(words):
    """How much of a processor a program takes: each has one thread, and other work beside it counts for less so."""
    process = subprocess.Popen(words, stdout=subprocess.DEVNULL)
    _, status, usage = os.wait4(process.pid, 0)
    process.returncode = os.waitstatus_to_exitcode(status)
    if process.returncode:
        missing(f"{words[0]} failed")
    return usage.ru_utime + usage.ru_stime


def main():
    """Prepares, compares what is written, measures in turn, prints."""
    parser = options("What rewriting a name costs.", "--relayd", "relayd")
    parser.add_argument("--names", metavar="N", type=int, default=500_000)
    given = parser.parse_args()
    relayd = given.relayd
    prepare(given.names)

    programs = {}
    if has_names(relayd):
        demand(relayd)
        programs["relayd"] = lambda rules: relayd_words(relayd, rules)
    else:
        print("bench: relayd is not there, or its route takes no --names: it is left out")
    for name, program in c_programs().items():
        programs[name] = lambda rules, program=program: [program, path_of(rules), NAMES]
    for rules in RULES:
        written = {name: new_names(words(rules), int(name == "relayd")) for name, words in programs.items()}
        if any(lines != next(iter(written.values())) for lines in written.values()):
            missing(f"with {rules} the programs do not write the same names")

    runs = {(name, rules): [] for name in programs for rules in RULES}
    for _ in range(given.rounds):
        for name, words in programs.items():
            for rules in RULES:
                runs[name, rules].append(seconds(words(rules)))
    print(f"{given.names:,} names, ten rules, {given.rounds} rounds, same names from all programs")
    print(f"{'':12}" + "".join(f"{rules:>16}" for rules in BARS) + "   (microseconds a name)")
    for name in programs:
        none = statistics.median(runs[name, "no rule"])
        cost = {rules: (statistics.median(runs[name, rules]) - none) / given.names * 1e6 for rules in BARS}
        print(f"{name:12}" + "".join(f"{cost[rules]:16.2f}" for rules in BARS))
        if name == "relayd":
            for rules, bar in BARS.items():
                print(f"relayd, {rules}, at most {bar}:", "held" if cost[rules] <= bar else "NOT HELD")


if __name__ == "__main__":
    main()
