#!/usr/bin/env python3
"""Compares what relayd and carbon make of metric names: where they are sent, and how they are rewritten.

    compare_with_carbon.py routes --carbon carbon.conf [--instance NAME] [--carbon-rules FILE] [--port OLD=NEW ..]
                                  [--whitelist FILE] [--blacklist FILE] [--aggregation-rules FILE]
                                  --config relay.conf [--rules FILE] [--rewrite FILE] NAMES
    compare_with_carbon.py rewrites REWRITE NAMES

NAMES is a file of names, one a line. `routes` asks carbon's own code, for the files that carbon has, and `relayd
route --names`, for those that relayd has. It does what carbon-relay does before its router too: with USE_WHITELIST it
drops what carbon's whitelist and blacklist drop (--whitelist, --blacklist), and with TAG_RELAY_NORMALIZED it sorts the
tags of a name. The methods that route by what a name is aggregated to need --aggregation-rules. It refuses to compare what
depends on more than names: DESTINATION_POOL_REPLICAS. --instance is that of carbon-relay: carbon lets the section [relay:NAME] override [relay], and [relay:a] without an instance. --port says which
port of carbon's files is which port of relayd's, as in 2004=2003. The order of destinations makes no difference.
`rewrites` asks carbon's own rewriting, which carbon-aggregator uses, and relayd, of one file of rewrite rules.

Run it with the Python that carbon uses. The status is 0 if all names agree, 1 if some differ, and 2 if the
comparison could not be made, or an option would do nothing. Only the first differences are shown, unless --all is
given.
"""

import argparse
import configparser
import importlib
import os
import re
import subprocess
import sys
import tempfile
from typing import NamedTuple

SHOWN = 3
DESTINATION = re.compile(r"[A-Za-z0-9._-]+:\d{1,5}(:[A-Za-z0-9._-]+)?")
BAD_NAME = re.compile(rb"relayd: name: line (\d+): BadName")
WHITE = b"\t\x0b\x0c\r "
DEFAULT_RULES = "relay-rules.conf"
CARBON_FOLDERS = ("/opt/graphite/lib", "/usr/lib/python3/dist-packages")
ONE_STORE = """[relay]
DESTINATIONS = store:1
RELAY_METHOD = consistent-hashing
USE_FLOW_CONTROL = false
DESTINATION_PROTOCOL = line
"""


class Made(NamedTuple):
    """What a relay makes of a name: the name that its stores get, None if it drops it, and its destinations."""

    name: str
    destinations: list

    def differs(self, other):
        """Whether other destinations get the name, or the same ones another name."""
        return self.name != other.name or set(self.destinations) != set(other.destinations)

    def shown(self, given):
        """The destinations, after the name if it is not the given one."""
        if self.name is None:
            return "dropped"
        return " ".join(([self.name] if self.name != given else []) + self.destinations)


class Missing(Exception):
    """What the comparison needs and does not find."""


class Useless(Exception):
    """An option that would do nothing."""


def arguments():
    """The words of the command line."""
    parser = argparse.ArgumentParser(description="Compares relayd with carbon, name by name.")
    anywhere(parser, relayd="relayd", all=False)
    kinds = parser.add_subparsers(dest="kind", required=True)
    routes = kinds.add_parser("routes", help="compares destinations")
    routes.add_argument("--carbon", required=True, metavar="FILE", help="carbon.conf, of which [relay] is read")
    routes.add_argument("--instance", metavar="NAME",
                        help="the instance of carbon-relay, whose section [relay:NAME] is read over [relay]")
    routes.add_argument("--carbon-rules", metavar="FILE", help="carbon's relay-rules.conf, with RELAY_METHOD rules")
    routes.add_argument("--aggregation-rules", metavar="FILE",
                        help="carbon's aggregation-rules.conf, with a RELAY_METHOD that aggregates")
    routes.add_argument("--port", action="append", default=[], type=port_pair, metavar="OLD=NEW",
                        help="a port of carbon's files, and the port that relayd's have in its place")
    routes.add_argument("--whitelist", metavar="FILE", help="carbon's whitelist.conf, with USE_WHITELIST")
    routes.add_argument("--blacklist", metavar="FILE", help="carbon's blacklist.conf, with USE_WHITELIST")
    routes.add_argument("--config", required=True, metavar="FILE", help="relayd's configuration file")
    routes.add_argument("--rules", metavar="FILE", help="relayd's relay rules")
    routes.add_argument("--rewrite", metavar="FILE", help="relayd's rewrite rules")
    routes.add_argument("names", metavar="NAMES", help="a file of names, one a line")
    rewrites = kinds.add_parser("rewrites", help="compares rewritten names")
    rewrites.add_argument("rules", metavar="REWRITE", help="a file of rewrite rules, which both read")
    rewrites.add_argument("names", metavar="NAMES", help="a file of names, one a line")
    for kind in (routes, rewrites):
        anywhere(kind, relayd=argparse.SUPPRESS, all=argparse.SUPPRESS)
    return parser.parse_args()


def anywhere(parser, **defaults):
    """The options that are taken before the first word and after it."""
    parser.add_argument("--relayd", default=defaults["relayd"], metavar="PROGRAM",
                        help="the program relayd (default: the one on the PATH)")
    parser.add_argument("--all", action="store_true", default=defaults["all"], help="shows all differences")


def port_pair(text):
    """A port and the one in its place."""
    old, equals, new = text.partition("=")
    if not (equals and old.isdecimal() and new.isdecimal()):
        raise argparse.ArgumentTypeError(f"{text} is not OLD=NEW")
    return int(old), int(new)


# ---- carbon

def import_carbon():
    """Makes carbon's modules known, where they are installed."""
    sys.path += [folder for folder in CARBON_FOLDERS if folder not in sys.path]
    try:
        importlib.import_module("carbon.routers")
    except ImportError as error:
        raise Missing(f"carbon's Python modules cannot be used ({error}). Debian's package graphite-carbon has "
                      "them. Run this script with the Python that carbon runs with, as /usr/bin/python3.") from error


def carbon_settings(words):
    """carbon's settings, as carbon-relay reads them for an instance."""
    from carbon.conf import Settings
    from carbon.exceptions import CarbonConfigException

    settings, sections = Settings(), configparser.ConfigParser()
    section = f"relay:{words.instance or 'a'}"
    try:
        settings.readFrom(words.carbon, "relay")
        settings.readFrom(words.carbon, section)
        sections.read(words.carbon)
    except (CarbonConfigException, configparser.Error) as error:
        raise Missing(f"carbon cannot read {words.carbon}: {error}") from error
    if words.instance and not sections.has_section(section):
        raise Useless(f"--instance {words.instance}: {words.carbon} has no section [{section}]")
    look_at_rules(settings, words)
    settings["relay-rules"], settings["aggregation-rules"] = words.carbon_rules, words.aggregation_rules
    if settings.DESTINATION_POOL_REPLICAS:
        raise Missing("carbon's DESTINATION_POOL_REPLICAS is on: carbon sends a datapoint to the shortest queue, so names "
                      "alone do not say where")
    lists = words.whitelist or words.blacklist
    if settings.USE_WHITELIST and not lists:
        raise Missing("carbon's USE_WHITELIST is on: give --whitelist FILE or --blacklist FILE, or both, as carbon has them")
    if lists and not settings.USE_WHITELIST:
        raise Useless("--whitelist, --blacklist: carbon's USE_WHITELIST is off")
    return settings


def look_at_rules(settings, words):
    """Refuses where the method needs a file of rules that is not given, or reads none of one that is."""
    method = settings.RELAY_METHOD
    for option, path, is_read in (("--carbon-rules", words.carbon_rules, method == "rules"),
                                  ("--aggregation-rules", words.aggregation_rules, "aggregated" in method)):
        if is_read and path is None:
            raise Missing(f"carbon's RELAY_METHOD is {method}: give {option} FILE")
        if path is not None and not is_read:
            raise Useless(f"{option}: carbon's RELAY_METHOD is {method}, which reads no such rules")
    named = os.path.basename(settings.RELAY_RULES)
    if words.carbon_rules and named not in (DEFAULT_RULES, os.path.basename(words.carbon_rules)):
        raise Missing(f"carbon's RELAY_RULES is {settings.RELAY_RULES}: give a file of this name as --carbon-rules")


def regex_list(path):
    """A list of carbon's patterns, as carbon reads it; without a file it is empty."""
    from carbon.regexlist import RegexList

    found = RegexList()
    if path:
        with open(path, encoding="utf-8"):  # carbon takes a missing file for an empty one
            found.list_file = path
            found.read_list()
    return found


def carbon_names(names, settings, words):
    """What carbon makes of each name before its router; None if it drops it."""
    from carbon.util import TaggedSeries

    whitelist, blacklist = regex_list(words.whitelist), regex_list(words.blacklist)

    def routed(name):
        if (blacklist and name in blacklist) or (whitelist and name not in whitelist):
            return None
        if settings.TAG_RELAY_NORMALIZED:
            try:
                return TaggedSeries.parse(name).path
            except Exception:  # as carbon does: it routes the name as it is
                return name
        return name

    return [routed(name) for name in names]


def carbon_router(settings):
    """carbon's router of the method in its settings."""
    from carbon.routers import DatapointRouter

    method = settings.RELAY_METHOD
    if method not in DatapointRouter.plugins:
        raise Missing(f"carbon has no RELAY_METHOD {method}")
    path = settings["aggregation-rules"]
    if path and not os.path.isfile(path):  # carbon takes a missing file for an empty one
        raise Missing(f"{path}: No such file")
    return DatapointRouter.plugins[method](settings)


def asked(call, *given):
    """What a call of carbon's code returns."""
    try:
        return call(*given)
    except Exception as error:  # of any kind, such as a hash for which a module is missing
        raise Missing(f"carbon itself fails: {error!r}") from error


def carbon_routes(names, words):
    """What carbon makes of each name: its name in the stores, None if it is dropped, and its destinations."""
    import_carbon()
    from carbon.util import parseDestinations

    settings = carbon_settings(words)
    router = carbon_router(settings)
    destinations = parseDestinations(settings.DESTINATIONS)
    for destination in destinations:
        asked(router.addDestination, destination)
    ports = {}
    for old, new in words.port:
        if old in ports:
            raise Useless(f"--port {old}={new}: {old} was given already")
        if old not in [port for _, port, _ in destinations]:
            raise Useless(f"--port {old}={new}: carbon's DESTINATIONS have no port {old}")
        ports[old] = new

    def text(destination):
        host, port, instance = destination
        parts = [host, str(ports.get(port, port))] + ([] if instance is None else [instance])
        return ":".join(parts)

    def route(name):
        return [] if name is None else list(dict.fromkeys(map(text, asked(lambda: list(router.getDestinations(name))))))

    return [Made(name, route(name)) for name in carbon_names(names, settings, words)]


def carbon_rewrites(names, rules):
    """Each name after carbon's rewriting."""
    import_carbon()
    from carbon.rewrite import RewriteRuleManager

    RewriteRuleManager.rules_file = rules
    RewriteRuleManager.read_rules()
    found = []
    for name in names:
        for section in ("pre", "post"):
            for rule in RewriteRuleManager.rules(section):
                name = rule.apply(name)
        found.append(name)
    return found


# ---- relayd

def called(words, options):
    """How a run of relayd ended."""
    try:
        return subprocess.run([words.relayd, *options], stdin=subprocess.DEVNULL, capture_output=True, check=False)
    except OSError as error:
        raise Missing(f"{words.relayd} cannot be run ({error.strerror}): give --relayd PROGRAM") from error


def relayd_lines(words, options, path):
    """The good names of a file, and the line that `relayd route --names` writes of each."""
    ran = called(words, ["route", *options, "--names", path])
    if ran.returncode != 0:
        raise Missing(ran.stderr.decode(errors="replace").strip())
    bad = {int(number) for number in BAD_NAME.findall(ran.stderr)}
    with open(path, "rb") as file:
        lines = [line.strip(WHITE) for line in file.read().split(b"\n")]
    names = [line.decode() for number, line in enumerate(lines, 1) if line and number not in bad]
    for number in sorted(bad):
        print(f"line {number} is no metric name: {lines[number - 1].decode(errors='backslashreplace')[:120]}")
    return names, [line.split(" ") for line in ran.stdout.decode().splitlines()]


def made_of(line):
    """What a line of `relayd route --names` says."""
    name, *rest = line
    if rest == ["dropped"]:
        return Made(None, [])
    if rest and not DESTINATION.fullmatch(rest[0]):
        name, *rest = rest
    return Made(name, rest)


def relayd_routes(words):
    """The good names of a file, and what relayd makes of each."""
    options = ["--config", words.config]
    if words.rules:
        if called(words, ["check", *options]).returncode == 0:
            raise Useless(f"--rules: relayd's RELAY_METHOD in {words.config} is not rules")
        options += ["--rules", words.rules]
    if words.rewrite:
        options += ["--rewrite", words.rewrite]
    names, lines = relayd_lines(words, options, words.names)
    return names, [made_of(line) for line in lines]


def relayd_rewrites(words):
    """The good names of a file, and each after relayd's rewriting; None where it is dropped."""
    with tempfile.TemporaryDirectory() as folder:
        config = os.path.join(folder, "relay.conf")
        with open(config, "w", encoding="ascii") as file:
            file.write(ONE_STORE)
        names, lines = relayd_lines(words, ["--config", config, "--rewrite", words.rules], words.names)
    # NAME store:1 where it stays, OLD NEW store:1 where it is rewritten, OLD dropped
    return names, [line[-2] if line[-1] == "store:1" else None for line in lines]


# ---- the comparison

def show(names, carbon, relayd, differ, shown):
    """Prints the first names that differ, with what each side has for them."""
    for place in differ[:shown]:
        print(f"{names[place]}\n  carbon: {carbon[place]}\n  relayd: {relayd[place]}")
    if len(differ) > shown:
        print(f"({len(differ) - shown} more, which --all shows)")


def with_two_on_one_host(routes):
    """How many routes have two destinations on one host."""
    hosts = [[destination.split(":")[0] for destination in route.destinations] for route in routes]
    return sum(len(set(each)) < len(each) for each in hosts)


def compare_routes(words):
    """Compares destinations, and gives how many names differ."""
    names, relayd = relayd_routes(words)
    carbon = carbon_routes(names, words)
    differ = [place for place in range(len(names)) if carbon[place].differs(relayd[place])]
    show(names, *([made.shown(name) for name, made in zip(names, side)] for side in (carbon, relayd)), differ,
         len(differ) if words.all else SHOWN)
    print(f"names with two copies on one host: {with_two_on_one_host(carbon)} in carbon, "
          f"{with_two_on_one_host(relayd)} in relayd")
    moved = [place for place in differ if set(carbon[place].destinations) != set(relayd[place].destinations)]
    renamed = len(differ) - len(moved)
    print(f"{len(names)} names, {len(moved)} with other destinations" + (f", {renamed} with another name" if renamed else ""))
    return len(differ)


def compare_rewrites(words):
    """Compares rewritten names, and gives how many differ."""
    names, relayd = relayd_rewrites(words)
    carbon = carbon_rewrites(names, words.rules)
    differ = [place for place in range(len(names)) if carbon[place] != relayd[place]]
    show(names, [name or "an empty name" for name in carbon], [name or "dropped" for name in relayd], differ,
         len(differ) if words.all else SHOWN)
    print(f"{len(names)} names, {len(differ)} with another result")
    return len(differ)


def main():
    words = arguments()
    try:
        differ = compare_routes(words) if words.kind == "routes" else compare_rewrites(words)
    except (Missing, Useless, OSError) as error:
        print(f"compare_with_carbon.py: {error}", file=sys.stderr)
        return 2
    return 1 if differ else 0


if __name__ == "__main__":
    sys.exit(main())
