#!/usr/bin/env python3
"""Prints the table of docs/BENCH.md from that of `bench/relaying.py --table`: a row for each relay of each scene.

    python3 bench/page.py TABLE

The ratios come first: how many times the datapoints a second of the other relay relayd handed on, and which part of
its processor time a datapoint took.
"""

import csv
import sys

from relaying import SCENES

OURS = "relayd"


def scenes_of(path):
    """The rows of each scene, by the relay's name, in the order of the table."""
    scenes = {}
    with open(path, encoding="ascii", newline="") as file:
        for row in csv.DictReader(file, delimiter="\t"):
            scenes.setdefault(row["scene"], {})[row["relay"]] = row
    return scenes


def ratios(ours, other):
    """The two ratios of a relay to relayd; none for relayd itself, or where no relay stands between."""
    used = float(other["processor seconds a million"])
    times = int(ours["datapoints a second"]) / int(other["datapoints a second"])
    if ours is other:
        return "", ""
    return f"{times:.1f}" if times >= 1 else f"{times:.2f}", f"{float(ours['processor seconds a million']) / used:.2f}" if used else ""


def cells(text, ours, row):
    """A row of the page."""
    middle, least, most = (f"{int(row[column]):,}" for column in ("datapoints a second", "least", "most"))
    return [text, row["relay"], *ratios(ours, row), middle, f"{least}–{most}", row["processor seconds a million"],
            row["megabytes"], f"{row['lost %']} %" if float(row["lost %"]) else "none"]


def main():
    """Prints."""
    if len(sys.argv) != 2:
        sys.exit(__doc__.strip())
    print("| Scene | Relay | Times | Processor | Datapoints a second | Least–most | Processor seconds a million | MB | Lost |")
    print("|---|---|---|---|---|---|---|---|---|")
    for scene, rows in scenes_of(sys.argv[1]).items():
        ours = rows.pop(OURS)
        for text, row in [(SCENES[scene].text, ours), *(("", row) for row in rows.values())]:
            print(f"| {' | '.join(cells(text, ours, row))} |")


if __name__ == "__main__":
    main()
