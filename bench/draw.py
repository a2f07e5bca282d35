#!/usr/bin/env python3
"""Draws the table of `bench/relaying.py --table`: datapoints a second and processor time, a bar for each relay.

    python3 bench/draw.py TABLE PICTURE

It needs gnuplot, which Debian's package gnuplot-nox has; without it a line says so, and the picture stays as it is.
"""

import csv
import shutil
import subprocess
import sys

SCENES = {"one": "one producer, one store", "ring": "eight producers, a ring of four stores"}
BARS = {"datapoints a second": ("Millions of datapoints a second (more is better)", 1e-6),
        "processor seconds a million": ("Processor seconds a million (less is better)", 1)}
COLOURS = {"relayd": "#1b6ca8"}
OTHER = "#b0b0b0"
LEFT_OUT = ("direct",)
HEAD = """set terminal svg size 900,{height} font "sans-serif,12" background "white"
set output "{picture}"
set multiplot layout {rows},2
set style fill solid 1
set boxwidth 0.7
unset key
unset ytics
unset xtics
set border 0
set lmargin 24
set rmargin 4
"""


def rows_of(path):
    """The rows of each scene of the table that is drawn."""
    with open(path, encoding="ascii", newline="") as file:
        rows = [row for row in csv.DictReader(file, delimiter="\t") if row["relay"] not in LEFT_OUT]
    return {scene: [row for row in rows if row["scene"] == scene] for scene in SCENES}


def label_of(row):
    """A relay's name, with what it lost where it lost something. gnuplot prints %% as a percent sign."""
    return row["relay"] + (f"\\n({row['lost %']} %% lost)" if float(row["lost %"]) else "")


def plot(title, scene, rows, column, factor):
    """The words of gnuplot for one of the pictures: bars from the left, the first row at the top."""
    places = list(range(len(rows), 0, -1))
    values = [float(row[column]) * factor for row in rows]
    data = "\n".join(f"{place} {value} {value / 2} {place - 0.35} {place + 0.35} {int(COLOURS.get(row['relay'], OTHER)[1:], 16)}"
                     for place, value, row in zip(places, values, rows))
    tics = ", ".join(f'"{label_of(row)}" {place}' for place, row in zip(places, rows))
    return (f'$data << EOD\n{data}\nEOD\nset title "{scene}\\n{title}" offset -8,0\nset ytics ({tics}) nomirror scale 0\n'
            f"set yrange [0.4:{len(rows) + 0.6}]\nset xrange [0:{max(values) * 1.18}]\n"
            "plot $data using (0):1:(0):2:4:5:6 with boxxyerror lc rgb variable, "
            '$data using 2:1:(sprintf("  %.2f", $2)) with labels left\n')


def main():
    """Draws."""
    if len(sys.argv) != 3:
        sys.exit(__doc__.strip())
    table, picture = sys.argv[1:]
    if shutil.which("gnuplot") is None:
        print(f"bench: gnuplot is missing, so {picture} stays as it is")
        return
    found = {scene: rows for scene, rows in rows_of(table).items() if rows}
    if not found:
        sys.exit(f"bench: {table} has none of the scenes that are drawn: {', '.join(SCENES)}")
    most = max(map(len, found.values()))
    text = HEAD.format(picture=picture, height=len(found) * (70 + 40 * most), rows=len(found))
    for scene, rows in found.items():
        for column, (title, factor) in BARS.items():
            text += plot(title, SCENES[scene], rows, column, factor)
    if subprocess.run(["gnuplot"], input=text, text=True).returncode:
        sys.exit("bench: gnuplot could not draw")
    # gnuplot leaves white space at the ends of lines.
    with open(picture, encoding="utf-8") as file:
        lines = [line.rstrip() for line in file]
    with open(picture, "w", encoding="utf-8") as file:
        file.write("\n".join(lines).strip() + "\n")


if __name__ == "__main__":
    main()
