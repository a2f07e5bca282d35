"""Lists of rows that Python pickles, for the end-to-end cases, and as examples for the definition of what Python writes.

What a list is to give comes from its rows, by the rules of docs/FORMATS.md, and from nothing that relayd answers.

`crates/pickle_subset/specs` has lists of rows with what Python writes of them, each object with a number of its own, as
`id` distinguishes them, in a file for each subject; `PythonExamples.antt` names them all, and it is proved that the
definition writes the same bytes. `PythonParts.antt`, which is written by hand, has what they are made of.

    python3 e2e/pickles.py          checks that the examples are those that Python makes
    python3 e2e/pickles.py write    writes them
"""

import itertools
import math
import pickle
import re
import struct
import sys
import textwrap
from pathlib import Path

from fixtures import decimals

TOP = Path(__file__).resolve().parent.parent
SPECS = TOP / "crates/pickle_subset/specs"


def exact(number):
    """The exact number that a pickled value or time is; None where it is none, as a whole number of over eight bytes."""
    if isinstance(number, str):
        return decimals.number(number)
    if isinstance(number, float):
        return decimals.binary64(bits_of(number))
    return number if number is not None and -(2**63) <= number < 2**63 else None


def bits_of(number):
    return int.from_bytes(struct.pack(">d", number), "big")


def line(row):
    """The line of a row, whose time is not -1; None where it gives no datapoint."""
    path, (time, value) = row
    if not path or any(ord(c) <= 32 or ord(c) == 127 for c in path):
        return None
    units, seconds = decimals.units(exact(value)), decimals.seconds(exact(time), None)
    if units is None or seconds is None:
        return None
    return f"{path} {decimals.printed(units)} {seconds}\n".encode()


def many(count):
    return [(f"servers.web{i % 7}.cpu{i}.load", (1700000000 + 60 * i, i * i)) for i in range(count)]


def shared(count):
    path = "servers.web1.cpu.load"
    return [(path, (1700000000 + i, i)) for i in range(count)]


# Lists of rows that are read, each with the protocols that can write it so.
LISTS = [
    ("one row", [("a.b", (1700000000, 42))], range(1, 6)),
    ("two rows", [("a.b", (1700000000, 42)), ("a.c", (1700000001, 7))], range(1, 6)),
    ("four rows", many(4), range(1, 6)),
    ("shared texts", shared(5), range(1, 6)),
    ("a binary64", [("a.b", (1700000000.75, 42.0)), ("a.c", (1700000001, -7.0))], range(1, 6)),
    ("binary64s with a fraction", [("a.b", (1700000000, 0.5)), ("a.c", (1700000001.9, -0.1))], range(1, 6)),
    ("binary64s of few and of many bits", [("a.b", (1, 1 / 2048)), ("a.c", (2, 3 / 2048)), ("a.d", (3, 5e-324)), ("a.e", (4, -0.0))],
     range(1, 6)),
    ("binary64s at the end of the range and past it", [("a.b", (1, math.inf)), ("a.c", (2, math.nan)), ("a.d", (3, 2.0**63)), ("a.e", (4, -1e19))],
     range(1, 6)),
    ("texts as numbers", [("a.b", ("1700000000", "42")), ("a.c", (1700000001, "-7"))], range(1, 6)),
    ("bytes beside each other", [("a.é", (1700000000, 255)), ("a.c", (65535, 256))], range(1, 6)),
    ("below zero", [("a.b", (1700000000, -1)), ("a.c", (1700000001, -2147483648))], range(1, 6)),
    ("long numbers", [("a.b", (1700000000, 2**40)), ("a.c", (2**53, -(2**63))), ("a.d", (1, 2**63 - 1))], range(2, 6)),
    ("too long numbers", [("a.b", (1700000000, 2**70)), ("a.c", (2**53 + 1, 1)), ("a.d", (1, 2))], range(2, 6)),
    ("truth values", [("a.b", (1700000000, True)), ("a.c", (1700000001, False))], range(2, 6)),
    ("nothing as a value", [("a.b", (1700000000, None)), ("a.c", (1700000001, 3))], range(1, 6)),
    ("a name that is none", [("a b", (1700000000, 1)), ("", (1, 1)), ("a.c", (1700000001, 3))], range(1, 6)),
    ("no rows", [], range(1, 6)),
]


# What is no list of rows, or holds an opcode that is not read.
def others():
    row = ("a.b", (1700000000, 42))
    for protocol in range(1, 6):
        yield "a tuple of three in a row", protocol, [("a.b", (1, 2, 3))]
        yield "a row in a row", protocol, [(("a.b", (1, 2)), (1, 2))]
        yield "a list in a row", protocol, [("a.b", [1700000000, 42])]
        yield "rows in a tuple", protocol, (row, row)
        yield "a dictionary", protocol, {"a.b": 42}
        yield "a text alone", protocol, "a.b"
        yield "a name of bytes", protocol, [(b"a.b", (1700000000, 42))]
    yield "text opcodes", 0, [row]
    yield "a call", 2, Called()


class Called:
    """What pickles as a call of a function, GLOBAL and REDUCE."""

    def __reduce__(self):
        return (print, ("never called",))


# Lists of rows as examples of what Python writes, by subject, each with the protocols that can write it so.
WRITTEN = {
    "PythonRows": ("no row, one and two", [
        ("none", [], range(1, 6)),
        ("one", [("a.b", (1700000000, 42))], range(1, 6)),
        ("two", [("a.b", (1700000000, 256)), ("a.c", (65536, -1))], range(1, 6)),
    ]),
    "PythonScalars": ("texts, binary64s, nothing and long numbers", [
        ("scalars", [("a.é", ("1", 2.5)), ("a.c", (-129.0, None))], range(1, 6)),
        ("floats", [("a", (1700000000.5, 0.1)), ("b", (math.inf, math.nan)), ("c", (-0.0, 5e-324))], (1, 4)),
        ("long", [("a", (2**31, -(2**31) - 1)), ("b", (2**40, -(2**47) - 1)), ("c", (2**63 - 1, -(2**63)))], range(2, 6)),
    ]),
    "PythonSharing": ("objects that are in several places", [
        ("sharing", (lambda row: [row, (row[0], row[1]), (row[0], (2, row[0])), row])(("a", (1, 2))), range(1, 6)),
        ("thousand", [("a", (1, 2))] * 1002, (2,)),
    ]),
    "PythonFrames": ("a text that fills a frame", [
        ("filling", [("a" * 65526, (300, 2)), ("b", (1, 1))], (4, 5)),
    ]),
}

# So many of one byte, or fetches of one object, are written as their number.
LONG_RUN = re.compile(rb"(.|h.)\1{500,}", re.DOTALL)

# The words of `Prelude`, `Python` and `PythonParts` that an example may use, in the order in which a file names them.
PRELUDE = ("pos", "negsuc", "List", "[]", "◌∷◌", "◌++◌", "replicate")
PYTHON = ("Str", "Int", "Float", "Nothing")
PARTS = ("own_row", "times")


def number(value, ids):
    """A time or a value as the definition writes it."""
    if isinstance(value, str):
        return f"Str ({text_of(value, ids)})"
    if isinstance(value, float):
        return f"Float {bits_of(value):#x}"
    if value is None:
        return "Nothing"
    return f"Int (pos {value})" if value >= 0 else f"Int (negsuc {-value - 1})"


def bytes_of(data):
    run = LONG_RUN.fullmatch(data)
    if run and len(run[1]) == 1:
        return f"replicate {len(data)} {data[0]:#04x}"
    if run:
        return f"times {len(data) // 2} ({bytes_of(run[1])})"
    return " ∷ ".join([*(f"{b:#04x}" for b in data), "[]"])


def lines_of(data, words=()):
    """Bytes as lines of twelve, with these words in the place of some; a long run is a line of its own."""
    run = LONG_RUN.search(data)
    if run:
        return (f"    ({lines_of(data[:run.start()], words).strip()})\n    ++ {bytes_of(run[0])}\n"
                f"    ++ ({lines_of(data[run.end():]).strip()})")
    shown = [dict(words).get(at, f"{b:#04x}") for at, b in enumerate(data)]
    rows = [shown[at:at + 12] for at in range(0, len(shown), 12)]
    return "\n".join("    " + ("∷ " if at else "") + " ∷ ".join(row) for at, row in enumerate(rows)) + " ∷ []"


def text_of(text, ids):
    return f"record {{ id = {ids[id(text)]}; text = {bytes_of(text.encode())} }}"


def row_of(row, ids):
    path, pair = row
    place, own = divmod(ids[id(row)], 5)
    if (own, ids[id(path)], ids[id(pair)]) == (1, 5 * place + 2, 5 * place + 3):
        parts = bytes_of(path.encode()), *(number(it, ids) for it in pair)
        return " ".join(["own_row", str(place), *(f"({part})" if " " in part else part for part in parts)])
    return (f"record {{\n        id = {ids[id(row)]};\n        path = {text_of(path, ids)};\n        pair = {ids[id(pair)]};\n"
            f"        time = {number(pair[0], ids)};\n        value = {number(pair[1], ids)};\n      }}")


def rows_of(rows, ids):
    if len(rows) > 1000:
        assert all(row is rows[0] for row in rows)
        return f"      replicate {len(rows)} ({row_of(rows[0], ids)})"
    return "      " + "".join(f"{row_of(row, ids)}\n      ∷ " for row in rows) + "[]"


def objects_of(rows):
    """A number for each object, by the one that `id` gives it."""
    ids = {id(rows): 0}
    for row in rows:
        for it in (row, row[0], row[1], *row[1]):
            ids.setdefault(id(it), len(ids))
    return ids


def head(subject, words):
    comment = f"{subject} Made by e2e/pickles.py with Python's `pickle`."
    return [*textwrap.wrap(comment, 100, initial_indent="-- ", subsequent_indent="-- "),
            f"use Rattle.std.specs.Prelude.{{{', '.join(words)}}}"]


def first_like(protocol):
    """The first protocol that writes the same, but for its number: 3 writes what 2 does, and 5 what 4 does."""
    return protocol if protocol == 1 else protocol // 2 * 2


def bytes_name(name, first):
    """The name of what such protocols write."""
    return f"{name}_1" if first == 1 else f"{name}_from_{first}"


def written_by(name, protocol):
    """What one of them writes."""
    first = first_like(protocol)
    return bytes_name(name, first) + (f" {protocol}" if first > 1 else "")


def definition(name, first, data):
    """The bytes that such protocols write, by the number of one; protocol 1 writes none."""
    name = bytes_name(name, first)
    if first == 1:
        return [f"abbrev pub {name} : List ℕ", f"{name} =", lines_of(data)]
    return [f"abbrev pub {name} : ℕ → List ℕ", f"{name} protocol =", lines_of(data, {1: "protocol"})]


def written(subject, lists):
    """The file of some lists of rows."""
    out = []
    for name, rows, protocols in lists:
        ids = objects_of(rows)
        out += ["", f"abbrev pub {name} : Rows", f"{name} = record {{", "  id = 0;", "  rows =", f"{rows_of(rows, ids)};", "}"]
        for first, those in itertools.groupby(protocols, first_like):
            first_data, *others = (pickle.dumps(rows, protocol=protocol) for protocol in those)
            assert all((data[:1], data[2:]) == (first_data[:1], first_data[2:]) for data in others)
            out += ["", *definition(name, first, first_data)]
    words = set(" ".join(out).replace("++", "◌++◌").replace("(", " ").replace(")", " ").replace(";", " ").split())
    prelude = ["ℕ", *(word for word in PRELUDE if word in words or word == "◌∷◌")]
    python = ["Rows", *(word for word in PYTHON if word in words)]
    parts = [word for word in PARTS if word in words]
    return "\n".join([
        *head(f"What Python writes for lists of rows in each protocol: {subject}.", prelude),
        f"use Rattle.pickle_subset.specs.Python.{{{', '.join(python)}}}",
        *([f"use Rattle.pickle_subset.specs.PythonParts.{{{', '.join(parts)}}}"] if parts else []), *out]) + "\n"


def law():
    """The file of the law that the definition writes all of these."""
    out = [
        *head("The definition writes what Python writes for the examples.", ("◌≡◌",)),
        "use Rattle.pickle_subset.specs.Python.{pickle_of}",
    ]
    told = []
    for file, (_, lists) in WRITTEN.items():
        names = [it for name, _, protocols in lists
                 for it in (name, *dict.fromkeys(bytes_name(name, first_like(p)) for p in protocols))]
        out.append(f"use Rattle.pickle_subset.specs.{file}.{{{', '.join(names)}}}")
        told += [f"(pickle_of {p} {name} ≡ {written_by(name, p)})" for name, _, protocols in lists for p in protocols]
    out += ["", "-- the definition writes what Python writes", "abbrev pub WritesAsPythonLaw : Type 0", "WritesAsPythonLaw ="]
    return "\n".join(out + [("    " if at == 0 else "    × ") + it for at, it in enumerate(told)]) + "\n"


def examples():
    """What is written of each file of examples."""
    return {SPECS / "PythonExamples.antt": law(),
            **{SPECS / f"{file}.antt": written(subject, lists) for file, (subject, lists) in WRITTEN.items()}}


def main():
    made = examples()
    if sys.argv[1:] == ["write"]:
        for path, content in made.items():
            path.write_text(content)
        return
    for path, content in made.items():
        if not path.is_file() or path.read_text() != content:
            sys.exit(f"{path.name} is not what Python's pickle makes: python3 e2e/pickles.py write")
    print("pickles: the examples are those that Python makes")


if __name__ == "__main__":
    main()
