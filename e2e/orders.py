"""Sets of lists with and without a common order, as a table of tests.

Python's topological sort says of each whether there is an order.

    python3 e2e/orders.py          checks what the table says
    python3 e2e/orders.py write    makes it anew
"""

import graphlib
import random
import re
import sys
from pathlib import Path

TABLE = Path(__file__).resolve().parent.parent / "crates/core_tests/src/tests/orders_by_python.rt"
HEAD = "// Made by e2e/orders.py: change that script, and no line from here on."
ORDERED, CROSSED = 90, 60
SEED = 1


def shuffled(numbers, rng):
    """The numbers in another order."""
    numbers = list(numbers)
    rng.shuffle(numbers)
    return numbers


def generated(rng):
    """A set of lists: parts of one order, in most sets with a list or two that may cross it."""
    order = shuffled(range(rng.randint(1, 30)), rng)
    lists = [[number for number in order if rng.random() < 0.4] for _ in range(rng.randint(0, 6))]
    for _ in range(rng.randint(0, 2)):
        lists.append(shuffled(rng.sample(order, min(len(order), rng.randint(0, 3))), rng))
    return lists


def has_order(lists):
    """Whether the lists have a common order, as Python's topological sort finds it."""
    graph = graphlib.TopologicalSorter()
    for numbers in lists:
        for before, after in zip(numbers, numbers[1:]):
            graph.add(after, before)
    try:
        graph.prepare()
    except graphlib.CycleError:
        return False
    return True


def text_of(lists):
    """Lists as the table has them, and behind them how many numbers there are."""
    return "/".join(" ".join(map(str, numbers)) for numbers in lists) + f"={len(set().union(*lists))}"


def made():
    """The rows of both kinds, each set once."""
    rng = random.Random(SEED)
    rows = {True: [], False: []}
    while len(rows[True]) < ORDERED or len(rows[False]) < CROSSED:
        lists = generated(rng)
        kind = has_order(lists)
        if len(rows[kind]) < (ORDERED if kind else CROSSED) and text_of(lists) not in rows[kind]:
            rows[kind].append(text_of(lists))
    return {"ORDERED": rows[True], "CROSSED": rows[False]}


def write():
    """Writes the tables in the place of those that are there."""
    text = TABLE.read_text().partition(HEAD)[0] + HEAD + "\n"
    for name, rows in made().items():
        text += f"\nconst {name}: [&str; {len(rows)}] = [\n" + "".join(f'    "{row}",\n' for row in rows) + "];\n"
    TABLE.write_text(text)


def check():
    """Ends with a row that is in the wrong table, or has the wrong number behind it."""
    tables = re.findall(r"const (\w+): \[&str; (\d+)\] = \[\n(.*?)\];", TABLE.read_text(), re.S)
    found = {name: re.findall(r'"(.*)"', rows) for name, _, rows in tables}
    if {name: len(rows) for name, rows in found.items()} != {"ORDERED": ORDERED, "CROSSED": CROSSED}:
        sys.exit(f"{TABLE.name} has other tables: python3 e2e/orders.py write")
    for name, rows in found.items():
        for row in rows:
            lists = [[int(word) for word in numbers.split()] for numbers in row.partition("=")[0].split("/")]
            if has_order(lists) != (name == "ORDERED") or text_of(lists) != row:
                sys.exit(f"{TABLE.name}: {name} has {row}")
    print("orders: the sets of lists are as Python's topological sort finds them")


if __name__ == "__main__":
    write() if sys.argv[1:] == ["write"] else check()
