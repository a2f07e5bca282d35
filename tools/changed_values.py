#!/usr/bin/env python3
"""Changes each value of the tables of expected answers once, and looks whether a test fails.

    changed_values.py [--relayd PATH] [--growth_rows PATH] [TABLE ..]

A table is a file of `e2e/fixtures/`; its values are the texts, bytes and numbers in it. For each value it copies `e2e/`,
changes the value there, and runs the cases that read the table. It prints each change that no case notices; the status is 0
if there is none. All tables take about half an hour of four processors.
"""

import argparse
import ast
import concurrent.futures
import os
import queue
import shutil
import subprocess
import sys
import tempfile

TOP = os.path.dirname(os.path.dirname(os.path.abspath(__file__)))
E2E = os.path.join(TOP, "e2e")
sys.path.insert(0, E2E)
sys.dont_write_bytecode = True

from fixtures import program
from fixtures.row_texts import section_texts

ROWS = "worked_rows"
CASES = {"notes": ("explained",), "decimals": ("values", "lines", "python_pickles")}  # the cases that read a table
AT_ONCE = os.cpu_count() or 1
LIMIT = 600  # seconds that the cases of one change may take


def other(value):
    """A value that is not the same: a number is one more, and of a text the first letter or digit is another."""
    if isinstance(value, int):
        return value + 1
    if isinstance(value, bytes):
        return other(value.decode("latin-1")).encode("latin-1")
    for place, sign in enumerate(value):
        if sign.isascii() and sign.isalnum():
            return value[:place] + ("1" if sign == "0" else "0" if sign.isdigit() else "y" if sign == "x" else "x") + value[place + 1:]
    return value + "x"


def values(text):
    """The values of a table: where each stands, in bytes, and what it is. What is made of parts, and documentation, is none."""
    tree = ast.parse(text)
    starts = [0]
    for line in text.splitlines(keepends=True):
        starts.append(starts[-1] + len(line.encode()))
    left_out = {id(node.value) for node in ast.walk(tree) if isinstance(node, ast.Expr)}
    left_out |= {id(part) for node in ast.walk(tree) if isinstance(node, ast.JoinedStr) for part in ast.walk(node)}
    for node in ast.walk(tree):
        if isinstance(node, ast.Constant) and id(node) not in left_out and type(node.value) in (str, bytes, int):
            yield starts[node.lineno - 1] + node.col_offset, starts[node.end_lineno - 1] + node.end_col_offset, node.value


def text_of(table):
    """The text of a table."""
    with open(os.path.join(E2E, "fixtures", f"{table}.py"), encoding="utf-8") as file:
        return file.read()


def changes(table):
    """For each value of a table: the line where it stands, the value, and the text of the table in which it is another."""
    text = text_of(table)
    content = text.encode()
    for start, end, value in sorted(values(text), key=lambda it: it[:2]):
        changed = content[:start] + repr(other(value)).encode() + content[end:]
        yield content[:start].count(b"\n") + 1, value, changed.decode()


def printed_rows(path):
    """What `growth_rows` prints of each of its rows."""
    def printed(*words):
        return subprocess.run([path, *words], stdout=subprocess.PIPE, check=True, timeout=LIMIT).stdout.decode().splitlines()
    return {name: [line for line in printed(name) if line not in ("call", "done")] for name in printed()}


def is_seen_by_rows(rows, changed):
    """Whether the rows, or the texts that they read, differ from a changed table."""
    table = {}
    try:
        exec(compile(changed, ROWS, "exec"), table)
    except Exception:  # what no table is made of is a difference
        return True
    texts = [text for text, _sections in table["SECTIONS"]]
    return texts != section_texts() or {name: text.splitlines() for name, text in table["ROWS"].items()} != rows


class Copies:
    """Copies of `e2e/`, each lent to one change at a time."""

    def __init__(self, folder):
        self.free = queue.Queue()
        for place in range(AT_ONCE):
            copy = os.path.join(folder, str(place), "e2e")
            shutil.copytree(E2E, copy, ignore=shutil.ignore_patterns("__pycache__"))
            for name in os.listdir(TOP):
                if name not in ("e2e", ".git"):
                    os.symlink(os.path.join(TOP, name), os.path.join(os.path.dirname(copy), name))
            self.free.put(copy)

    def is_seen(self, relayd, table, cases, changed):
        """Whether some case of a changed table fails."""
        copy = self.free.get()
        path = os.path.join(copy, "fixtures", f"{table}.py")
        with open(path, "w", encoding="utf-8") as file:
            file.write(changed)
        words = [sys.executable, os.path.join(copy, "run.py"), "--relayd", relayd, "--seed", "1", *cases]
        ran = subprocess.run(words, stdout=subprocess.DEVNULL, stderr=subprocess.DEVNULL, timeout=LIMIT)
        shutil.copyfile(os.path.join(E2E, "fixtures", f"{table}.py"), path)
        self.free.put(copy)
        return ran.returncode != 0


def unseen(table, is_seen):
    """Prints each change of a table that nothing notices, and gives how many there are. As it is, nothing fails."""
    if is_seen(text_of(table)):
        sys.exit(f"{table}: a test fails with the table as it is")
    tried = list(changes(table))
    with concurrent.futures.ThreadPoolExecutor(AT_ONCE) as pool:
        seen = list(pool.map(is_seen, (changed for _, _, changed in tried)))
    missed = [(line, value) for (line, value, _), noticed in zip(tried, seen) if not noticed]
    for line, value in missed:
        print(f"{table}.py:{line}: nothing notices another value of {value!r}", flush=True)
    print(f"{table}: {len(tried)} values changed, {len(missed)} of them not noticed", flush=True)
    return len(missed)


def main():
    """Changes the values of the tables that are named, or of all."""
    parser = argparse.ArgumentParser(description="Each value of the tables of expected answers changed once.")
    for name in ("relayd", "growth_rows"):
        parser.add_argument(f"--{name}", metavar="PATH", help=f"the program (default: that of crates/{name})")
    parser.add_argument("tables", metavar="TABLE", nargs="*", choices=[[], ROWS, *CASES], help=f"{ROWS}, {', '.join(CASES)}")
    given = parser.parse_args()
    missed = 0
    if ROWS in (given.tables or [ROWS]):
        rows = printed_rows(program.find("growth_rows", given.growth_rows))
        missed += unseen(ROWS, lambda changed: is_seen_by_rows(rows, changed))
    wanted = [table for table in CASES if table in (given.tables or CASES)]
    if wanted:
        relayd = os.path.abspath(program.find("relayd", given.relayd))
        with tempfile.TemporaryDirectory() as folder:
            copies = Copies(folder)
            for table in wanted:
                missed += unseen(table, lambda changed, table=table: copies.is_seen(relayd, table, CASES[table], changed))
    return 0 if missed == 0 else 1


if __name__ == "__main__":
    sys.exit(main())
