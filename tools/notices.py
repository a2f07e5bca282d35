#!/usr/bin/env python3
"""The notices of all that the program links, from crates.txt and the licence files of the Rattle kit.

    python3 tools/notices.py [--check]

Writes THIRD_PARTY.md, and packaging/copyright in Debian's machine-readable form. With --check it writes nothing, and
ends with status 1 where one of them differs from what it would write.

The program links the kit crates that its own crates name in crates.txt, and those that these use in their sources. A
crate whose folder has a licence file is listed with it; of two licences the MIT licence is chosen. The others are the
kit's own.
"""

import os
import re
import shutil
import sys

TOP = os.path.dirname(os.path.dirname(os.path.abspath(__file__)))
PROGRAM = "relayd"
THIRD_PARTY, COPYRIGHT = "THIRD_PARTY.md", os.path.join("packaging", "copyright")
MIT = {"LICENSE-MIT", "LICENSE"}
UNICODE = "LICENSE-UNICODE"
AUTHORS = "2026 Zalbune maintainers"
TITLES = {"Expat": "MIT", "Unicode-3.0": "Unicode 3.0"}  # by the names that Debian gives them
COMMENT = re.compile(r"//.*")
PATH = re.compile(r"(?<![\w.:])(\w+)::")
HOLDER = re.compile(r"^ *Copyright (?:\(c\)|©) (.*)$", re.MULTILINE)
UNNAMED = "the authors of the Rust crate {}, whom its licence does not name"
KIT_SAYS = ("This project got the kit as a folder, with no publisher's address and no licence of its own, and knows no more "
            "of where it is from; [ARCHITECTURE](docs/ARCHITECTURE.md) has its version.")


def kit():
    """The folder of the kit's crates, beside the folder of its command `rt`; none where that is not on the PATH."""
    command = shutil.which("rt")
    return command and os.path.join(os.path.dirname(os.path.dirname(os.path.realpath(command))), "rattle")


def text_of(path):
    """The text of a file."""
    with open(path, encoding="utf-8") as file:
        return file.read()


def named():
    """The kit crates that the program's own crates name."""
    needs = dict(re.findall(r"^(\w+):(.*)$", text_of(os.path.join(TOP, "crates.txt")), re.MULTILINE))
    own, others, left = set(), set(), [PROGRAM]
    while left:
        crate = left.pop()
        if crate in needs and crate not in own:
            own.add(crate)
            left += needs[crate].split()
        elif crate not in needs:
            others.add(crate)
    return others


def sources(folder):
    """The sources of a crate without its tests."""
    for place, _, names in os.walk(os.path.join(folder, "src")):
        if "tests" not in place.split(os.sep):
            yield from (os.path.join(place, name) for name in names if name.endswith(".rt") and name != "tests.rt")


def linked(root):
    """The kit crates that the program links."""
    known = {name for name in os.listdir(root) if os.path.isdir(os.path.join(root, name, "src"))}
    found, left = set(), list(named())
    while left:
        crate = left.pop()
        if crate not in found:
            found.add(crate)
            for path in sources(os.path.join(root, crate)):
                left += known & set(PATH.findall(COMMENT.sub("", text_of(path))))
    return found


def licence_files(root, crate):
    """The licence files of a crate that count: by name of the licence, their paths."""
    names = set(os.listdir(os.path.join(root, crate)))
    chosen = {"Expat": sorted(names & MIT), "Unicode-3.0": sorted(names & {UNICODE})}
    return {licence: os.path.join(root, crate, files[0]) for licence, files in chosen.items() if files}


def permission(text):
    """A licence's text without the lines before it that name its holders, and with one form of its lines."""
    start = re.search(r"Permission is hereby granted|UNICODE LICENSE V3", text).start()
    parts = re.split(r"\n\s*\n", text[start:].strip())
    return [" ".join(part.split()) for part in parts]


def gathered(root):
    """The text of each licence; the linked crates by their licences and holders; and the kit's own crates."""
    texts, crates, own = {}, {}, []
    for crate in sorted(linked(root)):
        files = licence_files(root, crate)
        if not files:
            own.append(crate)
            continue
        found = []
        for licence, path in files.items():
            text = text_of(path)
            if texts.setdefault(licence, permission(text)) != permission(text):
                sys.exit(f"notices: {path} differs from the other licences that are called {licence}")
            found += HOLDER.findall(text) or [UNNAMED.format(crate)]
        crates.setdefault((tuple(files), tuple(found)), []).append(crate)
    return texts, sorted(crates.items(), key=lambda row: row[1]), own


def wrapped(text, before, width=110):
    """A text in lines of at most this width, each with the same words before it."""
    lines, line = [], before
    for word in text.split(" "):
        if len(line) + 1 + len(word) > width and line.strip():
            lines.append(line)
            line = before
        line += (" " if line != before else "") + word
    return [*lines, line]


def page(rows, own):
    """The page for readers."""
    listed = sorted(crate for _, crates in rows for crate in crates)
    lines = [
        "# What the program links", "",
        "`tools/notices.py` writes this page from `crates.txt` and the licence files of the Rattle kit, and a test "
        "compares it with them. The licence of `relayd` itself is Apache 2.0 ([LICENSE](LICENSE)).", "",
        f"`relayd` links {len(listed)} crates of the kit that have a licence file: ports of Rust crates, crates modelled on "
        "them, and tables from Unicode's data. A crate under MIT or "
        "Apache 2.0 is used here under MIT. [packaging/copyright](packaging/copyright), which an installation has as "
        "`copyright` beside this page, has the texts of both licences.", "",
        "| Crates | Copyright | Licence |", "|---|---|---|"]
    for (licences, holders), crates in rows:
        lines.append(f"| {', '.join(f'`{crate}`' for crate in crates)} | {'; '.join(holders)} | "
                     f"{' and '.join(TITLES[licence] for licence in licences)} |")
    lines += [
        "", "## The kit", "",
        "These are the kit's own, with no licence file: " + ", ".join(f"`{crate}`" for crate in own)
        + ", and two small libraries in C, `libos_c` and `liblibc_c`, through which they call the system. " + KIT_SAYS
        + " Before you distribute the program, ask whoever gave you the kit on which terms you may.", "",
        "## The system", "",
        "The program links one library of the system when it starts, `libc.so.6` of the GNU C Library, which is not part "
        "of the package."]
    return "\n".join(lines) + "\n"


def debian(texts, rows, own):
    """The copyright file of the package."""
    lines = [
        "Format: https://www.debian.org/doc/packaging-manuals/copyright-format/1.0/",
        "Upstream-Name: relayd",
        "Comment: tools/notices.py writes this file. The program links crates of the Rattle kit, which are named here",
        " as kit/NAME; their sources are not in this package. The kit has no licence file for",
        *wrapped(", ".join(own) + " and two small libraries in C, which it links too.", " ", 100), "",
        "Files: *", f"Copyright: {AUTHORS}", "License: Apache-2.0", ""]
    for (licences, holders), crates in rows:
        lines += ["Files: " + "\n ".join(f"kit/{crate}/*" for crate in crates),
                  "Copyright: " + "\n ".join(holders), f"License: {' and '.join(licences)}", ""]
    lines += ["License: Apache-2.0", " On Debian systems the text of the Apache License, version 2.0, is in",
              " /usr/share/common-licenses/Apache-2.0.", ""]
    for licence in TITLES:
        lines.append(f"License: {licence}")
        for part in texts[licence]:
            lines += [*wrapped(part, " ", 100), " ."]
        lines[-1:] = [""]
    return "\n".join(lines).rstrip() + "\n"


def main():
    """Writes the files, or compares them."""
    root = kit()
    if root is None or not os.path.isdir(root):
        sys.exit("notices: rt is missing: the command of the Rattle kit must be on the PATH")
    texts, rows, own = gathered(root)
    made = {THIRD_PARTY: page(rows, own), COPYRIGHT: debian(texts, rows, own)}
    differ = [name for name, text in made.items()
              if not os.path.exists(os.path.join(TOP, name)) or text_of(os.path.join(TOP, name)) != text]
    if sys.argv[1:] == ["--check"]:
        for name in differ:
            print(f"notices: {name} is not what `python3 tools/notices.py` writes", file=sys.stderr)
        return 1 if differ else 0
    for name in differ:
        with open(os.path.join(TOP, name), "w", encoding="utf-8") as file:
            file.write(made[name])
    return 0


if __name__ == "__main__":
    sys.exit(main())
