#!/usr/bin/env python3
"""Says whether the commit of this clone may get the tag of its version.

A line says of each condition whether it holds; the status is 0 only where all do.
"""

import os
import re
import sys
from datetime import datetime, timezone

from passed import TOP, commit, git, noted

TESTS = ("test", "deb-test-bookworm", "deb-test-trixie", "deb-test-bullseye")
PAGES = ("packaging/relayd.1", "packaging/relayd-supervised.1", "packaging/relay.conf.5")


def found(pattern, path):
    """What a pattern finds first in a file, or nothing."""
    with open(os.path.join(TOP, path), encoding="utf-8") as file:
        seen = re.search(pattern, file.read().replace("\\-", "-"), re.MULTILINE)
    return seen[1] if seen else ""


def is_day(text):
    """Whether a text is a day that has begun, as `27 November 2026`."""
    try:
        return datetime.strptime(text, "%d %B %Y").replace(tzinfo=timezone.utc) <= datetime.now(timezone.utc)
    except ValueError:
        return False


def conditions(version):
    """The conditions, each with whether it holds, and what to do."""
    here, tag = commit(), git("rev-parse", "--verify", "--quiet", f"refs/tags/v{version}^{{commit}}")
    yield "the files are those of a commit", here, "commit, or remove what git status shows"
    yield f"the version, {version}, is no -dev", not version.endswith("-dev"), "see the end of CHANGELOG.md"
    heading = found(r"^## (.*)$", "CHANGELOG.md")
    name, _, day = heading.partition(", ")
    yield "CHANGELOG.md begins with it and a day", name == version and is_day(day), f"its first heading is `{heading}`"
    for page in PAGES:
        yield f"{page} has it", found(r'^\.TH .*"relayd (\S+)"', page) == version, "change its first line"
    image = found(r"image: localhost/relayd:(\S+)", "examples/kubernetes.yml")
    yield "examples/kubernetes.yml has it", image == version, f"its image is of {image}"
    yield f"no other commit has the tag v{version}", tag in ("", here), f"{tag[:12]} has it"
    for test in TESTS:
        words = test.replace("deb-test-", "deb-test SUITE=")
        yield f"make {words} has passed", here and noted(test) == here, "run it"


def main():
    version = found(r'VERSION: &str = "([^"]+)"', "crates/command_line/src/commands.rt")
    holds = []
    for what, is_so, cure in conditions(version):
        holds.append(bool(is_so))
        print(f"ok: {what}" if is_so else f"no: {what}: {cure}")
    print(f"this commit may get the tag v{version}" if all(holds) else "this commit may not get a tag")
    return 0 if all(holds) else 1


if __name__ == "__main__":
    sys.exit(main())
