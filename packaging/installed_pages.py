#!/usr/bin/env python3
"""Makes the pages of the package lead somewhere: of a link to what the package does not have it leaves the text alone.

    installed_pages.py FOLDER

FOLDER is that of the package's documents, in which the pages lie as in the source tree.
"""

import os
import re
import sys

LINK = re.compile(r"(?<!!)\[((?:[^\[\]]|\[[^\]]*\])*)\]\(([^()\s]+)\)")


def pages(folder):
    """The pages below a folder."""
    for place, _, names in os.walk(folder):
        for name in names:
            if name.endswith(".md"):
                yield os.path.join(place, name)


def leads_somewhere(page, target):
    """Whether a link of a page leads to another site, within the page, or to a file that is there."""
    path = target.partition("#")[0]
    return "://" in target or not path or os.path.exists(os.path.join(os.path.dirname(page), path))


def main():
    for page in pages(sys.argv[1]):
        with open(page, encoding="utf-8") as file:
            text = file.read()
        text = LINK.sub(lambda link, page=page: link[0] if leads_somewhere(page, link[2]) else link[1], text)
        with open(page, "w", encoding="utf-8") as file:
            file.write(text)


if __name__ == "__main__":
    main()
