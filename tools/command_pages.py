#!/usr/bin/env python3
"""Writes what follows from the tables of the command line in crates/command_line.

    python3 tools/command_pages.py [--check]

These are the completions of shells, the synopsis of the man page and the commands that it names beside each option, and
the synopsis of each command in the pages. With --check it writes nothing, and ends with status 1 where one of them differs
from what it would write. An option that the man page does not have yet gets an entry with the text of its help.
"""

import os
import re
import sys

import completions
from command_words import commands, takers
from rooms import TOP

FISH = os.path.join("packaging", "relayd.fish")
MAN = os.path.join("packaging", "relayd.1")
PAGES = [os.path.join("docs", name) for name in ("RUNNING.md", "FORMATS.md", "REPLAY.md")]
ENTRY = re.compile(r"(?m)^\.TP\n\.BI? (\\-\\-[a-z\\-]+).*\n\([a-z, ]+\)$")
LAST_LINES = r""".B relayd help
.RI [ COMMAND ]
.br
.B relayd
.RI [ COMMAND ]
.B \-h\fR|\fB\-\-help
.br
.B relayd \-V\fR|\fB\-\-version
"""


def parts(command):
    """What a command takes, in order: lists of words of which one is given. A choice with a word that has no name comes last."""
    places = {word.name: word for word in command.words}
    choices = [[places[name] for name in pair] for pair in command.choices]
    last = [sorted(choice, key=lambda word: word.is_option()) for choice in choices
            if not all(word.is_option() for word in choice)]
    for word in command.options():
        of_word = [choice for choice in choices if word in choice]
        if not of_word and not word.other:
            yield [word]
        elif of_word and of_word[0][0] == word and all(each.is_option() for each in of_word[0]):
            yield of_word[0]
    yield from last
    bare = command.bare()
    if bare and all(bare not in choice for choice in choices):
        yield [bare]


def written(command, word):
    """A word as a synopsis has it, with the options that need it."""
    name = f"--{word.name} " if word.is_option() else ""
    others = [f"[{written(command, other)}]" for other in command.options() if other.other == word.name]
    return " ".join([f"{name}{word.value or ''}".strip(), *others])


def plain(command):
    """The synopsis of a command as text."""
    said = [f"relayd {command.name}"]
    for words in parts(command):
        inner = " | ".join(written(command, word) for word in words)
        if len(words) > 1:
            said.append(f"{{{inner}}}")
        else:
            said.append(inner if words[0].form == "NeededValue" else f"[{inner}]")
    return " ".join(said)


def in_man(text):
    """A text as a man page has it: names of options and of the command bold, values in italics."""
    text = re.sub(r"(^relayd \w+|--[a-z]+(?:-[a-z]+)*)|\b([A-Z]+)\b",
                  lambda found: f"\\fB{found[1]}\\fR" if found[1] else f"\\fI{found[2]}\\fR", text)
    return text.replace("-", "\\-")


def man_synopsis(command):
    """The synopsis of a command in the man page."""
    return in_man(plain(command)) + "\n.br\n"


def man_entry(name):
    """The entry of an option that the man page does not have yet."""
    word = next(word for word in takers(name)[0].options() if word.name == name)
    option = f"--{name}".replace("-", "\\-")
    head = f'.BI {option} " {word.value}"' if word.value else f".B {option}"
    return f".TP\n{head}\n()\n{word.help.replace('-', chr(92) + '-')}.\n"


def man_page(text):
    """The man page with the synopsis, and each option with its commands."""
    synopsis = "".join(man_synopsis(command) for command in commands()) + LAST_LINES
    text = re.sub(r"(?ms)^(\.SH SYNOPSIS\n).*?(?=^\.SH )", lambda found: found[1] + synopsis, text)
    known = {name[2:].replace("\\", "").lstrip("-") for name in ENTRY.findall(text)}
    missing = {word.name for command in commands() for word in command.options()} - known
    text = text.replace(".PP\n.B \\-h\n", "".join(man_entry(name) for name in sorted(missing)) + ".PP\n.B \\-h\n")
    entry = re.compile(r"(?m)^(\.TP\n\.BI? (\\-\\-[a-z\\-]+).*\n)\([a-z, ]*\)$")
    return entry.sub(lambda found: found[1] + f"({', '.join(each.name for each in takers(option_of(found[2])))})", text)


def option_of(name):
    """The option that the man page writes so."""
    return name.replace("\\", "")[2:]


def page(text):
    """A page with the synopsis of each command that it has one of: words in code that name an option in brackets."""
    for command in commands():
        text = re.sub(rf"(?m)^`relayd {command.name} [^`]*\[[^`]*`", lambda _, said=plain(command): f"`{said}`", text)
    return text


def files():
    """What each file has to say, by its path."""
    said = {os.path.join("packaging", "relayd.bash"): completions.for_bash(),
            os.path.join("packaging", "_relayd"): completions.for_zsh()}
    for path, made in [(FISH, completions.for_fish), (MAN, man_page), *((path, page) for path in PAGES)]:
        with open(os.path.join(TOP, path), encoding="utf-8") as file:
            said[path] = made(file.read())
    return said


def main():
    """Writes, or compares, and gives the status."""
    differ = []
    for path, text in files().items():
        with open(os.path.join(TOP, path), encoding="utf-8") as file:
            if file.read() == text:
                continue
        differ.append(path)
        if "--check" not in sys.argv[1:]:
            with open(os.path.join(TOP, path), "w", encoding="utf-8") as file:
                file.write(text)
    for path in differ:
        print(f"{path}: {'not as the command line says' if '--check' in sys.argv[1:] else 'written'}")
    return 1 if differ and "--check" in sys.argv[1:] else 0


if __name__ == "__main__":
    sys.exit(main())
