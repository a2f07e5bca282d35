"""The commands and options of `relayd`, as the tables in crates/command_line/src list them."""

import os
import re
from typing import NamedTuple, Optional

from rooms import TOP

TABLES = [os.path.join(TOP, "crates", "command_line", "src", name) for name in ("commands.rt", "run_options.rt", "client_words.rt")]
FORMS = os.path.join(TOP, "crates", "command_line", "src", "log_form.rt")
STRING = r'"((?:[^"\\]|\\.)*)"'
WORD = re.compile(rf"Word \{{\s*name: {STRING},\s*form: Form::(\w+)(?:\(([^)]*)\))?,\s*help: {STRING},\s*\}}")
CONSTANT = re.compile(r"const (\w+): Word = (Word \{.*?\n\});", re.DOTALL)
FILES = re.compile(r"const FILES: &\[Word\] = &\[(.*?)\n\];", re.DOTALL)
COMMAND = re.compile(r"static \w+: CommandWords = CommandWords \{(.*?)\n\};", re.DOTALL)
MOST_NUMBERS = 16  # a range of more numbers is not offered


class Word(NamedTuple):
    """An option, or a word with no name before it."""

    name: str
    form: str
    value: Optional[str]  # what the help calls its value
    other: Optional[str]  # the option that it needs, or goes with
    help: str

    def is_option(self):
        """Whether it is an option that the help shows."""
        return self.form not in ("Bare", "HiddenValue")

    def offers(self):
        """The values that a shell can offer, if they are few."""
        if self.value == "FORM":
            with open(FORMS, encoding="utf-8") as file:
                return re.findall(rf"{STRING} => Some", file.read())
        numbers = re.search(r"\b(\d+) to (\d+)$", self.help)
        if self.value == "N" and numbers and int(numbers[2]) <= MOST_NUMBERS:
            return [str(number) for number in range(int(numbers[1]), int(numbers[2]) + 1)]
        return []


class Command(NamedTuple):
    """A command, with what it takes in the order of its help."""

    name: str
    about: str
    words: list
    choices: list  # pairs of the names of words of which one has to be given

    def options(self):
        """The options that its help shows."""
        return [word for word in self.words if word.is_option()]

    def bare(self):
        """The word that it takes with no name before it, if any."""
        return next((word for word in self.words if word.form == "Bare"), None)


def word_of(found):
    """The word of a match of `WORD`."""
    name, form, given, text = found
    names = re.findall(STRING, given or "")
    value, other = (names + [None, None])[:2]
    if form == "FlagWith":
        value, other = None, value
    elif form == "ValueOr":  # its default value
        other = None
    return Word(name, form, value, other, text)


def goes_with(word, choices):
    """A word that excludes one of a choice goes with the other one; one that excludes another word goes with none."""
    if word.form != "ValueWithout":
        return word
    return word._replace(other=next((first if second == word.other else second for first, second in choices
                                     if word.other in (first, second)), None))


def words_in(text, constants):
    """The words of a list of the tables, of which some are named constants."""
    found = []
    for match in re.finditer(rf"{WORD.pattern}|\b([A-Z_]+)\b(?=[,\]\s]|$)", text):
        *parts, constant = match.groups()
        found.append(constants[constant] if constant else word_of(parts))
    return found


def commands():
    """All commands, in the order of the help of `relayd`."""
    text = ""
    for path in TABLES:
        with open(path, encoding="utf-8") as file:
            text += file.read()
    constants = {name: word_of(WORD.fullmatch(word).groups()) for name, word in CONSTANT.findall(text)}
    files = words_in(FILES.search(text)[1], constants)
    found = []
    for table in COMMAND.findall(text):
        name, about = (re.search(rf"\b{field}: {STRING}", table)[1] for field in ("name", "about"))
        own = re.search(r"\bfiles: (.*?)\n    words: &\[(.*)\],\n    choices: (.*)", table, re.DOTALL)
        first = files if own[1] == "FILES," else words_in(own[1], constants)
        choices = re.findall(rf"words: \[{STRING}, {STRING}\]", own[3])
        words = [goes_with(word, choices) for word in first + words_in(own[2], constants)]
        found.append(Command(name, about, words, choices))
    return found


def takers(option):
    """The commands that take the option of this name."""
    return [command for command in commands() if any(word.name == option for word in command.options())]
