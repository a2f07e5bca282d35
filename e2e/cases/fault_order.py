"""The order of faults: where there are several, the first in the order of reading and checking is reported."""

import itertools
from typing import NamedTuple

from fixtures.configured import NAME, REWRITE, RULES, SETTINGS, WithFiles, ring
from fixtures.harness import Ran

RIGHT = {"config": SETTINGS, "rules": RULES, "rewrite": REWRITE}


class Fault(NamedTuple):
    """A fault of a file: the line that gives it, or none where the file is missing."""

    role: str
    text: str
    line: bytes = b""
    status: int = 1


MISSING = "cannot read"
FAULTS = (  # in the order in which they are reported; a file's are cannot read, not text, its lines, its contents
    Fault("config", MISSING, status=3),
    Fault("config", "not text", b"# \xff"),
    Fault("config", "line {}: BadLine", b"a line"),
    Fault("config", "MAX_DATAPOINTS_PER_MESSAGE: BadNumber", b"MAX_DATAPOINTS_PER_MESSAGE = 0"),
    Fault("rules", MISSING, status=3),
    Fault("rules", "not text", b"# \xff"),
    Fault("rules", "line {}: BadLine", b"a line"),
    Fault("rules", "1: PatternAndDefault", b"pattern = x"),
    Fault("rewrite", MISSING, status=3),
    Fault("rewrite", "not text", b"# \xff"),
    Fault("rewrite", "line {}: NoEquals", b"a line"),
)
BAD_NAME = b"relayd: name: BadName\n"
NO_RULES = b"relayd: rules: NoRules\n"


class Order(WithFiles):
    """Faults of which an earlier one hides the later ones."""

    def files(self, faults, right):
        """The files of a run that have these faults."""
        files = {}
        for role, text in right.items():
            lines = text.encode().splitlines()
            lines += [fault.line for fault in reversed(faults) if fault.role == role and fault.line]
            missing = any(fault.role == role and fault.text == MISSING for fault in faults)
            files[role] = self.folder / "missing" if missing else b"\n".join(lines)
        return files

    def line_of(self, fault, files):
        """The line that reports a fault of these files."""
        place = 0
        if "{}" in fault.text:
            place = files[fault.role].split(b"\n").index(fault.line) + 1
        return f"relayd: {fault.role}: {fault.text.format(place)}\n".encode()

    def first_is_reported(self, faults, right=None, name="a b"):
        """Cases: both commands report the first of these faults; the name is a fault too."""
        files = self.files(faults, right or RIGHT)
        expected = Ran(faults[0].status, b"", self.line_of(faults[0], files))
        self.ends(("check",), expected, files)
        self.ends(("route", name), expected, files)

    @staticmethod
    def may_meet(faults):
        """Whether one run can have them: a file that is missing has no other fault."""
        return not any(one.text == MISSING and one.role == other.role
                       for one, other in itertools.permutations(faults, 2))

    def test_each_fault_alone(self):
        for fault in FAULTS:
            self.first_is_reported((fault,), name=NAME)
            self.first_is_reported((fault,))

    def test_every_two_faults(self):
        for faults in itertools.combinations(FAULTS, 2):
            if self.may_meet(faults):
                self.first_is_reported(faults)

    def test_all_faults_from_each_on(self):
        for place in range(len(FAULTS)):
            faults = FAULTS[place:place + 1]
            for fault in FAULTS[place + 1:]:
                if self.may_meet((*faults, fault)):
                    faults += (fault,)
            self.first_is_reported(faults)

    def test_every_two_faults_with_a_ring(self):
        """Rules that are not used are read and checked all the same."""
        right = RIGHT | {"config": ring("h:1, h:2:a")}
        for faults in itertools.combinations(FAULTS, 2):
            if self.may_meet(faults):
                self.first_is_reported(faults, right)

    def test_no_rules_comes_after_the_files(self):
        """It comes after the faults of the other files, and before the name's."""
        right = {role: text for role, text in RIGHT.items() if role != "rules"}
        for fault in FAULTS:
            if fault.role != "rules":
                self.ends(("check",), *self.alone(fault, right))
                self.ends(("route", "a b"), *self.alone(fault, right))
        for name in (NAME, "a b", ""):
            self.ends(("route", name), Ran(1, b"", NO_RULES), right | {"rules": None})

    def alone(self, fault, right):
        """How a run without rules ends that has this fault, and its files."""
        files = self.files((fault,), right)
        return Ran(fault.status, b"", self.line_of(fault, files)), files | {"rules": None}

    def test_the_name_comes_last(self):
        for name in ("", "a b", "\x7f"):
            self.ends(("route", name), Ran(1, b"", BAD_NAME), RIGHT)
            self.ends(("route", name), Ran(1, b"", BAD_NAME), {"config": ring("h:1"), "rules": None})
