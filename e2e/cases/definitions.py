"""The index of definitions: each row leads from a rule to a definition, a contract, a test that can fail by itself, and a
wrong edit."""

import functools
import pathlib
import re
import unittest
from typing import NamedTuple

from fixtures import worked_rows

ROOT = pathlib.Path(__file__).resolve().parents[2]
CRATES = ROOT / "crates"
PAGE = ROOT / "docs" / "DEFINITIONS.md"
DECISIONS = ROOT / "docs" / "DECISIONS.md"
FORMS = "## Forms that the kit decides\n"
RULE = re.compile(r"\[.+\]\((?P<page>[A-Z]+\.md)(?:#[\w-]+)?\)")
PLACE = re.compile(r"(?:`(?P<crate>\w+)`'s )?`(?P<file>[\w/]+\.\w+)`: (?P<names>`[\w: ]+`(?:, `[\w: ]+`)*)")
EDIT = re.compile(r"`(?P<name>\w+)`(?: of `(?P<crate>\w+)`)?")
NO_TEST, NO_EDIT = "none: a law", "none"
EDIT_FOLDERS = ("must-fail", "more-edits")
CITED = re.compile(r"\buse Rattle\.(\w+)\.specs\.([\w.]+)")
OWED = {  # the wrong bodies that break a promise, which the gate tries whatever that costs
    "common_orders": "histories_one_after_the_other",
    "dest_queue": "drop_oldest_when_full",
    "dest_writer": "repeat_finished_line resume_in_mid_line",
    "hash_ring": "skips_equal_nodes_alone walk_starts_above_key",
    "line_text": "fraction_keeps_last_zeros moment_of_first_byte rest_read_as_line value_is_cut",
    "locked_queues": "door_without_the_lock lock_stays_at_opening_state",
    "mio_loops": "bytes_read_are_dropped idle_destination_left_out no_again_list",
    "name_table": "route_of_another_name",
    "numbered_memo": "stale_memo_entry",
    "pass_lines": "copies_input_to_output rest_read_as_line",
    "queue_records": "door_offers_another_point drop_answered_queued settles_without_comparing_points",
    "relay_core": "allowed_event_refused cap_shared_by_queues full_queue_skips_other_destinations never_offers",
    "relay_rules": "default_rule_tried_in_place relay_pattern_observes_case",
    "router": "route_of_another_name",
}
WORKED = "e2e/fixtures/worked_rows.py"


class Row(NamedTuple):
    """A row of the page."""

    rule: str
    crate: str
    definition: str
    contract: str
    test: str
    edit: str


class Tested(NamedTuple):
    """A row of the table of rules that are only tested."""

    rule: str
    test: str


def all_rows():
    """The rows of all tables of the page, but for their heads."""
    for line in PAGE.read_text(encoding="utf-8").splitlines():
        if line.startswith("| ") and not line.startswith("| Rule "):
            cells = [cell.strip() for cell in line.removeprefix("|").removesuffix("|").split(" | ")]
            yield Tested(*cells) if len(cells) == len(Tested._fields) else Row(*cells)


def rows():
    """The rows of what is proved."""
    return (row for row in all_rows() if isinstance(row, Row))


def crate_of(row):
    """The crate of a row, by its link."""
    return re.fullmatch(r"\[`(\w+)`\]\(\.\./crates/\1\)", row.crate)[1]


def source_text(file):
    """The text of a source; of one that is not there nothing."""
    return file.read_text(encoding="utf-8") if file.is_file() else ""


def has(file, kind, name):
    """Whether a file has something of a kind under a name, of which the last part counts."""
    return re.search(kind + re.escape(name.split("::")[-1]) + r"\b", source_text(file)) is not None


def places(row, cell):
    """The crate, the file and the names of each place in a cell, which has nothing else."""
    found = list(PLACE.finditer(cell))
    if "; ".join(place[0] for place in found) != cell:
        raise AssertionError(f"{row.rule}: not a list of places: {cell}")
    own = crate_of(row) if isinstance(row, Row) else None
    return [(place["crate"] or own, place["file"], re.findall(r"`([\w: ]+)`", place["names"])) for place in found]


def is_test(file, name):
    """Whether something of this name can fail by itself: a test in code, a case or a class of cases, a row of the table of
    worked examples, the comparison of a script, or what a proof computes."""
    if file == WORKED:
        return name in worked_rows.ROWS
    path = (ROOT if file.startswith("e2e/") else CRATES) / file
    text = source_text(path)
    if file.startswith("e2e/cases/"):
        return re.search(rf"^    def {name}\(self\)" if name.startswith("test_") else rf"^class {name}\(", text, re.M) is not None
    if file.startswith("e2e/"):
        return name == "main" and "\ndef main():\n" in text
    if path.suffix == ".antt":
        return "/proofs/" in file and re.search(rf"^(?:pub )?{name} :", text, re.M) is not None
    return re.search(rf"^#\[test\]\nfn {name}\(", text, re.M) is not None


def lacking(row, cell, kind):
    """What a cell names that its file does not have."""
    return [f"{name} in {crate}/{file}" for crate, file, names in places(row, cell) for name in names
            if not has(CRATES / crate / file, kind, name)]


@functools.cache
def definitions_of(file):
    """The files of definitions that a file cites by itself."""
    found = set()
    for crate, path in CITED.findall(source_text(file)):
        parts = path.strip(".").split(".")
        files = [CRATES.joinpath(crate, "specs", *parts[:count]).with_suffix(".antt") for count in range(len(parts), 0, -1)]
        found.update([it for it in files if it.is_file()][:1])
    return frozenset(found)


def all_definitions_of(files):
    """Those that files cite, and those that these cite in turn."""
    found, left = set(files), list(files)
    while left:
        new = definitions_of(left.pop()) - found
        found |= new
        left += new
    return found


def uncited(row):
    """The definitions of a row to which its contracts do not lead."""
    found = all_definitions_of([CRATES / crate / file for crate, file, _ in places(row, row.contract)])
    return [file for crate, file, _ in places(row, row.definition) if CRATES / crate / file not in found]


def lacking_tests(row):
    """What the cell of tests names that is not there; only a law may have none."""
    if row.test == NO_TEST:
        return [name for _, _, names in places(row, row.contract) for name in names if "laws::" not in name]
    return lacking_tests_of(row)


def lacking_tests_of(row):
    """What the cell of tests names that cannot fail by itself."""
    return [f"{name} in {file}" for _, file, names in places(row, row.test) for name in names if not is_test(file, name)]


def edits_of(row):
    """The wrong edits of the files of a row's contracts."""
    for crate, file, _ in places(row, row.contract):
        for kind in EDIT_FOLDERS:
            for edit in sorted((CRATES / crate / kind).glob("*.edit")):
                if f"file: {file}" in edit.read_text(encoding="utf-8").splitlines():
                    yield edit.stem


def lacking_edits(row):
    """The wrong edit of a row that is not there, or those that a row without one leaves out."""
    if row.edit == NO_EDIT:
        return list(edits_of(row))
    found = EDIT.fullmatch(row.edit)
    if found is None:
        return [row.edit]
    folder = CRATES / (found["crate"] or crate_of(row))
    files = [folder / kind / f"{found['name']}.edit" for kind in EDIT_FOLDERS]
    return [] if any(file.is_file() for file in files) else [row.edit]


def misfits(edit, read):
    """What a wrong edit is to replace that does not stand once in its file, as the replacements before it have left that."""
    file, old, texts = None, None, {}
    for line in edit.read_text(encoding="utf-8").splitlines():
        kind, _, words = line.partition(": ")
        if kind == "file":
            file = words
            texts.setdefault(file, read(edit.parents[1] / file))
        elif kind == "old":
            old = words
            if texts[file].count(old) != 1:
                yield old
        else:
            texts[file] = texts[file].replace(old, words)


def sources():
    """The text of each source and each definition of the crates."""
    return [file.read_text(encoding="utf-8") for folder in ("src", "specs") for file in sorted(CRATES.glob(f"*/{folder}/**/*.*t"))]


def is_there(name, texts):
    """Whether a name is a file, a crate, a text that the program writes, or something that a source declares: under its
    last part, in a file with what its first one names."""
    first, last = name.split("::")[0], name.split("::")[-1]
    if (ROOT / name).exists() or (CRATES / name).is_dir():
        return True
    declared = re.compile(rf"\b(?:fn|struct|enum|trait|mod|record|data) {re.escape(last)}\b|^ +(?:pub(?:\(crate\))? )?{re.escape(last)}[:,]"
                          rf"|codes \"{re.escape(last)}", re.M)
    owner = re.compile(rf"\b(?:impl\b.* |struct |enum |trait ){re.escape(first)}\b" if first != last else "")
    return any(owner.search(text) and declared.search(text) for text in texts)


class Edits(unittest.TestCase):
    """The wrong edits of all crates."""

    def test_each_fits_the_sources(self):
        """An edit of a text that is no longer there would show nothing."""
        edits = [edit for kind in EDIT_FOLDERS for edit in sorted(CRATES.glob(f"*/{kind}/*.edit"))]
        self.assertGreater(len(edits), 700)
        for edit in edits:
            self.assertEqual(list(misfits(edit, source_text)), [], edit)

    def test_the_gate_tries_what_breaks_a_promise(self):
        for crate, names in OWED.items():
            tried = {edit.stem for edit in (CRATES / crate / "must-fail").glob("*.edit")}
            self.assertEqual(set(names.split()) - tried, set(), crate)

    def test_an_edit_that_does_not_fit(self):
        """It is seen where its text is not there, or stands twice."""
        edit, *_ = sorted((CRATES / "line_text" / "must-fail").glob("*.edit"))
        self.assertNotEqual(list(misfits(edit, lambda _: "")), [])
        self.assertNotEqual(list(misfits(edit, lambda file: source_text(file) * 2)), [])


class Definitions(unittest.TestCase):
    """The columns of the page."""

    def check(self, lacking_of):
        """No row lacks anything."""
        listed = list(rows())
        self.assertGreater(len(listed), 90)
        for row in listed:
            self.assertEqual(lacking_of(row), [], row.rule)

    def test_each_rule_is_on_a_page(self):
        self.check(lambda row: [] if RULE.fullmatch(row.rule) else [row.rule])

    def test_each_definition_is_there(self):
        self.check(lambda row: lacking(row, row.definition, r"\b(?:pub|data|record) "))

    def test_each_contract_is_there(self):
        self.check(lambda row: lacking(row, row.contract, r"\b(?:fn|struct|trait) "))

    def test_each_contract_leads_to_its_definition(self):
        self.check(uncited)

    def test_each_test_can_fail(self):
        self.check(lacking_tests)

    def test_each_wrong_edit_is_there(self):
        self.check(lacking_edits)

    def test_rules_that_are_only_tested(self):
        only = [row for row in all_rows() if isinstance(row, Tested)]
        self.assertGreater(len(only), 5)
        for row in only:
            self.assertRegex(row.rule, RULE)
            self.assertEqual(lacking_tests_of(row), [], row.rule)

    def test_the_forms_that_the_kit_decides(self):
        forms = DECISIONS.read_text(encoding="utf-8").split(FORMS)[1].split("\n## ")[0]
        names = re.findall(r"`([^`]+)`", forms)
        self.assertGreater(len(names), 10)
        texts = sources()
        for name in names:
            self.assertTrue(is_there(name, texts), name)
        self.assertFalse(is_there("Queues::with_totals", texts))

    def test_helpers_are_refused(self):
        """What only helps a test is none."""
        for file, name in (("e2e/beside/ring.py", "edge_names"), ("e2e/beside/ring.py", "Walks"), ("e2e/refusals.py", "is_owed_by_row"),
                           ("e2e/cases/replay.py", "in_two"), ("core_tests/src/tests/line_pieces.rt", "is_cut")):
            self.assertFalse(is_test(file, name), name)
