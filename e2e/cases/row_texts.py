"""The table of worked rows names the texts that the rows read."""

import unittest

from fixtures import worked_rows
from fixtures.row_texts import section_texts


class Texts(unittest.TestCase):
    """What stands beside an expected answer."""

    def test_texts_of_sections(self):
        """Each text of a configuration is the one whose sections the row prints."""
        self.assertEqual(section_texts(), [text for text, _sections in worked_rows.SECTIONS])
