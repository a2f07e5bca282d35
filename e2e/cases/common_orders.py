"""The table of lists with and without a common order in `core_tests` is right by Python's topological sort."""

import os
import subprocess
import sys

from fixtures.harness import LIMIT, Suite
from fixtures.program import TOP


class Table(Suite):
    """Each row, looked at anew."""

    def test_the_table_is_what_python_finds(self):
        ran = subprocess.run([sys.executable, os.path.join(TOP, "e2e", "orders.py")], capture_output=True, text=True,
                             timeout=LIMIT)
        self.assertEqual((ran.returncode, ran.stderr), (0, ""))
