#!/usr/bin/env python3
"""`relayd run` between real producers and real stores.

    /usr/bin/python3 e2e/field/run.py [--relayd PATH] [--longer] [NAME ..]

collectd, carbon-relay, carbon-cache, graphite-web, HAProxy and Prometheus of Debian run around
the relay, over loopback alone; `e2e/whole.py` installs them where they are
missing. It is run by the Python for which Debian packages whisper and carbon.
Each NAME chooses a case, as `Collectd` or `Collectd.test_by_rules`; with --longer they have
their longer form. The last line is `N passed, M failed`; the status is 0 only where M is 0.
"""

import argparse
import os
import sys
import unittest

sys.dont_write_bytecode = True  # the folder stays as it was checked out
HERE = os.path.dirname(os.path.abspath(__file__))
TOP = os.path.dirname(os.path.dirname(HERE))
sys.path[:0] = [HERE, os.path.dirname(HERE)]  # the cases here, and the fixtures of all

import alerted  # noqa: E402
import cases  # noqa: E402
import dashboards  # noqa: E402
import encrypted  # noqa: E402
import long_lines  # noqa: E402
import pictured  # noqa: E402
import programs  # noqa: E402
import restarted  # noqa: E402
import scraped  # noqa: E402
import spooled  # noqa: E402
from fixtures.harness import Settings  # noqa: E402

MODULES = (alerted, cases, dashboards, encrypted, long_lines, pictured, restarted, scraped, spooled)


def main():
    """Runs what is asked for, and prints the summary."""
    parser = argparse.ArgumentParser(description="relayd between real producers and stores.")
    parser.add_argument("--relayd", metavar="PATH", type=os.path.abspath,
                        default=os.path.join(TOP, "crates", "relayd", "out", "relayd"))
    parser.add_argument("--longer", action="store_true", help="runs cases in their longer form, where they have one")
    parser.add_argument("names", metavar="NAME", nargs="*")
    given = parser.parse_args()
    programs.Relayd.program = given.relayd
    Settings.longer = given.longer
    loader, suite = unittest.defaultTestLoader, unittest.TestSuite()
    for name in given.names:
        suite.addTest(loader.loadTestsFromName(name, next(
            (module for module in MODULES if hasattr(module, name.split(".")[0])), cases)))
    for module in MODULES if not given.names else ():
        suite.addTest(loader.loadTestsFromModule(module))
    result = unittest.TextTestRunner(stream=sys.stdout, verbosity=2).run(suite)
    failed = len(result.failures) + len(result.errors)
    print(f"{result.testsRun - failed} passed, {failed} failed")
    return 0 if failed == 0 and result.testsRun else 1


if __name__ == "__main__":
    sys.exit(main())
