"""Runs all tests, and counts them with the rows and reports that were asked: python3 -m tests. What is skipped has
failed."""
import sys
import unittest

from .test_fixtures import Fixtures


def main():
    tests = unittest.defaultTestLoader.discover("tests", top_level_dir=".")
    result = unittest.TextTestRunner(verbosity=0).run(tests)
    failed = len(result.failures) + len(result.errors) + len(result.skipped) + len(result.unexpectedSuccesses)
    cases = result.testsRun + Fixtures.rows_asked + Fixtures.reports_asked
    print(f"{max(cases - failed, 0)} cases passed, {failed} failed")
    return failed > 0


if __name__ == "__main__":
    sys.exit(main())
