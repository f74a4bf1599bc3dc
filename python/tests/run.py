"""Runs all tests here by unittest, says what was skipped and why, and ends with 'N passed, M failed'. pytest runs them as well."""
from __future__ import annotations

import collections
import sys
import unittest
import warnings


def main() -> int:
    """0, if no test failed."""
    warnings.simplefilter("default")
    suite = unittest.defaultTestLoader.discover(".", "test_*.py")
    result = unittest.TextTestRunner(stream=sys.stdout, verbosity=0).run(suite)
    for why, count in sorted(collections.Counter(why for _, why in result.skipped).items()):
        print(f"skipped {count}: {why}")
    failed = len({str(test) for test, _ in [*result.failures, *result.errors]}) + len(result.unexpectedSuccesses)
    print(f"{result.testsRun - failed - len(result.skipped)} passed, {failed} failed")
    return 1 if failed else 0


if __name__ == "__main__":
    sys.exit(main())
