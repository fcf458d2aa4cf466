"""Runs the tests of a file. The last line counts them, and names the reasons for which tests were skipped.

With INDEXSET_SKIPS=fail in the environment, a skipped test is a failure.
"""
import collections
import os
import sys
import unittest


def main(name):
    """Runs the tests of the program and exits."""
    result = unittest.main("__main__", exit=False, verbosity=0).result
    reasons = collections.Counter(why for _, why in result.skipped)
    wrong = len(result.failures) + len(result.errors)
    skipped = "".join(f", {count} skipped ({why})" for why, count in reasons.items())
    print(f"{name}: {result.testsRun - wrong - len(result.skipped)} passed, {wrong} failed{skipped}")
    fails = wrong or result.testsRun == 0 or (reasons and os.environ.get("INDEXSET_SKIPS") == "fail")
    sys.exit(1 if fails else 0)
