"""Runs the tests of a script."""

from __future__ import annotations

import argparse
from collections.abc import Callable, Mapping


def run(about: str, tests: Mapping[str, Callable[[], None]]) -> int:
    """Runs tests by name, each of which fails by an assertion; returns the status. The last line is 'N passed, M
    failed'."""
    argparse.ArgumentParser(description=about).parse_args()
    failed = 0
    for name, test in tests.items():
        try:
            test()
        except AssertionError as why:
            failed += 1
            print(f"{name}: FAILED: {why}")
    print(f"{len(tests) - failed} passed, {failed} failed")
    return 1 if failed else 0
