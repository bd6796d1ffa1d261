"""What the tests in Python end with: how many passed and how many failed. What did not run is said by name, and counted as neither."""

from __future__ import annotations

import sys
import time
import unittest

#: Seconds from which on a test is named.
LONG = 8


class Counted(unittest.TextTestResult):
    """Counts the tests that came to their end and found nothing wrong; one of which a part was passed over is none of them. Says which take long."""

    part = "tests"

    def __init__(self, *given: object, **named: object) -> None:
        super().__init__(*given, **named)  # type: ignore[arg-type]
        self.passed = 0

    def addSuccess(self, test: unittest.TestCase) -> None:
        self.passed += 1
        super().addSuccess(test)

    def startTest(self, test: unittest.TestCase) -> None:
        self.begun = time.monotonic()
        super().startTest(test)

    def stopTest(self, test: unittest.TestCase) -> None:
        taken = time.monotonic() - self.begun
        if taken > LONG:
            print(f"{self.part}: {taken:.0f} s: {test.id()}")
        super().stopTest(test)


def run(part: str, suite: unittest.TestSuite, passed: int = 0, failed: int = 0, first: bool = False) -> int:
    """Runs them, up to the first that fails if that is asked for, and prints what did not run and the count, with what passed and failed before; answers the
    exit status."""
    kind = type("Counted", (Counted,), {"part": part})
    result = unittest.TextTestRunner(stream=sys.stdout, verbosity=0, resultclass=kind, failfast=first).run(suite)
    assert isinstance(result, Counted)
    wrong = [*(test for test, _ in result.failures + result.errors), *result.unexpectedSuccesses]
    # Several parts of one test may fail, and it is one test.
    failed += len({getattr(test, "test_case", test).id() for test in wrong})
    for test, why in [*result.skipped, *((test, "it is expected to fail") for test, _ in result.expectedFailures)]:
        print(f"{part}: not run: {test.id()}: {why}")
    print(f"{part}: {passed + result.passed} passed, {failed} failed")
    return 1 if failed else 0
