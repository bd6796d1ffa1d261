"""What counts the tests: a test that did not run is said, and counted as neither passed nor failed."""

from __future__ import annotations

import contextlib
import io
import unittest

from tests import counted


class Small(unittest.TestCase):
    """Tests for the counting alone: they are not among those that are run, since none has a name that is looked for."""

    def passes(self) -> None:
        pass

    def fails(self) -> None:
        self.fail()

    def fails_twice(self) -> None:
        for k in range(2):
            with self.subTest(k):
                self.fail()

    def errs(self) -> None:
        raise ValueError

    @unittest.skip("no reason")
    def skipped(self) -> None:
        pass

    def partly_skipped(self) -> None:
        for k in range(3):
            with self.subTest(k):
                if k == 1:
                    self.skipTest("not this one")

    @unittest.expectedFailure
    def expected(self) -> None:
        self.fail()

    @unittest.expectedFailure
    def unexpected(self) -> None:
        pass


class Unprepared(unittest.TestCase):
    @classmethod
    def setUpClass(cls) -> None:
        raise ValueError

    def passes(self) -> None:
        pass


def said(*tests: unittest.TestCase, passed: int = 0, failed: int = 0, first: bool = False) -> tuple[int, list[str]]:
    """Exit status, and the lines that are the counting's own."""
    out = io.StringIO()
    with contextlib.redirect_stdout(out):
        status = counted.run("small", unittest.TestSuite(tests), passed, failed, first)
    return status, [line for line in out.getvalue().splitlines() if line.startswith("small: ")]


class Counts(unittest.TestCase):
    def test_passed_and_failed(self) -> None:
        self.assertEqual(said(Small("passes")), (0, ["small: 1 passed, 0 failed"]))
        self.assertEqual(said(Small("passes"), passed=2), (0, ["small: 3 passed, 0 failed"]))
        self.assertEqual(said(Small("passes"), failed=1), (1, ["small: 1 passed, 1 failed"]))
        self.assertEqual(said(Small("passes"), Small("fails"), Small("errs")), (1, ["small: 1 passed, 2 failed"]))
        self.assertEqual(said(Small("passes"), Small("fails_twice"), Small("unexpected")), (1, ["small: 1 passed, 2 failed"]))
        self.assertEqual(said(Unprepared("passes")), (1, ["small: 0 passed, 1 failed"]))

    def test_not_run(self) -> None:
        name = f"{__name__}.Small"
        self.assertEqual(said(Small("passes"), Small("skipped")), (0, [f"small: not run: {name}.skipped: no reason", "small: 1 passed, 0 failed"]))
        status, lines = said(Small("passes"), Small("partly_skipped"))
        self.assertEqual((status, lines[-1]), (0, "small: 1 passed, 0 failed"))
        self.assertRegex(lines[0], r"^small: not run: .*partly_skipped .*1.*: not this one$")
        self.assertEqual(said(Small("expected")), (0, [f"small: not run: {name}.expected: it is expected to fail", "small: 0 passed, 0 failed"]))

    def test_up_to_the_first(self) -> None:
        self.assertEqual(said(Small("passes"), Small("fails"), Small("errs"), first=True), (1, ["small: 1 passed, 1 failed"]))
