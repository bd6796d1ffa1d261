"""Runs the tests of the page; tests/web/run is the command, and says the words."""

import os
import sys
import unittest
from pathlib import Path

TOP = Path(__file__).resolve().parents[2]
os.chdir(TOP)
# A module here is none of the standard library's, whatever its name.
sys.path[:1] = [str(TOP / "python"), str(TOP)]

from tests import counted  # noqa: E402
from tests.web import browser, others  # noqa: E402

MODULES: tuple[str, ...] = ("typed", "looks", "edits", "forms", "files", "jobs", "driver", "drawn", "state", "speed", "engines", "dropped", "themes")
MODULES += ("run_window", "run_slips", "run_holds", "run_record")


def main() -> int:
    names = sys.argv[1:]
    first = names[:1] == ["--first"]
    names = names[first:]
    if names[:1] == ["--but"]:
        names = [name for name in MODULES if name not in names[1:]]
    suite = unittest.defaultTestLoader.loadTestsFromNames([f"tests.web.{name}" for name in names or MODULES])
    try:
        return counted.run("web", suite, first=first)
    finally:
        browser.end()
        others.end()


sys.exit(main())
