"""The types of the page's script, as its comments say them."""

from __future__ import annotations

import subprocess
import unittest

from .browser import TOP


class Typed(unittest.TestCase):
    def test_tsc_finds_the_types_as_the_comments_say_them(self) -> None:
        done = subprocess.run(["tsc", "-p", "web"], cwd=TOP, capture_output=True, text=True)
        self.assertEqual((done.returncode, done.stdout + done.stderr), (0, ""))
