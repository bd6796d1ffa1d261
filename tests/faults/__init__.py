"""Faults that the tests must notice: `./test --faults` plants them one by one in a copy of the tree, and runs the part of the tests that each names."""

from __future__ import annotations

from typing import NamedTuple


class Fault(NamedTuple):
    """In `file` the text `old`, which stands there once, becomes `new`. `part` is what is run: a command of tests/ and what it is to run."""

    file: str
    what: str
    part: str
    old: str
    new: str


def all_faults() -> list[Fault]:
    from . import packages, page, tools

    return [*page.FAULTS, *packages.FAULTS, *tools.FAULTS]
