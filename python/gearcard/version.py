"""Which version this is."""

from __future__ import annotations

from pathlib import Path

#: At the root of the project; in an installed package beside this file.
_FILES = (Path(__file__).parent / "VERSION", Path(__file__).parents[2] / "VERSION")


def version() -> str:
    """The project's version, from the one file that has it."""
    return next((file.read_text().strip() for file in _FILES if file.is_file()), "of unknown version")
