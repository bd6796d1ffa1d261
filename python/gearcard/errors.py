"""What is wrong with a file or a word that the user gave: one line for people, with the place."""

from __future__ import annotations


class Misuse(ValueError):
    """A word, a key or a file that the tools cannot take; nothing was worked out or written."""


class BadText(Misuse):
    """A fault in a text or a spreadsheet, with its line, from 1."""

    def __init__(self, name: str, line: int | None, words: str) -> None:
        super().__init__(f"{name}: {words}" if line is None else f"{name} line {line}: {words}")
        self.line = line
