"""What a tool prints: on standard output what was asked for, on standard error one line where that could not be."""

from __future__ import annotations

import argparse
import os
import sys
import unicodedata
from decimal import Decimal
from typing import Sequence

from .errors import Misuse

#: Characters of a key or a cell that a message shows, and of the whole of it.
_SHOWN, _LINE = 80, 1000


def plain(words: object) -> str:
    """The words with every character escaped that would end the line, steer a terminal or not be seen: names and cells are the user's, and may have any."""
    return "".join(_escaped(each) if unicodedata.category(each)[0] in "CZ" and each != " " else each for each in str(words))


def _escaped(character: str) -> str:
    code = ord(character)
    if 0xDC80 <= code <= 0xDCFF:
        # a byte of a name that is not UTF-8, as Python carries it
        code -= 0xDC00
    return f"\\x{code:02x}" if code < 0x100 else f"\\u{code:04x}" if code < 0x10000 else f"\\U{code:08x}"


def short(words: object, most: int = _SHOWN) -> str:
    """The words, or their beginning where they are long."""
    text = str(words)
    return text if len(text) <= most else f"{text[:most]}.."


def emit(text: str | bytes) -> None:
    """Prints on standard output; a reader that has gone included, what is not taken is a failure."""
    try:
        if sys.stdout is None:
            raise OSError
        sys.stdout.buffer.write(text.encode() if isinstance(text, str) else text)
        sys.stdout.flush()
    except OSError:
        # Or Python would try again as it ends.
        os.dup2(os.open(os.devnull, os.O_WRONLY), 1)
        raise Misuse("standard output could not be written") from None


def emit_rows(args: argparse.Namespace, columns: Sequence[str], rows: Sequence[Sequence[object]]) -> None:
    """Prints rows for a spreadsheet, or with --json for a program: a list with an object a row."""
    if args.json:
        import json

        emit("[" + ",\n ".join(json.dumps(dict(zip(columns, row)), default=float) for row in rows) + "]\n")
        return
    mark, decimal = (";", ",") if args.decimal == "comma" else (",", ".")
    lines = (mark.join(_cell(cell, mark, decimal) for cell in row) for row in (columns, *rows))
    emit("\n".join(lines) + "\n")


def _cell(cell: object, mark: str, decimal: str) -> str:
    """A cell for a spreadsheet; words with a separator, a quotation mark or a line's end in them stand between quotation marks."""
    if isinstance(cell, (float, Decimal)):
        return str(cell).replace(".", decimal)
    words = "" if cell is None else str(cell)
    return '"' + words.replace('"', '""') + '"' if any(each in words for each in (mark, '"', "\r", "\n")) else words


def say(words: object) -> None:
    """One line on standard error, where there is one that takes it."""
    if sys.stderr is not None:
        try:
            print(short(plain(words), _LINE), file=sys.stderr, flush=True)
        except OSError:
            pass
