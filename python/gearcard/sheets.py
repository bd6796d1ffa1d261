"""A spreadsheet's CSV as rows of cells: its encoding, its separator, and every row of one shape. What is in the cells is for `tables`."""

from __future__ import annotations

import codecs
import csv
import re
from typing import Iterable, Iterator, NamedTuple

from .errors import BadText

#: Bytes that a CSV file may have.
CSV_MOST = 16 << 20

_CONTROL = re.compile(r"[\x00-\x08\x0b\x0c\x0e-\x1f\x7f]")

#: The separators, and which stands between the cells where more than one is in the first line.
_MARKS = (";", "\t", ",")


class Row(NamedTuple):
    """A row's line, from 1, and its cells."""

    line: int
    cells: list[str]


class Sheet(NamedTuple):
    """The rows, of which the first may be a header, and what separates the cells."""

    name: str
    mark: str
    rows: list[Row]


def sheet_of(name: str, data: bytes, skip: int, decimal: str | None, most: int) -> Sheet:
    """The rows of a file after `skip` lines, of which there may be `most`."""
    lines = _decoded(name, data).replace("\r\n", "\n").replace("\r", "\n").split("\n")
    hint = re.fullmatch('"?sep=(.)"?', lines[0].strip(" "), re.IGNORECASE)
    start = max(skip, 1 if hint else 0)
    while start < len(lines) and not lines[start].strip():
        start += 1
    mark = hint[1] if hint else _mark("".join(lines[start : start + 1]), decimal)
    rows = list(_rows(name, lines, start, mark, most))
    if not rows:
        raise BadText(name, None, "it has no row")
    for place, row in enumerate(rows):
        _shaped(name, row, rows[0], place == 1)
    return Sheet(name, mark, rows)


def _decoded(name: str, data: bytes) -> str:
    if data.startswith(b"PK\x03\x04"):
        raise BadText(name, None, "it is a workbook: save the sheet as CSV")
    try:
        if data.startswith((codecs.BOM_UTF16_LE, codecs.BOM_UTF16_BE)):
            text = data.decode("utf-16")
        else:
            text = data.decode("utf-8-sig")
    except UnicodeDecodeError as why:
        if why.encoding.startswith("utf-16"):
            raise BadText(name, None, "it is no text in UTF-16, as which it begins: save it as CSV in UTF-8") from None
        # All that is read of it besides names is ASCII, which is the same there.
        text = data.decode("latin-1")
    found = _CONTROL.search(text)
    if found:
        line = text.count("\n", 0, found.start()) + 1
        raise BadText(name, line, f"it has the character {ord(found[0])}, which no text has: save it as CSV in UTF-8")
    return text


def _mark(line: str, decimal: str | None) -> str:
    """What separates the cells, by the first line. With a decimal comma and one column nothing does."""
    return next((mark for mark in _MARKS if mark in line), ";" if decimal == "," else ",")


def _rows(name: str, lines: list[str], start: int, mark: str, most: int) -> Iterator[Row]:
    """The rows from line `start` on, blank ones at the end left out."""
    reader = csv.reader((f"{line}\n" for line in lines[start:]), delimiter=mark, skipinitialspace=True, strict=True)
    blank = None
    count = 0
    try:
        for cells in reader:
            row = Row(start + reader.line_num, [cell.strip() for cell in cells])
            if not any(row.cells):
                blank = blank or row.line
                continue
            if blank is not None:
                raise BadText(name, blank, "the row is blank, and more rows follow: there is no second without a speed")
            if count and any("\n" in cell for cell in row.cells):
                raise BadText(name, row.line, "a cell goes over more than one line: is a quotation mark missing?")
            count += 1
            if count > most:
                raise BadText(name, row.line, "it has more rows than a trace can have seconds")
            yield row
    except csv.Error as why:
        raise BadText(name, start + reader.line_num, f"it is no CSV: {why}") from None


def _shaped(name: str, row: Row, first: Row, second: bool) -> None:
    """Every row has as many cells as the first. Where the second has another count, the first may be a title."""
    if len(row.cells) != len(first.cells):
        hint = " (trace.skip = N passes over N lines above the header)" if second or len(row.cells) > len(first.cells) else ""
        raise BadText(name, row.line, f"it has {_count(row.cells)}, and line {first.line} has {len(first.cells)}{hint}")


def _count(cells: Iterable[str]) -> str:
    count = len(list(cells))
    return f"{count} cell{'' if count == 1 else 's'}"
