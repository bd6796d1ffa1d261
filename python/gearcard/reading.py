"""Bytes as the tools take them: from a file, or from standard input where the name is `-`, and never more than there may be."""

from __future__ import annotations

import sys
from pathlib import Path
from typing import BinaryIO

from .errors import Misuse
from .system import opened

STDIN = Path("-")


def bytes_of(path: Path, most: int, name: str | None = None) -> bytes:
    """A file's bytes, of which there may be `most`."""
    name = str(path) if name is None else name
    try:
        if path == STDIN:
            data = _standard_input().read(most + 1)
        else:
            with opened(path) as file:
                data = file.read(most + 1)
    except OSError as why:
        raise Misuse(f"{name} could not be read: {why.strerror}") from None
    except ValueError:
        raise Misuse(f"{name} could not be read: that is no name of a file") from None
    if len(data) > most:
        raise Misuse(f"{name} has more than {most:,} bytes, which is more than such a file can have")
    return data


def _standard_input() -> BinaryIO:
    if sys.stdin is None:
        raise OSError(0, "standard input is closed")
    return sys.stdin.buffer


def shown(path: Path) -> str:
    """What a file is called in a message."""
    return "standard input" if path == STDIN else path.name or str(path)
