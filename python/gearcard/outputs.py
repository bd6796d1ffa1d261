"""Where a tool writes what it makes: beside what it reads, elsewhere, or on standard output. What stands there is only replaced where it is of the same
kind, or by force."""

from __future__ import annotations

import argparse
import os
from pathlib import Path
from typing import Callable

from . import given
from .errors import Misuse
from .output import emit
from .reading import STDIN
from .store import WAIT, change


def typed(of: Callable[[str], object]) -> Callable[[str], object]:
    """What a word is, for the parser, which says in its own way what is wrong with one."""

    def parsed(word: str) -> object:
        try:
            return of(word)
        except Misuse as why:
            raise argparse.ArgumentTypeError(str(why)) from None

    return parsed


def add_wait(each: argparse.ArgumentParser) -> None:
    words = f"wait so long for others that change the file, {WAIT:g} if not given"
    each.add_argument("--wait", metavar="SECONDS", type=typed(given.wait), default=WAIT, help=words)


def add_output(each: argparse.ArgumentParser, ending: str, otherwise: str = "") -> None:
    """The words that say where to; `otherwise` is the name where none is given."""
    words = f"where to; - is standard output ({otherwise or f'the name of the file that is read, with {ending}'}, if not given)"
    each.add_argument("-o", dest="output", metavar=f"FILE{ending}", type=typed(given.file), default=Path(otherwise) if otherwise else None, help=words)
    each.add_argument("--force", action="store_true", help="write over the file that is read, or over one of another kind")
    add_wait(each)


def put(args: argparse.Namespace, ending: str, data: bytes, is_kind: Callable[[bytes], bool], kind: str) -> None:
    """Writes a file, or standard output where it is `-`."""
    path: Path = args.output or beside(args.file, ending)
    if path == STDIN:
        emit(data)
        return
    if not args.force and _same(args.file, path):
        raise Misuse(f"{path} is what it is made from (--force writes over it)")

    def renewed(old: bytes | None) -> bytes:
        if old and not is_kind(old) and not args.force:
            raise Misuse(f"{path} is there, and is no {kind} (--force writes over it)")
        return data

    change(path, args.wait, renewed, create=True)


def _same(source: Path | None, path: Path) -> bool:
    try:
        return source is not None and source != STDIN and os.path.samefile(source, path)
    except OSError:
        return False


def beside(path: Path, ending: str) -> Path:
    """The file's name with another ending; of standard input, standard output."""
    if path == STDIN:
        return STDIN
    try:
        return path.with_suffix(ending)
    except ValueError:
        raise Misuse(f"{path} has no name to make another of: -o says where to") from None
