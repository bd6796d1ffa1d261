"""The shared library of include/gearcard.h: found, looked at, and its functions with their types.

An installed package has the library beside it. In a checkout it is target/lib/libgearcard.so, which `./library` proves and builds where it is missing or
older than what it is made of.
"""

from __future__ import annotations

import ctypes
import functools
import os
from collections.abc import Iterator
from pathlib import Path

from . import structs
from .system import LIBRARY
from .version import version

_HERE = Path(__file__).resolve().parent
_INSTALLED = _HERE / LIBRARY

#: The folder that has the commands, in a checkout.
TOP = _HERE.parents[1]

VERSION = version()


class Failure(RuntimeError):
    """There is no library to call. `told` says that the reason stands on standard error already."""

    def __init__(self, words: str, told: bool = False) -> None:
        super().__init__(words)
        self.told = told


@functools.cache
def functions() -> dict[str, ctypes._NamedFuncPointer]:
    """The functions by name, without gearcard_.

    They are called with the interpreter's lock held (`PyDLL`), which they keep for some microseconds: no other thread of Python runs meanwhile, so none
    can change a list that is lent, as the functions ask of their caller.
    """
    library = _loaded(_INSTALLED if _INSTALLED.exists() else _built())
    found = {}
    for name, (answer, takes) in structs.FUNCTIONS.items():
        function = library[f"gearcard_{name}"]
        function.restype, function.argtypes = answer, takes
        found[name] = function
    return found


def _loaded(path: Path) -> ctypes.PyDLL:
    try:
        library = ctypes.PyDLL(str(path))
    except OSError as why:
        import platform

        raise Failure(f"{path} is no shared library for this machine, {platform.machine()}: {str(why).removeprefix(f'{path}: ')}") from None
    try:
        version = ctypes.string_at(ctypes.addressof(ctypes.c_char.in_dll(library, "gearcard_version"))).decode()
    except ValueError:
        raise Failure(f"{path} is no library of the gear card") from None
    if version != VERSION:
        raise Failure(f"{path} has version {version}, and this package {VERSION}")
    return library


def _built() -> Path:
    """The library of a checkout. While `./library` builds it, a line on a terminal shows how far it is."""
    path = TOP / "target/lib/libgearcard.so"
    if not _up_to_date(path):
        import subprocess

        try:
            status = subprocess.run([TOP / "library"], stdin=subprocess.DEVNULL, stdout=subprocess.DEVNULL).returncode
        except OSError as why:
            raise Failure(f"{TOP / 'library'} could not be started: {why.strerror}") from None
        if status != 0:
            raise Failure(f"{TOP / 'library'} ended with status {status}", told=status == 2)
    return path


def _up_to_date(path: Path) -> bool:
    """As `./library` sees it."""
    scripts = ("library", "scripts/kit.sh", "scripts/retarget", "scripts/windows.c")
    parts = [TOP / name for name in ("crates.txt", "VERSION", "include/exports.txt", *scripts)]
    try:
        made = path.stat().st_mtime_ns
        return all(each.stat().st_mtime_ns <= made for each in parts) and all(each.stat().st_mtime_ns <= made for each in _sources())
    except OSError:
        return False


def _sources() -> Iterator[os.DirEntry[str]]:
    """The files and folders of each crate, but for what rt makes in its `out`."""
    for crate in os.scandir(TOP / "crates"):
        for part in os.scandir(crate.path):
            if part.name != "out":
                yield part
                if part.is_dir(follow_symlinks=False):
                    yield from _below(part.path)


def _below(folder: Path | str) -> Iterator[os.DirEntry[str]]:
    for each in os.scandir(folder):
        yield each
        if each.is_dir(follow_symlinks=False):
            yield from _below(each.path)
