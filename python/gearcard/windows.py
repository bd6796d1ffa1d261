"""What system.py promises, on Windows, which replaces no file that is open, has no mask of signals, and forks nothing.

The lock is a file beside the job, which one process at a time has open, shared with none: Windows deletes it as it is closed, and closes it where its process
is killed. A file that another has open is waited for, and a reader that meets one as it is replaced tries again. A file's owner is the one who writes
it, as on every new file there, and there is no folder to sync.
"""

from __future__ import annotations

import sys

assert sys.platform == "win32"

import _winapi  # noqa: E402  (there is none elsewhere)
import contextlib  # noqa: E402
import os  # noqa: E402
import signal  # noqa: E402
import time  # noqa: E402
from pathlib import Path  # noqa: E402
from typing import BinaryIO, Callable, Iterable, Iterator  # noqa: E402

LIBRARY = "gearcard.dll"
STOPS = (signal.SIGINT, signal.SIGBREAK)
BLOCK, UNBLOCK, SET = range(3)
OWN = os.O_BINARY | os.O_NOINHERIT
OPEN = False

#: Seconds after which a new file that has not found its place was left by a process that is gone: none waits as long.
_LEFT = 3600.0

#: CreateFile's numbers, as Windows has them: the right to delete, opened or made, deleted as it is closed; and what it says where another has the file open.
_DELETE, _OPEN_ALWAYS, _DELETE_ON_CLOSE, _SHARING_VIOLATION = 0x10000, 4, 0x04000000, 32

#: Seconds for which a file that cannot be opened is tried again: being replaced takes a moment.
_MOMENT = 1.0

#: The signals that are blocked, and one that came meanwhile.
_blocked: frozenset[int] = frozenset()
_kept: int | None = None


def mask(how: int, signals: Iterable[int]) -> frozenset[int]:
    global _blocked, _kept
    before, given = _blocked, frozenset(signals)
    _blocked = (before | given, before - given, given)[how]
    if _kept is not None and _kept not in _blocked:
        number, _kept = _kept, None
        signal.raise_signal(number)
    return before


def keeps(number: int) -> bool:
    global _kept
    if number in _blocked:
        _kept = number
    return number in _blocked


def at_fork(lock: object) -> None:
    """There is no fork."""


class Held:
    """The file by its name: none that is open is replaced."""

    like: os.stat_result | None = None

    def __init__(self, real: Path) -> None:
        self.real = real

    @property
    def names(self) -> int:
        return os.stat(self.real).st_nlink

    def bytes(self, most: int) -> bytes | None:
        try:
            with opened(self.real) as file:
                return file.read(most)
        except FileNotFoundError:
            return None


@contextlib.contextmanager
def turn(path: Path, real: Path, pause: Callable[[str], None]) -> Iterator[Held | None]:
    lock = _lock(real, pause)
    try:
        yield Held(real) if real.exists() else None
    finally:
        _winapi.CloseHandle(lock)


def _lock(real: Path, pause: Callable[[str], None]) -> int:
    """A handle that none else can have."""
    while True:
        try:
            return _winapi.CreateFile(str(real.with_name(f".{real.name}.gearcard")), _DELETE, 0, 0, _OPEN_ALWAYS, _DELETE_ON_CLOSE, 0)
        except PermissionError as why:
            # For a moment as the other ends, and for good in a folder that takes no file, access is denied.
            pause("another is changing it" if why.winerror == _SHARING_VIOLATION else "its folder takes no file, or another is changing it")


def fresh(real: Path, mode: int) -> tuple[Path, int]:
    beside = real.with_name(f".gearcard-{os.urandom(8).hex()}")
    return beside, os.open(beside, os.O_CREAT | os.O_EXCL | os.O_WRONLY | OWN, mode)


def sweep(folder: Path) -> None:
    with contextlib.suppress(OSError):
        for each in folder.glob(".gearcard-" + "[0-9a-f]" * 16):
            with contextlib.suppress(OSError):
                if time.time() - each.stat().st_mtime > _LEFT:
                    each.unlink()


def replaced(beside: Path, real: Path) -> bool:
    try:
        os.replace(beside, real)
    except PermissionError:
        return False
    return True


def placed(beside: Path, real: Path) -> bool:
    # A file that is renamed takes the place of no other there.
    try:
        os.rename(beside, real)
    except FileExistsError:
        return False
    return True


def take_after(file: int, like: os.stat_result, real: Path) -> None:
    """A new file is its writer's."""


def sync_folder(real: Path) -> None:
    """A folder cannot be opened."""


def opened(path: Path) -> BinaryIO:
    until = time.monotonic() + _MOMENT
    while True:
        try:
            return path.open("rb")
        except PermissionError:
            if path.is_dir() or time.monotonic() > until:
                raise
            time.sleep(0.002)
