"""Files that several change: one at a time, each from what the one before it left, and each written whole or not at all.

How a file is locked and replaced differs by system, and stands in system.py. The new file is locked too from when it is there, where the system can: one that
is not was left by a process that was killed, and the next change in that folder removes it.
"""

from __future__ import annotations

import contextlib
import os
import random
import stat
import time
from pathlib import Path
from typing import Callable, Iterator

from .errors import Misuse
from .interrupts import at_the_end, heard, waiting
from .output import say
from .system import OPEN, Held, fresh, placed, replaced, sweep, sync_folder, take_after, turn

#: Seconds that one waits for others, where nothing is said.
WAIT = 10.0

#: Bytes of a file that are looked at before it is replaced: more than a job can have.
_LOOK = 1 << 20

#: What comes in place of a file's bytes; None stands for a file that is not there.
Renewal = Callable[[bytes | None], bytes]


class _Taken(Exception):
    """A file has come where one was to be made; nothing was changed."""


def change(path: Path, wait: float, renewed: Renewal, announce: Callable[[], None] = lambda: None, create: bool = False) -> None:
    """Changes the file as one step. `renewed` answers its new bytes from its old ones, and raises where it is to stay; it is asked again where the file
    has changed meanwhile. `announce` prints, before the file is changed: what cannot be printed is not done."""
    patience = _Patience(path, wait)
    while True:
        try:
            if _tried(path, patience, renewed, announce, create):
                return
        except OSError as why:
            raise Misuse(f"{path} could not be {'written' if create else 'changed'}: {why.strerror}") from None
        patience.pause("others change it again and again")


def _tried(path: Path, patience: _Patience, renewed: Renewal, announce: Callable[[], None], create: bool) -> bool:
    """One try; False where the file has changed meanwhile."""
    real = Path(os.path.realpath(path))
    if create and not real.exists():
        try:
            return _created(real, renewed(None), announce)
        except _Taken:
            return False
    mode = real.stat().st_mode
    if stat.S_ISREG(mode):
        return _turn(path, real, patience, renewed, announce)
    if not create or stat.S_ISDIR(mode) or stat.S_ISBLK(mode):
        raise Misuse(f"{path} is {'a folder' if stat.S_ISDIR(mode) else 'no file that can be changed'}")
    # A device or a pipe cannot be replaced.
    with real.open("wb", buffering=0) as out:
        out.write(renewed(None))
    return True


class _Patience:
    """How long is still waited, a little more from time to time."""

    def __init__(self, path: Path, wait: float) -> None:
        self.path, self.wait = path, wait
        self.end = time.monotonic() + wait
        self.step = 0.001

    def pause(self, why: str) -> None:
        left = self.end - time.monotonic()
        if left <= 0:
            raise Misuse(f"{self.path} was not changed: {why}, for {self.wait:g} s (--wait SECONDS waits longer)")
        # Of many that wait, no two for long at the same moments.
        time.sleep(min(left, self.step * random.uniform(0.5, 1)))
        self.step = min(self.step * 1.5, 0.05)


def _turn(path: Path, real: Path, patience: _Patience, renewed: Renewal, announce: Callable[[], None]) -> bool:
    """One's turn at a file that is there; False where it was another file's by then."""
    if not real.stat().st_mode & 0o222 or not os.access(real, os.W_OK):
        raise Misuse(f"{path} is read-only")
    with turn(path, real, patience.pause) as held:
        old = None if held is None else held.bytes(_LOOK)
        if held is None or old is None:
            return False
        names = held.names
        done = _replaced(path, real, held, old, renewed(old), announce, patience)
        if done and names > 1:
            others = "name (hard links) still has" if names == 2 else "names (hard links) still have"
            say(f"gearcard: {path} is changed under this name alone: its other {others} the file as it was")
        return done


def _replaced(path: Path, real: Path, held: Held, old: bytes, new: bytes, announce: Callable[[], None], patience: _Patience) -> bool:
    """Puts the new bytes in place of the old ones; False where those are no longer there, by one who takes no turn."""
    with _beside(real, new, held.like) as beside:
        if held.bytes(_LOOK) != old:
            return False
        with heard():
            announce()
        with at_the_end():
            while True:
                if held.bytes(_LOOK) != old:
                    raise Misuse(f"{path} was changed by another meanwhile, and not by this")
                if replaced(beside, real):
                    break
                patience.pause("another has it open")
    sync_folder(real)
    return True


def _created(real: Path, new: bytes, announce: Callable[[], None]) -> bool:
    """Makes a file that was not there; False where it is there by now."""
    with _beside(real, new, None) as beside:
        with heard():
            announce()
        with at_the_end():
            if not placed(beside, real):
                raise _Taken
    sync_folder(real)
    return True


@contextlib.contextmanager
def _beside(real: Path, data: bytes, like: os.stat_result | None) -> Iterator[Path]:
    """A new file in the same folder, with those bytes on the disk, and owner and mode of the old one. It is gone after the block, under that name: signals
    wait while it is there, but where the block hears them."""
    with waiting():
        sweep(real.parent)
        beside, file = fresh(real, 0o666 if like is None else 0o600)
        try:
            with os.fdopen(file, "wb") as out:
                out.write(data)
                out.flush()
                if like is not None:
                    take_after(out.fileno(), like, real)
                os.fsync(out.fileno())
                if OPEN:
                    # Open, and so locked, until it has its place.
                    yield beside
                    with contextlib.suppress(FileNotFoundError):
                        beside.unlink()
            if not OPEN:
                yield beside
        finally:
            with contextlib.suppress(FileNotFoundError):
                beside.unlink()
