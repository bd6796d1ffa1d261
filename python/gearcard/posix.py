"""What system.py promises, where there are `flock`, signals with a mask, and files that are replaced while they are open.

The lock is on the file itself: the system takes it back from a process that is killed, a file system that is shared carries it to other machines, and no
other file is left behind. A new file is renamed over the old one, and so the lock of a file that is no longer at its place is worth nothing: whoever gets
it looks again.
"""

from __future__ import annotations

import contextlib
import errno
import fcntl
import os
import re
import signal
import stat
from pathlib import Path
from typing import BinaryIO, Callable, Iterator, Protocol

from .errors import Misuse

LIBRARY = "libgearcard.so"
STOPS = (signal.SIGINT, signal.SIGTERM, signal.SIGHUP)
BLOCK, UNBLOCK, SET = signal.SIG_BLOCK, signal.SIG_UNBLOCK, signal.SIG_SETMASK
OWN = os.O_CLOEXEC
OPEN = True

#: What a new file is called until it has its place: by chance, so that one that a killed process left is in nobody's way.
_NEW = re.compile(r"\.gearcard-[0-9a-f]{16}")

mask = signal.pthread_sigmask


def keeps(number: int) -> bool:
    """The system keeps a signal that is blocked, so that no handler ever meets one."""
    return False


class Lock(Protocol):
    """A lock, as `threading` has them."""

    def acquire(self) -> object: ...

    def release(self) -> object: ...


def at_fork(lock: Lock) -> None:
    os.register_at_fork(before=lock.acquire, after_in_parent=lock.release, after_in_child=lock.release)


class Held:
    """The open file, with its lock."""

    def __init__(self, real: Path, file: int) -> None:
        self.real, self.file = real, file

    @property
    def like(self) -> os.stat_result | None:
        return os.fstat(self.file)

    def bytes(self, most: int) -> bytes | None:
        if not _stands(self.real, self.file):
            return None
        parts, at = [], 0
        while at < most and (part := os.pread(self.file, most - at, at)):
            parts.append(part)
            at += len(part)
        return b"".join(parts)

    @property
    def names(self) -> int:
        return os.fstat(self.file).st_nlink


def _stands(real: Path, file: int) -> bool:
    """Whether the open file is still the one at its place."""
    try:
        return os.path.samestat(os.fstat(file), os.stat(real))
    except FileNotFoundError:
        return False


@contextlib.contextmanager
def turn(path: Path, real: Path, pause: Callable[[str], None]) -> Iterator[Held | None]:
    try:
        file = os.open(real, os.O_RDWR | os.O_NONBLOCK | OWN)
    except FileNotFoundError:
        yield None
        return
    try:
        _lock(path, file, pause)
        yield Held(real, file)
    finally:
        os.close(file)


def _lock(path: Path, file: int, pause: Callable[[str], None]) -> None:
    while True:
        try:
            fcntl.flock(file, fcntl.LOCK_EX | fcntl.LOCK_NB)
            return
        except BlockingIOError:
            pause("another is changing it")
        except OSError as why:
            raise Misuse(f"{path} could not be locked: {why.strerror}") from None


def fresh(real: Path, mode: int) -> tuple[Path, int]:
    while True:
        beside = real.with_name(f".gearcard-{os.urandom(8).hex()}")
        file = os.open(beside, os.O_CREAT | os.O_EXCL | os.O_WRONLY | OWN, mode)
        with contextlib.suppress(OSError):
            # A file system without locks has nobody who sweeps.
            fcntl.flock(file, fcntl.LOCK_EX)
        if _stands(beside, file):
            return beside, file
        # One that sweeps was first.
        os.close(file)


def sweep(folder: Path) -> None:
    with contextlib.suppress(OSError), os.scandir(folder) as entries:
        for each in [entry.path for entry in entries if _NEW.fullmatch(entry.name)]:
            with contextlib.suppress(OSError):
                file = os.open(each, os.O_RDONLY | os.O_NONBLOCK | os.O_NOFOLLOW | OWN)
                try:
                    # Whoever is at work has the lock.
                    fcntl.flock(file, fcntl.LOCK_EX | fcntl.LOCK_NB)
                    if _stands(Path(each), file):
                        os.unlink(each)
                finally:
                    os.close(file)


def replaced(beside: Path, real: Path) -> bool:
    os.replace(beside, real)
    return True


def placed(beside: Path, real: Path) -> bool:
    try:
        os.link(beside, real)
    except FileExistsError:
        return False
    except OSError as why:
        if why.errno not in (errno.EPERM, errno.EOPNOTSUPP, errno.EMLINK):
            raise
        # A file system without links: an empty file takes the place, and is then replaced as any other.
        os.close(os.open(real, os.O_CREAT | os.O_EXCL | os.O_WRONLY, 0o666))
        return False
    return True


def take_after(file: int, like: os.stat_result, real: Path) -> None:
    mine = os.fstat(file)
    if (mine.st_uid, mine.st_gid) != (like.st_uid, like.st_gid):
        try:
            os.fchown(file, like.st_uid, like.st_gid)
        except PermissionError:
            raise Misuse(f"{real} belongs to another user, and could not after this: take a copy") from None
    os.fchmod(file, stat.S_IMODE(like.st_mode))


def sync_folder(real: Path) -> None:
    folder = os.open(real.parent, os.O_RDONLY | os.O_DIRECTORY | OWN)
    try:
        os.fsync(folder)
    except OSError as why:
        # A file system that has nothing to sync there says so.
        if why.errno != errno.EINVAL:
            raise Misuse(f"{real} is written, but may be lost where the machine stops now: {why.strerror}") from None
    finally:
        os.close(folder)


def opened(path: Path) -> BinaryIO:
    return path.open("rb")
