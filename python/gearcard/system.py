"""What differs by system, in one place: what the tools need of it, and two ways to have it, posix.py and windows.py. Each of the two promises this.

`LIBRARY`: what the shared library of an installed package is called.

`STOPS`: the signals by which a user ends a tool. `mask(how, signals)` is as `signal.pthread_sigmask`, with `BLOCK`, `UNBLOCK` and `SET`: a signal that comes
while it is blocked is not lost, and is heard when it no longer is. `keeps(number)` is asked by its handler, first of all: True where it is blocked, and
kept.

`at_fork(lock)`: a child of a fork has the lock free.

`turn(path, real, pause)`: within, one process has the file to itself, against all that take turns; the system takes the turn back from a process that is
killed. `pause(why)` is called while another has it, and raises where that takes too long. It answers what is held, or None where the file is gone.
`Held.bytes(most)`: so many bytes of the file as it is; None where it is gone, or another has come in its place. `Held.like`: whose owner and mode a new
file takes. `Held.names`: how many names (hard links) it has.

`fresh(real, mode)`: a new file beside it, open, under a name that is nobody's. `OPEN`: whether it may stay open while it takes its place; then it is locked
meanwhile. `sweep(folder)`: the new files that processes left there that are gone, and no others, are removed.

`replaced(beside, real)`: the new file takes the place of the old one, at any moment the one or the other being there, whole; False where another has the
old one open, on a system that then replaces nothing. `placed(beside, real)`: the new file takes a place where none is; False where there is one by now.
`take_after(file, like, real)`: the open new file has the owner and mode of the old one, or it is misuse. `sync_folder(real)`: what was renamed there
outlives a loss of power, as far as the system can promise it.

`OWN`: the flags by which a file is opened as its bytes are, and for this process alone. `opened(path)`: a file to read; one that is being replaced at that
moment is tried again.
"""

from __future__ import annotations

import sys

if sys.platform == "win32":
    from .windows import BLOCK, LIBRARY, OPEN, OWN, SET, STOPS, UNBLOCK, Held, at_fork, fresh, keeps, mask
    from .windows import opened, placed, replaced, sweep, sync_folder, take_after, turn
else:
    from .posix import BLOCK, LIBRARY, OPEN, OWN, SET, STOPS, UNBLOCK, Held, at_fork, fresh, keeps, mask
    from .posix import opened, placed, replaced, sweep, sync_folder, take_after, turn

__all__ = [
    "BLOCK",
    "LIBRARY",
    "OPEN",
    "OWN",
    "SET",
    "STOPS",
    "UNBLOCK",
    "Held",
    "at_fork",
    "fresh",
    "keeps",
    "mask",
    "opened",
    "placed",
    "replaced",
    "sweep",
    "sync_folder",
    "take_after",
    "turn",
]
