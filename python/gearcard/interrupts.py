"""Ctrl-C and its like: heard while nothing is changed yet, and too late from then on. So an interrupted tool has changed nothing, and one that has
changed something ends as if it had not been interrupted."""

from __future__ import annotations

import contextlib
import signal
from typing import Iterator

from .system import BLOCK, SET, STOPS, UNBLOCK, keeps, mask

#: Whether something was changed since `heard` began.
_changed = False


class Stopped(KeyboardInterrupt):
    """One of the signals above, by its number."""

    def __init__(self, number: int) -> None:
        super().__init__(number)
        self.number = number


def _stop(number: int, frame: object) -> None:
    if keeps(number):
        return
    # One is enough: no other comes while what was begun is taken back.
    mask(BLOCK, STOPS)
    raise Stopped(number)


def prepare() -> None:
    """Keeps the signals waiting until `heard`, and makes each of them the exception above. One that the caller ignores, as nohup does, stays ignored."""
    mask(BLOCK, STOPS)
    for each in STOPS:
        if signal.getsignal(each) is not signal.SIG_IGN:
            signal.signal(each, _stop)


@contextlib.contextmanager
def heard() -> Iterator[None]:
    """The signals are heard within, one that waits at once; after it, as before it."""
    global _changed
    _changed = False
    before = mask(UNBLOCK, STOPS)
    try:
        yield
    finally:
        mask(SET, before)


@contextlib.contextmanager
def waiting() -> Iterator[None]:
    """A signal that comes within is heard after it, unless something was changed by then."""
    # One that came before this call is raised by it.
    before = mask(BLOCK, STOPS)
    try:
        yield
    finally:
        if not _changed:
            mask(SET, before)


@contextlib.contextmanager
def at_the_end() -> Iterator[None]:
    """What is done within changes something: no signal is heard from here on, to the end of `heard`. Where it raises, nothing was changed, and they are
    heard."""
    global _changed
    with waiting():
        yield
        _changed = True
